//! The programs' options: `--cases N`, `--seed S`, `--each K`, `--least K`, `--only read,write,..`, `--form F`.

use crate::case::Operation;
use crate::vectors::Form;

/// What to draw.
pub struct Options {
    pub cases: u64,
    pub seed: u64,
    pub each: u32,
    pub least: u32,
    pub only: Option<Vec<Operation>>,
    pub form: Form,
}

impl Options {
    /// The options given, or else a hint on the standard error and exit code 2.
    pub fn from_arguments() -> Options {
        Options::parse(std::env::args().skip(1)).unwrap_or_else(|| {
            let names: Vec<&str> = Operation::all().into_iter().map(Operation::name).collect();
            eprintln!("options: --cases N  --seed S  --each K  --least K");
            eprintln!("         --only {}", names.join(","));
            eprintln!("         --form text, --form cases or --form answers");
            std::process::exit(2)
        })
    }

    /// The operations to draw: those asked for, or all.
    pub fn operations(&self) -> Vec<Operation> {
        self.only.clone().unwrap_or(Operation::all())
    }

    fn parse(mut arguments: impl Iterator<Item = String>) -> Option<Options> {
        let form = Form::Text;
        let mut options = Options { cases: 440_000, seed: 1, each: 4, least: 0, only: None, form };
        while let Some(name) = arguments.next() {
            let value = arguments.next()?;
            match name.as_str() {
                "--cases" => options.cases = value.parse().ok()?,
                "--seed" => options.seed = value.parse().ok()?,
                "--each" => options.each = value.parse().ok()?,
                "--least" => options.least = value.parse().ok()?,
                "--only" => options.only = Some(operations(&value)?),
                "--form" => options.form = Form::named(&value)?,
                _ => return None,
            }
        }
        Some(options)
    }
}

fn operations(names: &str) -> Option<Vec<Operation>> {
    let named = |name| Operation::all().into_iter().find(|op| op.name() == name);
    names.split(',').map(named).collect()
}
