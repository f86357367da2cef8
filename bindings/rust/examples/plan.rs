//! Plans the sample order, or the order in the file that is named, or the text in it with M named before, and prints its
//! build as the printer does: `plan`, `plan ORDER` or `plan M TEXT`.

use jefkantu::{plan, read_text, write_order, Build, Order};
use std::error::Error;
use std::process::ExitCode;

/// The sample order of document 01, of 64-bit numbers: m, T, D and C of each task.
fn sample() -> Result<Vec<u8>, Box<dyn Error>> {
    let rows: [[i64; 4]; 3] = [[2, 10, 10, 4], [1, 14, 13, 4], [1, 14, 13, 4]];
    Ok(write_order(&Order::of(4, rows)?)?)
}

/// The lines of the order's build.
fn lines() -> Result<String, Box<dyn Error>> {
    let arguments: Vec<_> = std::env::args_os().skip(1).collect();
    let order = match &arguments[..] {
        [] => sample()?,
        [file] => std::fs::read(file)?,
        [m, file, ..] => read_text(m.to_string_lossy().parse::<u64>()?, std::fs::read(file)?)?,
    };
    let build = plan(&order)?;
    Ok(Build::read(&order, &build)?.to_string())
}

fn main() -> ExitCode {
    match lines() {
        Ok(lines) => print!("{lines}"),
        Err(error) => {
            eprintln!("{error}");
            return ExitCode::FAILURE;
        }
    }
    ExitCode::SUCCESS
}
