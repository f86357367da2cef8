//! Times the three sides in one process: the library, the second program and the program written for speed.
//!
//! `bench [--runs N] [--limits]`: each figure is the best of so many runs (25), the sides in turn; with `--limits` it
//! fails where the library takes more times as long as the fastest other side than the operation's limit.

use second::bench::given::{self, Given};
use second::bench::table::Tables;
use second::bench::Operation::{
    Check, CheckInOne, Late, PartitionSets, Plan, ReadList, ReadText, Run, WriteList, WriteText,
};
use second::generate::{lists, papers};
use std::process::exit;

/// All sides; without the second program, whose plain search takes minutes for the slow orders; and without the program
/// for speed, which has the second program's text, lists and late jobs.
const ALL: [usize; 3] = [0, 1, 2];
const FAST: [usize; 2] = [0, 2];
const PLAIN: [usize; 2] = [0, 1];

/// How many orders of a family are drawn.
const ORDERS: u32 = 100;

/// Accepted orders apart from refused ones.
fn apart(given: &[Given]) -> (Vec<&Given>, Vec<&Given>) {
    given.iter().partition(|given| given.accepted())
}

fn families(tables: &mut Tables) {
    tables.head("Orders of the source documents", "Orders");
    for (name, draw) in papers::FAMILIES {
        let given = given::family(draw, ORDERS);
        let (accepted, refused) = apart(&given);
        let refused_name = format!("{name}, refused");
        tables.row(name, Plan, &ALL, &accepted);
        tables.row(&refused_name, Plan, &ALL, &refused);
        tables.row(name, Check, &ALL, &accepted);
        let in_one = given.iter().partition(|given| accepts_in_one(given));
        let (accepted_in_one, refused_in_one): (Vec<&Given>, Vec<&Given>) = in_one;
        tables.row(name, CheckInOne, &ALL, &accepted_in_one);
        tables.row(&refused_name, CheckInOne, &ALL, &refused_in_one);
        tables.row(name, Run, &ALL, &accepted);
    }
}

fn accepts_in_one(given: &Given) -> bool {
    second::check(&given.order, &given.in_one).number == 0
}

fn filling(tables: &mut Tables) {
    tables.head("32 tasks in one, 8 and 32 partitions", "Partitions");
    for partitions in [1, 8, 32] {
        let given = given::filling(partitions, 1_024, 20);
        let (accepted, _) = apart(&given);
        for operation in [Plan, Check, Run] {
            tables.row(&partitions.to_string(), operation, &ALL, &accepted);
        }
    }
}

fn growth(tables: &mut Tables) {
    tables.head("How plan grows with n (003, M = 16, accepted)", "n");
    for n in [2, 4, 8, 12, 16, 20, 24, 28, 32] {
        let given = given::growing(n, 40);
        tables.row(&n.to_string(), Plan, &ALL, &apart(&given).0);
    }
    tables.head("How run grows with records (32 tasks, 8 partitions)", "Records");
    for records in [0, 32, 64, 128, 256, 512, 1_024] {
        let given = given::filling(8, records, 20);
        tables.row(&records.to_string(), Run, &ALL, &apart(&given).0);
    }
}

fn slow(tables: &mut Tables) {
    tables.head("Orders that were made to be slow", "Order");
    for (place, given) in given::slow_ones().iter().enumerate() {
        let name = format!("slow {}", place + 1);
        tables.row(&name, Plan, &FAST, &[given]);
        tables.row(&name, CheckInOne, &FAST, &[given]);
        if given.accepted() {
            tables.row(&name, Run, &FAST, &[given]);
        }
    }
}

fn texts(tables: &mut Tables) {
    tables.head("The order form's text", "Text");
    let given = given::filling(8, 0, 20);
    let given: Vec<&Given> = given.iter().collect();
    tables.row("32 lines", ReadText, &PLAIN, &given);
    tables.row("32 lines", WriteText, &PLAIN, &given);
    for count in [1_000, 10_000, 100_000, 1_000_000] {
        tables.row(&format!("{count} zeros in front"), ReadText, &PLAIN, &[&given::zeros(count)]);
    }
    let count = 1_000_000;
    tables.row(&format!("{count} line feeds"), ReadText, &PLAIN, &[&given::line_feeds(count)]);
}

fn lists(tables: &mut Tables) {
    tables.head("Lists of processors", "List");
    let given = given::sets(ORDERS);
    let given: Vec<&Given> = given.iter().collect();
    let (longest, full) = (given::of_set(lists::LONGEST), given::of_set(u64::MAX));
    let rows = [("random sets", given), ("the longest", vec![&longest]), ("0-63", vec![&full])];
    for operation in [WriteList, ReadList] {
        rows.iter().for_each(|(name, given)| tables.row(name, operation, &PLAIN, given));
    }
    let (items, zeros) = ("7,".repeat(511) + "07", "0".repeat(1_022) + "63");
    tables.row("512 items, 1,024 bytes", ReadList, &PLAIN, &[&given::of_list(items)]);
    tables.row("a number of 1,024 digits", ReadList, &PLAIN, &[&given::of_list(zeros)]);
    tables.head("Partitions' sets, of 32 tasks", "Partitions");
    for partitions in [1, 8, 32] {
        let given = given::filling(partitions, 0, 20);
        tables.row(&partitions.to_string(), PartitionSets, &ALL, &apart(&given).0);
    }
}

/// How many times as long as the check the late job may take for a slow order.
const LATE: f64 = 2.0;

fn late(tables: &mut Tables) {
    tables.head("Late jobs", "Orders");
    let families = papers::FAMILIES.map(|(name, draw)| (name, given::family(draw, ORDERS)));
    let mut rows: Vec<(&str, Vec<Given>)> = families.into_iter().collect();
    rows.iter_mut().for_each(|(_, given)| given.retain(Given::is_late));
    rows.push(("1,024 records", given::on_the_line(20)));
    for (name, given) in &rows {
        tables.row(name, Late, &PLAIN, &given.iter().collect::<Vec<&Given>>());
    }
    tables.head_beside("Late jobs beside the check", "Orders");
    for (name, given) in rows.iter().filter(|(_, given)| !given.is_empty()) {
        tables.row_beside(name, &given.iter().collect::<Vec<&Given>>(), None);
    }
    for (place, given) in &given::slow_late() {
        tables.row_beside(&format!("slow {}", place + 1), &[given], Some(LATE));
    }
}

fn main() {
    let mut tables = Tables { runs: 25, largest: Vec::new() };
    let mut limits = false;
    let mut arguments = std::env::args().skip(1);
    while let Some(word) = arguments.next() {
        match word.as_str() {
            "--limits" => limits = true,
            "--runs" => {
                let runs = arguments.next().and_then(|number| number.parse().ok());
                tables.runs = runs.expect("--runs N");
            }
            _ => {
                eprintln!("options: --runs N  --limits");
                exit(2)
            }
        }
    }
    families(&mut tables);
    filling(&mut tables);
    growth(&mut tables);
    slow(&mut tables);
    texts(&mut tables);
    lists(&mut tables);
    late(&mut tables);
    if !tables.close() && limits {
        println!("\nsome ratio is over its limit");
        exit(1);
    }
}
