//! What the operations are given.

use super::Operation;
use crate::answer::Cause;
use crate::build::Build;
use crate::generate::random::Random;
use crate::generate::{builds, late, lists, papers, scripts, slow, Scale};
use crate::late::Late;
use crate::order::{Order, Task};
use crate::script::{self, Record};
use crate::{check, counted, list, speed, text};

/// An order with its build, none if it is refused; the build with all tasks in one partition; a legal script; M and a
/// text; a set and a list.
pub struct Given {
    pub order: Vec<u8>,
    pub build: Vec<u8>,
    pub in_one: Vec<u8>,
    pub script: Vec<u8>,
    pub processors: u32,
    pub text: Vec<u8>,
    pub set: u64,
    pub list: Vec<u8>,
}

impl Given {
    fn new(order: &Order, script: &[Record]) -> Given {
        let (bytes, mut build) = (order.bytes(), vec![0; 195]);
        let planned = speed::plan(&bytes, &mut build);
        build.truncate(planned.count as usize);
        let in_one = builds::all_in_one(order).bytes();
        Given {
            order: bytes,
            build,
            in_one,
            script: script::bytes(script),
            processors: order.processors,
            text: text::write(order),
            set: 0,
            list: Vec::new(),
        }
    }

    pub fn accepted(&self) -> bool {
        !self.build.is_empty()
    }

    pub fn records(&self) -> usize {
        self.script.len() / 6
    }

    /// The library's terms in an operation, as its copy counts them; a text and a list have none.
    pub fn terms(&self, operation: Operation) -> u64 {
        let checked = |order: &Order, build: &[u8]| {
            let build = check::read(build, order).expect("a build");
            counted::check(order, &build).1
        };
        let order = Order::read(&self.order).expect("an order");
        match operation {
            Operation::Plan => counted::plan(&order).1,
            Operation::CheckInOne => checked(&order, &self.in_one),
            Operation::Late => {
                let build = check::read(&self.in_one, &order).expect("a build");
                late::terms(&order, &build).map_or(0, |(check, late)| check + late)
            }
            Operation::Check | Operation::Run | Operation::PartitionSets => {
                checked(&order, &self.build)
            }
            _ => 0,
        }
    }

    /// The late one's records, of any number.
    pub fn late_records(&self) -> usize {
        Late::new(&self.order, &self.in_one).map_or(0, |late| late.script.len())
    }

    pub fn is_late(&self) -> bool {
        speed::check(&self.order, &self.in_one).number == Cause::Late as u16
    }

    fn partitions(&self) -> u8 {
        self.build.get(2).map_or(0, |byte| byte & 127)
    }
}

/// So many orders of a family of the source documents, each with the longest of twenty legal scripts.
pub fn family(draw: fn(&mut Random) -> Order, orders: u32) -> Vec<Given> {
    let mut random = Random::new(1);
    let mut given = || {
        let order = draw(&mut random);
        let mut script = || scripts::legal(&mut random, &order, &Scale::FULL);
        let longest = (0..20).map(|_| script()).max_by_key(Vec::len);
        Given::new(&order, &longest.unwrap_or_default())
    };
    (0..orders).map(|_| given()).collect()
}

/// So many orders of 32 tasks that first fit puts into so many partitions, with scripts of so many records.
pub fn filling(partitions: u32, records: usize, orders: usize) -> Vec<Given> {
    let mut random = Random::new(2);
    let mut given = || {
        let order = papers::filling(&mut random, partitions);
        Given::new(&order, &scripts::dense(&mut random, &order, records))
    };
    let mut all = Vec::new();
    while all.len() < orders {
        let given = given();
        if u32::from(given.partitions()) == partitions {
            all.push(given);
        }
    }
    all
}

/// So many orders of n tasks on 16 processors, as document 003 draws them, that first fit accepts.
pub fn growing(n: u32, orders: usize) -> Vec<Given> {
    let mut random = Random::new(3);
    let mut all = Vec::new();
    while all.len() < orders {
        let given = Given::new(&papers::synthetic(&mut random, 16, n), &[]);
        if given.accepted() {
            all.push(given);
        }
    }
    all
}

/// A text of one line whose period has so many zeros in front.
pub fn zeros(count: usize) -> Given {
    of_text(["1;", &"0".repeat(count), "7.50;7.50;7.50\n"].concat())
}

/// A text of so many line feeds.
pub fn line_feeds(count: usize) -> Given {
    of_text("\n".repeat(count))
}

fn of_text(text: String) -> Given {
    Given { text: text.into_bytes(), ..plain() }
}

/// So many random sets, each with its list.
pub fn sets(count: u32) -> Vec<Given> {
    let mut random = Random::new(5);
    (0..count).map(|_| of_set(lists::set(&mut random))).collect()
}

/// A set with its list.
pub fn of_set(set: u64) -> Given {
    Given { set, list: list::write(set), ..plain() }
}

/// A list that is read.
pub fn of_list(list: String) -> Given {
    Given { list: list.into_bytes(), ..plain() }
}

/// The order of one plain task.
fn plain() -> Given {
    let order = Order { processors: 1, tasks: vec![Task { m: 1, t: 750, d: 750, c: 750 }] };
    Given::new(&order, &[])
}

fn of_late((order, build): (Order, Build)) -> Given {
    Given { order: order.bytes(), in_one: build.bytes(), ..plain() }
}

/// So many late builds whose script has the most records there can be.
pub fn on_the_line(count: usize) -> Vec<Given> {
    let mut random = Random::new(6);
    let mut all = Vec::new();
    while all.len() < count {
        let given = of_late(late::on_the_line(&mut random));
        if given.late_records() == Record::MOST {
            all.push(given);
        }
    }
    all
}

/// The orders of slow.txt as builds that are refused 29, each with its place there.
pub fn slow_late() -> Vec<(usize, Given)> {
    let given = |(place, order, build)| (place, of_late((order, build)));
    late::slow_ones().into_iter().map(given).collect()
}

/// The orders of slow.txt, each with a legal script.
pub fn slow_ones() -> Vec<Given> {
    let mut random = Random::new(4);
    let given = |order: &Order| {
        let script = scripts::legal(&mut random, order, &Scale::FULL);
        Given::new(order, &script)
    };
    slow::known().iter().map(given).collect()
}
