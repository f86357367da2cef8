//! The late frame by hand: tick by tick, which tasks come.

use super::{above, blocked, check, read_build, read_order, responses, starts, step_through};
use super::{together, Bits, Build, Order, Record, Result, NONE};

/// An order, a build that is refused 29, the task that it names, and the records that show it.
pub struct Shown {
    order: Order,
    build: Build,
    named: usize,
    pub records: Vec<Record>,
    /// The number of the late job, and how long after its release it ends.
    pub job: usize,
    response: u64,
}

pub fn late(order: &[u8], build: &[u8], out: &mut [u8]) -> Result<u64> {
    let shown = shown(order, build)?;
    assert!(shown.misses(), "not late in the box");
    if shown.records.len() > 1_024 {
        return Err((64, NONE));
    }
    let mut bits = Bits::default();
    for (tick, task, length) in shown.records {
        bits.put(20, tick);
        bits.put(5, task as u64);
        bits.put(20, length);
        bits.put(3, 0);
    }
    bits.into_front_of(out)
}

pub fn shown(order_bytes: &[u8], build_bytes: &[u8]) -> Result<Shown> {
    let order = read_order(order_bytes)?;
    let named = match check(order_bytes, build_bytes) {
        Err((29, task)) => task as usize,
        _ => return Err((63, NONE)),
    };
    let build = read_build(&order, build_bytes)?;
    let members = together(&build, named);
    let blocked = blocked(&order, &members, named);
    let begin = if blocked > 0 { 1 } else { 0 };
    let responses = responses(&order, &members, named).unwrap();
    let is_late = |&response: &u64| response > order.tasks[named].d;
    let job = responses.iter().position(is_late).unwrap();
    let start = begin + starts(&order, &members, named).unwrap()[job];
    let mut blocker = None;
    for &j in members.iter().filter(|&&j| above(&order, named, j)) {
        let longer = |other: usize| order.tasks[j].c > order.tasks[other].c;
        if blocked > 0 && blocker.is_none_or(longer) {
            blocker = Some(j);
        }
    }
    let mut records = Vec::new();
    for tick in 0..=start {
        for &j in &members {
            let task = &order.tasks[j];
            let comes = match tick {
                0 if blocker == Some(j) => true,
                _ if tick < begin || (tick - begin) % task.t != 0 => false,
                _ if j == named => tick <= begin + job as u64 * task.t,
                _ => above(&order, j, named),
            };
            if comes {
                records.push((tick, j, task.c));
            }
        }
    }
    let response = responses[job];
    Ok(Shown { order, build, named, records, job, response })
}

impl Shown {
    /// Stepped tick by tick, the last job of the named task, and no earlier one, ends after its deadline, just when the
    /// test says.
    fn misses(&self) -> bool {
        let finish = step_through(&self.order, &self.build, &self.records);
        let own = (0..finish.len()).filter(|&r| self.records[r].1 == self.named);
        let responses: Vec<u64> = own.map(|r| finish[r] - self.records[r].0).collect();
        let (last, earlier) = responses.split_last().unwrap();
        responses.len() == self.job + 1
            && *last == self.response
            && *last > self.order.tasks[self.named].d
            && earlier.iter().all(|&response| response <= self.order.tasks[self.named].d)
    }
}
