//! The late frame: what was typed, what the random cases bring, and that each script that is shown misses.

mod naive;

use naive::{late::shown, Naive};
use second::answer::{Cause, NO_PLACE};
use second::case::{Case, Operation};
use second::generate::random::Random;
use second::generate::{cases, late, Scale};
use second::late::Late;
use second::order::Order;
use second::program::{Program, Second};
use second::script::{self, Record};
use std::collections::BTreeMap;

#[test]
fn what_was_typed() {
    for (place, late::Typed { order, build, room, number, script }) in
        late::typed().into_iter().enumerate()
    {
        let (order, build) = (order.bytes(), build.bytes());
        let mut outs = [vec![0xAA; room], vec![0xAA; room]];
        let answer = second::late(&order, &build, &mut outs[0]);
        assert_eq!((answer.number, answer.place), (number, NO_PLACE), "{place}");
        assert_eq!(Naive.late(&order, &build, &mut outs[1]), answer, "{place}");
        assert_eq!(outs[0], outs[1], "{place}");
        let record = |&(tick, task, length): &late::Row| Record { tick, task, length };
        let rows: Vec<Record> = script.iter().map(record).collect();
        if number == 0 && !rows.is_empty() {
            let (front, rest) = outs[0].split_at(answer.count as usize);
            assert_eq!(front, script::bytes(&rows), "{place}");
            assert!(rest.iter().all(|&byte| byte == 0xAA), "{place}");
        }
    }
}

/// The typed builds in the programs' cases are all of them.
#[test]
fn all_that_was_typed_is_compared() {
    let cases = cases::typed().filter(|case| matches!(case, Case::Late { .. }));
    assert_eq!(cases.count(), late::typed().len());
}

/// The cases of the comparison's seed.
fn drawn(cases: u64) -> impl Iterator<Item = (Vec<u8>, Vec<u8>, usize)> {
    let nth = |index| match cases::nth(1, index, &[Operation::Late], &Scale::FULL) {
        Case::Late { order, build, room } => (order, build, room),
        _ => unreachable!("drawn as late"),
    };
    (0..cases).map(nth)
}

/// Every script, of any length, is one that `run` takes, and misses in the machine as the test says; of many builds.
#[test]
fn scripts_miss() {
    let mut seen = 0;
    for (order, build, _) in drawn(10_000) {
        let Ok(late) = Late::new(&order, &build) else { continue };
        assert!(late.is_shown_by(&late.script), "{:?} {:?}", late.order, late.build);
        if late.script.len() <= Record::MOST {
            let read = script::read(&script::bytes(&late.script), &late.order, Record::MOST);
            assert_eq!(read, Ok(late.script));
            seen += 1;
        }
    }
    assert!(seen > 1_000, "{seen}");
}

/// The cases have what the rules speak of: first and later jobs, with and without a blocker, one partition and several,
/// just the most records and one more, just enough room and one byte less; and 63 for every other answer of the check.
#[test]
fn what_is_drawn() {
    let mut counts = BTreeMap::new();
    let mut count = |what: String| *counts.entry(what).or_insert(0) += 1;
    for (order, build, room) in drawn(10_000) {
        if Order::read(&order).is_err() {
            continue;
        }
        let Ok(late) = Late::new(&order, &build) else {
            count(format!("63 for {}", second::check(&order, &build).number));
            continue;
        };
        let mut releases = late.script.iter().filter(|record| record.task == late.task);
        let blocked = releases.next().is_some_and(|record| record.tick == 1);
        count(if late.jobs() > 1 { "a later job" } else { "the first job" }.into());
        count(if blocked { "blocked" } else { "not blocked" }.into());
        let homes = late.build.members.iter().map(|member| member.partition);
        let alone = homes.clone().min() == homes.max();
        count(if alone { "one partition" } else { "several" }.into());
        let records = late.script.len();
        if (1_023..=1_026).contains(&records) {
            count(format!("{records} records"));
        }
        match room as i64 - 6 * records as i64 {
            0 if records <= 1_024 => count("just enough".into()),
            -1 if records <= 1_024 => count("one byte short".into()),
            0.. if records > 1_024 => count("64 with room".into()),
            _ => {}
        }
    }
    let others = [0, 20, 21, 22, 23, 24, 25, 26, 27, 30].map(|number| format!("63 for {number}"));
    let kinds = [
        "a later job",
        "the first job",
        "blocked",
        "not blocked",
        "one partition",
        "several",
        "1023 records",
        "1024 records",
        "1025 records",
        "1026 records",
        "just enough",
        "one byte short",
        "64 with room",
    ];
    for kind in kinds.map(String::from).iter().chain(&others) {
        assert!(counts.get(kind).is_some_and(|&times| times >= 10), "{kind}: {counts:#?}");
    }
}

/// The naive program, which steps every tick, agrees on scripts of about 1,024 records.
#[test]
fn on_the_line() {
    for index in 0..40 {
        let (order, build) = late::on_the_line(&mut Random::nth(41, index));
        let (order, build) = (order.bytes(), build.bytes());
        let (mut one, mut other) = (vec![0; 6_200], vec![0; 6_200]);
        let answer = Second.late(&order, &build, &mut one);
        assert_eq!(Naive.late(&order, &build, &mut other), answer);
        assert!(one == other);
        let records = shown(&order, &build).ok().map(|shown| shown.records.len());
        assert_eq!(answer.number, if records > Some(1_024) { 64 } else { 0 });
    }
}

/// 63 and 64 before 12, the order's refusals before them.
#[test]
fn order_of_refusals() {
    let (order, build) = late::on_the_line(&mut Random::nth(42, 0));
    let refused = |order: &[u8], build: &[u8]| second::late(order, build, &mut []).number;
    assert_eq!(refused(&order.bytes()[1..], &build.bytes()), 2);
    assert_eq!(refused(&order.bytes(), &build.bytes()[1..]), Cause::NotLate as u16);
    assert_eq!(refused(&order.bytes(), &[]), Cause::NotLate as u16);
}
