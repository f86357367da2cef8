//! What the definition's promises come to, on random cases of full size.

use second::answer::Answer;
use second::case::Operation;
use second::generate::random::Random;
use second::generate::{cases, orders, scripts, Scale};
use second::order::Order;
use second::program::Second;
use second::script::Record;
use second::tally::Tally;
use second::text;

/// Random orders that the planner accepts, with their builds.
fn planned(seed: u64, tries: u64) -> impl Iterator<Item = (Random, Order, Vec<u8>)> {
    (0..tries).filter_map(move |index| {
        let mut random = Random::nth(seed, index);
        let order = orders::order(&mut random, &Scale::FULL);
        let mut build = vec![0; 195];
        let answer = second::plan(&order.bytes(), &mut build);
        build.truncate(answer.count as usize);
        (answer.number == 0).then_some((random, order, build))
    })
}

fn run(order: &Order, build: &[u8], records: &[Record]) -> Vec<u32> {
    let mut finish = vec![0; records.len()];
    let script = second::script::bytes(records);
    let answer = second::run(&order.bytes(), build, &script, &mut finish);
    assert_eq!(answer.number, 0);
    finish
}

/// Reading what was written gives it back.
#[test]
fn orders_come_back() {
    for index in 0..10_000 {
        let order = orders::order(&mut Random::nth(3, index), &Scale::FULL);
        assert_eq!(Order::read(&order.bytes()), Ok(order));
    }
}

/// The check accepts every build of the planner, and no job ends after its recorded response.
#[test]
fn builds_hold() {
    for (mut random, order, build) in planned(4, 10_000) {
        assert_eq!(second::check(&order.bytes(), &build).number, 0);
        let records = scripts::legal(&mut random, &order, &Scale::FULL);
        let finish = run(&order, &build, &records);
        let members = &build[build.len() - 4 * order.tasks.len()..];
        for (record, finish) in records.iter().zip(finish) {
            let member = members[4 * record.task..][..4].try_into().unwrap();
            let response = u32::from_be_bytes(member) >> 1 & 0xF_FFFF;
            assert!(response <= order.tasks[record.task].d);
            assert!(finish - record.tick <= response, "{order:?} {records:?}");
        }
    }
}

/// Records of one partition finish alike, whatever else is released.
#[test]
fn partitions_are_apart() {
    for (mut random, order, build) in planned(5, 5_000) {
        let members = &build[build.len() - 4 * order.tasks.len()..];
        let partition = |record: &Record| members[4 * record.task] >> 2;
        let records = scripts::legal(&mut random, &order, &Scale::FULL);
        let finish = run(&order, &build, &records);
        for j in 0..build[2] & 127 {
            let of_j = |record: &Record| partition(record) == j;
            let own: Vec<Record> = records.iter().copied().filter(of_j).collect();
            let among = records.iter().zip(&finish).filter(|(r, _)| of_j(r));
            let among: Vec<u32> = among.map(|(_, &tick)| tick).collect();
            assert_eq!(run(&order, &build, &own), among);
        }
    }
}

/// The random cases bring about every number but 28.
#[test]
fn every_number_is_drawn() {
    let operations = Operation::all();
    let mut tally = Tally::new(&operations);
    for case in cases::drawn(1, 40_000, &operations) {
        tally.add(case.outcome(&Second).answer.number, case.operation());
    }
    assert!(tally.rarest().1 >= 10, "{tally}");
}

/// Reading the text of an order gives it back.
#[test]
fn texts_come_back() {
    for index in 0..10_000 {
        let order = orders::order(&mut Random::nth(6, index), &Scale::FULL);
        let written = text::write(&order);
        assert!(written.len() <= text::MOST);
        assert_eq!(text::read(order.processors, &written), Ok(order));
    }
}

#[test]
fn answers_pack() {
    let answer = Answer { number: 11, place: 2, count: 195 };
    assert_eq!(answer.pack(), 195 << 32 | 2 << 16 | 11);
    assert_eq!(Answer::unpack(answer.pack()), answer);
}
