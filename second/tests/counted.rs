//! The counted copy of the library's way answers as the second program does.

use second::answer::Answer;
use second::counted;
use second::generate::random::Random;
use second::generate::{builds, late, orders, Scale};
use second::late::Late;
use second::{check, plan};

#[test]
fn plans_alike() {
    for index in 0..10_000 {
        let order = orders::order(&mut Random::nth(31, index), &Scale::FULL);
        let mut out = [0; 195];
        let answer = plan(&order.bytes(), &mut out);
        let (build, _) = counted::plan(&order);
        let bytes = build.map(|build| build.bytes());
        assert_eq!(Answer::from(bytes.as_ref().map(Vec::len).map_err(|&refusal| refusal)), answer);
        assert_eq!(bytes.unwrap_or_default(), out[..answer.count as usize], "{order:?}");
    }
}

#[test]
fn checks_alike() {
    let mut looked_at = 0;
    for index in 0..10_000 {
        let mut random = Random::nth(32, index);
        let order = orders::order(&mut random, &Scale::FULL);
        let mut build = builds::by_hand(&mut random, &order);
        if random.one_in(4) {
            build.members[0].response ^= 1;
        }
        let answer = check(&order.bytes(), &build.bytes());
        if matches!(answer.number, 0 | 27..=30) {
            looked_at += 1;
            let (checked, _) = counted::check(&order, &build);
            assert_eq!(Answer::from(checked.map(|()| 0)), answer, "{order:?} {build:?}");
        }
    }
    assert!(looked_at > 5_000);
}

#[test]
fn late_jobs_alike() {
    let mut looked_at = 0;
    for index in 0..10_000 {
        let (order, build) = late::order_and_build(&mut Random::nth(33, index), &Scale::FULL);
        let Ok(shown) = Late::new(&order.bytes(), &build.bytes()) else { continue };
        looked_at += 1;
        let (job, _) = counted::late(&order, &build, shown.task);
        let begin = shown.script.iter().find(|record| record.task == shown.task).map(|r| r.tick);
        let end = begin.map(|begin| begin + job.start + order.tasks[shown.task].c);
        assert_eq!((job.number as usize + 1, end), (shown.jobs(), Some(shown.finish)), "{order:?}");
    }
    assert!(looked_at > 5_000, "{looked_at}");
}
