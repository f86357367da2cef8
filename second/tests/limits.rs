//! The slow orders stay within the limits of the library's terms.

use second::counted::{self, MOST_OF_CHECK, MOST_OF_LATE, MOST_OF_PLAN};
use second::generate::{builds, late, slow};
use second::order::Order;

/// No known order is over the limit; tells all that are.
#[track_caller]
fn within(most: u64, terms: impl Fn(&Order) -> u64) {
    let known = slow::known();
    let counts: Vec<u64> = known.iter().map(terms).collect();
    let over: Vec<&u64> = counts.iter().filter(|&&terms| terms > most).collect();
    assert!(over.is_empty(), "over {most} terms: {over:?}");
}

#[test]
fn plans() {
    within(MOST_OF_PLAN, |order| counted::plan(order).1);
}

#[test]
fn checks_of_the_plan() {
    within(MOST_OF_CHECK, |order| match counted::plan(order).0 {
        Ok(build) => counted::most_terms(order, &build),
        Err(_) => 0,
    });
}

#[test]
fn checks_of_all_in_one() {
    within(MOST_OF_CHECK, |order| counted::most_terms(order, &builds::ranked_in_one(order)));
}

/// Showing the late job takes no more than twice the terms of the check, which is in it.
#[test]
fn late_ones() {
    let slow = late::slow_ones();
    assert!(slow.len() > 20, "{}", slow.len());
    for (place, order, build) in slow {
        let (check, more) = late::terms(&order, &build).expect("a late task");
        assert!(more <= check && more <= MOST_OF_LATE, "slow {}: {more}, {check}", place + 1);
    }
}
