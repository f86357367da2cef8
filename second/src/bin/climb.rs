//! Looks for orders that are slow for the library to plan, to check or to show late, by hill climbing over their numbers.
//!
//! `climb plan|check|late [SEED] [SECONDS]` climbs from cores with newcomers, and from the orders of slow.txt, then from
//! random ones of the families of `generate::slow`, by the terms of `counted`; prints the worst order of each climb in that file's form, and fails if
//! one is over the limit.
//! `climb sift [K]` counts the orders of slow.txt and of the standard input, and prints the K worst by plan and by check.

use second::counted::{self, MOST_OF_CHECK, MOST_OF_LATE, MOST_OF_PLAN};
use second::generate::cores::Cores;
use second::generate::random::Random;
use second::generate::{builds, late, slow};
use second::order::Order;
use std::cmp::Reverse;
use std::process::exit;
use std::time::{Duration, Instant};

/// A climb ends after so many changes in a row that did not help.
const PATIENCE: u32 = 500;

/// Counts the terms of an order.
type Terms = fn(&Order) -> u64;

fn plan_terms(order: &Order) -> u64 {
    counted::plan(order).1
}

/// The terms of checking the build that has all tasks in one partition.
fn check_terms(order: &Order) -> u64 {
    counted::most_terms(order, &builds::ranked_in_one(order))
}

/// The terms of the search for the late job of that build, beside its check's.
fn late_terms(order: &Order) -> u64 {
    late::terms(order, &late::in_one(order)).map_or(0, |(_, late)| late)
}

/// What is climbed over, and the order that it makes.
struct Hill<S> {
    change: fn(&mut Random, &S) -> S,
    order: fn(&S) -> Order,
}

impl<S> Hill<S> {
    /// The worst of some random ones.
    fn seed(&self, random: &mut Random, draw: fn(&mut Random) -> S, terms: Terms) -> S {
        let seeds = (0..40).map(|_| draw(random));
        seeds.max_by_key(|seed| terms(&(self.order)(seed))).expect("40 seeds")
    }

    /// The worst order reached from one before the end.
    fn climb(&self, random: &mut Random, from: S, terms: Terms, end: Instant) -> Order {
        let mut most = terms(&(self.order)(&from));
        let mut top = from;
        let mut idle = 0;
        while idle < PATIENCE && Instant::now() < end {
            let next = (self.change)(random, &top);
            let found = terms(&(self.order)(&next));
            idle = if found > most { 0 } else { idle + 1 };
            if found >= most {
                (most, top) = (found, next);
            }
        }
        (self.order)(&top)
    }
}

const ORDERS: Hill<Order> = Hill { change: slow::changed, order: Order::clone };
const CORES: Hill<Cores> =
    Hill { change: |random, cores| cores.changed(random), order: Cores::order };

fn line(order: &Order) -> String {
    slow::line(plan_terms(order), check_terms(order), order)
}

/// Climbs until the time is over; whether all that was found is within the limit.
fn climbs(terms: Terms, most: u64, first_seed: u64, seconds: u64) -> bool {
    let end = Instant::now() + Duration::from_secs(seconds);
    let mut random = Random::new(first_seed);
    let mut known = slow::known();
    random.shuffle(&mut known);
    let mut within = true;
    while Instant::now() < end {
        let cores = CORES.seed(&mut random, Cores::seed, terms);
        let core = CORES.climb(&mut random, cores, terms, end);
        let from = known.pop().unwrap_or_else(|| ORDERS.seed(&mut random, slow::seed, terms));
        for from in [core, from] {
            let order = ORDERS.climb(&mut random, from, terms, end);
            println!("{}", line(&order));
            within &= terms(&order) <= most;
        }
    }
    within
}

/// The worst orders that are known or given, those by plan first.
fn sift(most: usize) {
    let given = std::io::read_to_string(std::io::stdin()).expect("lines of orders");
    let mut left = slow::known();
    left.extend(slow::read(&given));
    for terms in [plan_terms, check_terms] {
        left.sort_by_cached_key(|order| Reverse(terms(order)));
        let rest = left.split_off(most.min(left.len()));
        left.iter().for_each(|order| println!("{}", line(order)));
        left = rest;
    }
}

fn main() {
    let mut arguments = std::env::args().skip(1);
    let what = arguments.next().unwrap_or_default();
    let mut number = |default| arguments.next().map_or(default, |n| n.parse().expect("a number"));
    let within = match what.as_str() {
        "plan" => climbs(plan_terms, MOST_OF_PLAN, number(1), number(60)),
        "check" => climbs(check_terms, MOST_OF_CHECK, number(1), number(60)),
        "late" => climbs(late_terms, MOST_OF_LATE, number(1), number(60)),
        "sift" => {
            sift(number(10) as usize);
            true
        }
        _ => panic!("climb plan|check|late [SEED] [SECONDS], or climb sift [K]"),
    };
    if !within {
        eprintln!("some order is over the limit");
        exit(1);
    }
}
