//! Sets of processors as words, processor 0 the lowest bit.

/// The processors from the first to the last: 2^(last + 1) − 2^first.
pub fn between(first: u32, last: u32) -> u64 {
    ((2u128 << last) - (1 << first)) as u64
}

/// The first and the last processor of each run, by rising number.
pub fn runs(set: u64) -> impl Iterator<Item = (u32, u32)> {
    let mut left = set;
    std::iter::from_fn(move || {
        let lowest = left & left.wrapping_neg();
        // The lowest one carries through its run, and what the carry sets was not there.
        let behind = left & left.wrapping_add(lowest);
        let run = left ^ behind;
        left = behind;
        (run != 0).then(|| (run.trailing_zeros(), 63 - run.leading_zeros()))
    })
}
