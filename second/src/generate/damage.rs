//! Damage to things on the wire.

use super::random::Random;
use crate::bits::mask;

/// So many records of one layout.
pub struct Section {
    widths: Vec<u32>,
    records: usize,
}

impl Section {
    pub fn new(widths: &[u32], records: usize) -> Self {
        Section { widths: widths.to_vec(), records }
    }

    fn record_bits(&self) -> usize {
        self.widths.iter().sum::<u32>() as usize
    }
}

/// Damages bytes that consist of these sections.
pub fn damage(random: &mut Random, bytes: &mut Vec<u8>, sections: &[Section]) {
    match random.below(10) {
        0 => flip(random, bytes),
        1 => bytes.truncate(random.below(bytes.len() as u32 + 1) as usize),
        2 => bytes.truncate(random.below(4) as usize),
        3 => {
            let more = random.spread(1, 20) as usize;
            bytes.extend(random.bytes(more));
        }
        4 => {
            let length = random.spread(0, 400) as usize;
            *bytes = random.bytes(length);
        }
        _ => alter_field(random, bytes, sections),
    }
}

/// Flips a few bits.
fn flip(random: &mut Random, bytes: &mut [u8]) {
    if bytes.is_empty() {
        return;
    }
    for _ in 0..random.between(1, 3) {
        let at = random.below(8 * bytes.len() as u32) as usize;
        bytes[at / 8] ^= 0x80 >> (at % 8);
    }
}

/// Gives one field of one record another value, often one on the edge.
fn alter_field(random: &mut Random, bytes: &mut [u8], sections: &[Section]) {
    let chosen = random.below(sections.len() as u32) as usize;
    let section = &sections[chosen];
    if section.records == 0 {
        return;
    }
    let before = |section: &Section| section.records * section.record_bits();
    let record = random.below(section.records as u32) as usize;
    let field = random.below(section.widths.len() as u32) as usize;
    let at = sections[..chosen].iter().map(before).sum::<usize>()
        + record * section.record_bits()
        + section.widths[..field].iter().sum::<u32>() as usize;
    let width = section.widths[field];
    let old = get(bytes, at, width);
    let new = match random.below(5) {
        0 => 0,
        1 => mask(width),
        2 => old.wrapping_add(1),
        3 => old.wrapping_sub(1),
        _ => random.word() as u32,
    };
    set(bytes, at, width, new & mask(width));
}

/// The value of the bits from one place on.
fn get(bytes: &[u8], at: usize, width: u32) -> u32 {
    let bit = |i: usize| u32::from(bytes[i / 8] >> (7 - i % 8) & 1);
    (at..at + width as usize).fold(0, |value, i| value << 1 | bit(i))
}

/// Gives the bits from one place on a value.
pub fn set(bytes: &mut [u8], at: usize, width: u32, value: u32) {
    for (i, place) in (at..at + width as usize).rev().enumerate() {
        let bit = 0x80 >> (place % 8);
        bytes[place / 8] &= !bit;
        if value >> i & 1 == 1 {
            bytes[place / 8] |= bit;
        }
    }
}
