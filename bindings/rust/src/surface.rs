//! The C names of libjefkantu.a, as include/jefkantu.h declares them; the crate's only unsafe blocks.

use crate::list::Set;
use crate::order::{Columns, Order};

#[link(name = "jefkantu", kind = "static")]
extern "C" {
    fn jefkantu_read_order(
        order: *const u8,
        order_len: usize,
        numbers: *mut [u32; Order::NUMBERS],
    ) -> u64;
    fn jefkantu_write_order(
        processors: u32,
        widths: *const u32,
        widths_len: usize,
        periods: *const u32,
        periods_len: usize,
        deadlines: *const u32,
        deadlines_len: usize,
        runs: *const u32,
        runs_len: usize,
        out: *mut u8,
        out_len: usize,
    ) -> u64;
    fn jefkantu_read_text(
        processors: u32,
        text: *const u8,
        text_len: usize,
        out: *mut u8,
        out_len: usize,
    ) -> u64;
    fn jefkantu_write_text(order: *const u8, order_len: usize, out: *mut u8, out_len: usize)
        -> u64;
    fn jefkantu_plan(order: *const u8, order_len: usize, out: *mut u8, out_len: usize) -> u64;
    fn jefkantu_check(
        order: *const u8,
        order_len: usize,
        build: *const u8,
        build_len: usize,
    ) -> u64;
    fn jefkantu_run(
        order: *const u8,
        order_len: usize,
        build: *const u8,
        build_len: usize,
        script: *const u8,
        script_len: usize,
        out: *mut u32,
        out_len: usize,
    ) -> u64;
    fn jefkantu_late(
        order: *const u8,
        order_len: usize,
        build: *const u8,
        build_len: usize,
        out: *mut u8,
        out_len: usize,
    ) -> u64;
    fn jefkantu_partition_sets(
        order: *const u8,
        order_len: usize,
        build: *const u8,
        build_len: usize,
        out: *mut Set,
        out_len: usize,
    ) -> u64;
    fn jefkantu_write_list(set: Set, out: *mut u8, out_len: usize) -> u64;
    fn jefkantu_read_list(text: *const u8, text_len: usize, set: *mut Set) -> u64;
}

pub fn read_order(order: &[u8], numbers: &mut [u32; Order::NUMBERS]) -> u64 {
    // SAFETY: each pointer is a live reference's, with its own length; the `&mut` overlaps nothing.
    unsafe { jefkantu_read_order(order.as_ptr(), order.len(), numbers) }
}

pub fn write_order(processors: u32, columns: &Columns, out: &mut [u8]) -> u64 {
    let Columns { widths, periods, deadlines, runs } = columns;
    // SAFETY: each pointer is a live reference's, with its own length; the `&mut` overlaps nothing.
    unsafe {
        jefkantu_write_order(
            processors,
            widths.as_ptr(),
            widths.len(),
            periods.as_ptr(),
            periods.len(),
            deadlines.as_ptr(),
            deadlines.len(),
            runs.as_ptr(),
            runs.len(),
            out.as_mut_ptr(),
            out.len(),
        )
    }
}

pub fn read_text(processors: u32, text: &[u8], out: &mut [u8]) -> u64 {
    // SAFETY: each pointer is a live reference's, with its own length; the `&mut` overlaps nothing.
    unsafe {
        jefkantu_read_text(processors, text.as_ptr(), text.len(), out.as_mut_ptr(), out.len())
    }
}

pub fn write_text(order: &[u8], out: &mut [u8]) -> u64 {
    // SAFETY: each pointer is a live reference's, with its own length; the `&mut` overlaps nothing.
    unsafe { jefkantu_write_text(order.as_ptr(), order.len(), out.as_mut_ptr(), out.len()) }
}

pub fn plan(order: &[u8], out: &mut [u8]) -> u64 {
    // SAFETY: each pointer is a live reference's, with its own length; the `&mut` overlaps nothing.
    unsafe { jefkantu_plan(order.as_ptr(), order.len(), out.as_mut_ptr(), out.len()) }
}

pub fn check(order: &[u8], build: &[u8]) -> u64 {
    // SAFETY: each pointer is a live reference's, with its own length; nothing is written.
    unsafe { jefkantu_check(order.as_ptr(), order.len(), build.as_ptr(), build.len()) }
}

pub fn run(order: &[u8], build: &[u8], script: &[u8], out: &mut [u32]) -> u64 {
    // SAFETY: each pointer is a live reference's, with its own length; the `&mut` overlaps nothing.
    unsafe {
        jefkantu_run(
            order.as_ptr(),
            order.len(),
            build.as_ptr(),
            build.len(),
            script.as_ptr(),
            script.len(),
            out.as_mut_ptr(),
            out.len(),
        )
    }
}

pub fn late(order: &[u8], build: &[u8], out: &mut [u8]) -> u64 {
    // SAFETY: each pointer is a live reference's, with its own length; the `&mut` overlaps nothing.
    unsafe {
        jefkantu_late(
            order.as_ptr(),
            order.len(),
            build.as_ptr(),
            build.len(),
            out.as_mut_ptr(),
            out.len(),
        )
    }
}

pub fn partition_sets(order: &[u8], build: &[u8], out: &mut [Set]) -> u64 {
    // SAFETY: each pointer is a live reference's, with its own length; the `&mut` overlaps nothing.
    unsafe {
        jefkantu_partition_sets(
            order.as_ptr(),
            order.len(),
            build.as_ptr(),
            build.len(),
            out.as_mut_ptr(),
            out.len(),
        )
    }
}

pub fn write_list(set: Set, out: &mut [u8]) -> u64 {
    // SAFETY: the pointer is a live reference's, with its own length.
    unsafe { jefkantu_write_list(set, out.as_mut_ptr(), out.len()) }
}

pub fn read_list(text: &[u8], set: &mut Set) -> u64 {
    // SAFETY: each pointer is a live reference's, with its own length; the `&mut` overlaps nothing.
    unsafe { jefkantu_read_list(text.as_ptr(), text.len(), set) }
}
