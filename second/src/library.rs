//! The C names of libjefkantu.a.

use crate::answer::Answer;
use crate::order::Order;
use crate::program::Program;

/// Declares C names where their feature is on; elsewhere they stand for a name not linked.
macro_rules! surface {
    ($($feature:tt fn $name:ident($($argument:ident: $kind:ty),* $(,)?);)*) => {$(
        #[cfg(feature = $feature)]
        extern "C" {
            pub fn $name($($argument: $kind),*) -> u64;
        }
        #[cfg(not(feature = $feature))]
        #[allow(clippy::missing_safety_doc, clippy::too_many_arguments)]
        pub unsafe fn $name($(_: $kind),*) -> u64 {
            unreachable!("{} is not linked", stringify!($name))
        }
    )*};
}

surface! {
    "read_write" fn jefkantu_read_order(
        order: *const u8, order_len: usize, numbers: *mut [u32; Order::NUMBERS],
    );
    "read_write" fn jefkantu_write_order(
        procs: u32, m: *const u32, m_len: usize, t: *const u32, t_len: usize,
        d: *const u32, d_len: usize, c: *const u32, c_len: usize, out: *mut u8, out_len: usize,
    );
    "plan" fn jefkantu_plan(order: *const u8, order_len: usize, out: *mut u8, out_len: usize);
    "check" fn jefkantu_check(
        order: *const u8, order_len: usize, build: *const u8, build_len: usize,
    );
    "run" fn jefkantu_run(
        order: *const u8, order_len: usize, build: *const u8, build_len: usize,
        script: *const u8, script_len: usize, out: *mut u32, out_len: usize,
    );
    "text" fn jefkantu_read_text(
        procs: u32, text: *const u8, text_len: usize, out: *mut u8, out_len: usize,
    );
    "text" fn jefkantu_write_text(
        order: *const u8, order_len: usize, out: *mut u8, out_len: usize,
    );
    "lists" fn jefkantu_write_list(set: u64, out: *mut u8, out_len: usize);
    "lists" fn jefkantu_read_list(text: *const u8, text_len: usize, set: *mut u64);
    "lists" fn jefkantu_partition_sets(
        order: *const u8, order_len: usize, build: *const u8, build_len: usize,
        out: *mut u64, out_len: usize,
    );
    "late" fn jefkantu_late(
        order: *const u8, order_len: usize, build: *const u8, build_len: usize,
        out: *mut u8, out_len: usize,
    );
}

#[cfg_attr(
    any(
        feature = "read_write",
        feature = "plan",
        feature = "check",
        feature = "run",
        feature = "text",
        feature = "lists",
        feature = "late"
    ),
    link(name = "jefkantu", kind = "static")
)]
extern "C" {}

/// The library as a program, called as it is.
pub struct Library;

impl Program for Library {
    fn read_order(&self, order: &[u8], numbers: &mut [u32; Order::NUMBERS]) -> Answer {
        Answer::unpack(unsafe { jefkantu_read_order(order.as_ptr(), order.len(), numbers) })
    }

    fn write_order(&self, processors: u32, [m, t, d, c]: [&[u32]; 4], out: &mut [u8]) -> Answer {
        let lent = |column: &[u32]| (column.as_ptr(), column.len());
        let (m, t, d, c) = (lent(m), lent(t), lent(d), lent(c));
        let (to, room) = (out.as_mut_ptr(), out.len());
        Answer::unpack(unsafe {
            jefkantu_write_order(processors, m.0, m.1, t.0, t.1, d.0, d.1, c.0, c.1, to, room)
        })
    }

    fn plan(&self, order: &[u8], out: &mut [u8]) -> Answer {
        let (to, room) = (out.as_mut_ptr(), out.len());
        Answer::unpack(unsafe { jefkantu_plan(order.as_ptr(), order.len(), to, room) })
    }

    fn check(&self, order: &[u8], build: &[u8]) -> Answer {
        let (from, length) = (build.as_ptr(), build.len());
        Answer::unpack(unsafe { jefkantu_check(order.as_ptr(), order.len(), from, length) })
    }

    fn run(&self, order: &[u8], build: &[u8], script: &[u8], out: &mut [u32]) -> Answer {
        let lent = |bytes: &[u8]| (bytes.as_ptr(), bytes.len());
        let (o, b, s) = (lent(order), lent(build), lent(script));
        let (to, room) = (out.as_mut_ptr(), out.len());
        Answer::unpack(unsafe { jefkantu_run(o.0, o.1, b.0, b.1, s.0, s.1, to, room) })
    }

    fn read_text(&self, processors: u32, text: &[u8], out: &mut [u8]) -> Answer {
        let (from, length) = (text.as_ptr(), text.len());
        let (to, room) = (out.as_mut_ptr(), out.len());
        Answer::unpack(unsafe { jefkantu_read_text(processors, from, length, to, room) })
    }

    fn write_text(&self, order: &[u8], out: &mut [u8]) -> Answer {
        let (to, room) = (out.as_mut_ptr(), out.len());
        Answer::unpack(unsafe { jefkantu_write_text(order.as_ptr(), order.len(), to, room) })
    }

    fn write_list(&self, set: u64, out: &mut [u8]) -> Answer {
        Answer::unpack(unsafe { jefkantu_write_list(set, out.as_mut_ptr(), out.len()) })
    }

    fn read_list(&self, text: &[u8], set: &mut u64) -> Answer {
        Answer::unpack(unsafe { jefkantu_read_list(text.as_ptr(), text.len(), set) })
    }

    fn partition_sets(&self, order: &[u8], build: &[u8], out: &mut [u64]) -> Answer {
        let (from, length) = (build.as_ptr(), build.len());
        let (to, room) = (out.as_mut_ptr(), out.len());
        Answer::unpack(unsafe {
            jefkantu_partition_sets(order.as_ptr(), order.len(), from, length, to, room)
        })
    }

    fn late(&self, order: &[u8], build: &[u8], out: &mut [u8]) -> Answer {
        let (from, length) = (build.as_ptr(), build.len());
        let (to, room) = (out.as_mut_ptr(), out.len());
        Answer::unpack(unsafe {
            jefkantu_late(order.as_ptr(), order.len(), from, length, to, room)
        })
    }
}
