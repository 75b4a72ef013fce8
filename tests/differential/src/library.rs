//! The proved library through its C interface, include/kgs.h. Built only where a library is given.

use crate::answer::{lent, Answer, Call, Kuhn, Refusal, Solution, Variant, Written};

extern "C" {
    pub fn kgs_solve(sheet: *const u8, len: usize, start: u32, limit: u64) -> Solution;
    pub fn kgs_solve_plain(sheet: *const u8, len: usize, start: u32, limit: u64) -> Solution;
    pub fn kgs_paths(sheet: *const u8, len: usize, start: u32, limit: u64, out: *mut u64, out_len: usize) -> Written;
    pub fn kgs_sets(sheet: *const u8, len: usize, out: *mut u64, out_len: usize) -> Written;
    pub fn kgs_topology(sheet: *const u8, len: usize) -> Refusal;
    pub fn kgs_kuhn_vanilla(iterations: u64) -> Kuhn;
    pub fn kgs_kuhn_cfr_plus(iterations: u64) -> Kuhn;
    pub fn kgs_kuhn_linear_cfr(iterations: u64) -> Kuhn;
}

/// The library's answer to a call on these bytes; a buffer that it is lent has the guard after it.
pub fn answer(call: &Call, sheet: &[u8]) -> Answer {
    answer_in(call, sheet, lent(call.room()))
}

/// The library's answer to a call on these bytes; the buffer that it is lent is the front of `buffer`.
pub fn answer_in(call: &Call, sheet: &[u8], mut buffer: Vec<u64>) -> Answer {
    let (bytes, len) = (sheet.as_ptr(), sheet.len());
    let (out, room) = (buffer.as_mut_ptr(), call.room());
    assert!(room <= buffer.len(), "the buffer has the call's room");
    // SAFETY: `bytes` and `out` point to at least as many elements as the lengths beside them say, and outlive the
    // call.
    unsafe {
        match *call {
            Call::Solve { start, limit } => Answer::Solution(kgs_solve(bytes, len, start, limit)),
            Call::SolvePlain { start, limit } => Answer::Solution(kgs_solve_plain(bytes, len, start, limit)),
            Call::Paths { start, limit, .. } => Answer::Written(kgs_paths(bytes, len, start, limit, out, room), buffer),
            Call::Sets { .. } => Answer::Written(kgs_sets(bytes, len, out, room), buffer),
            Call::Topology => Answer::Topology(kgs_topology(bytes, len)),
            Call::Kuhn { variant, iterations } => Answer::Kuhn(match variant {
                Variant::Vanilla => kgs_kuhn_vanilla(iterations),
                Variant::CfrPlus => kgs_kuhn_cfr_plus(iterations),
                Variant::LinearCfr => kgs_kuhn_linear_cfr(iterations),
            }),
        }
    }
}
