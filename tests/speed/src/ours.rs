//! The library's calls alone, with a buffer that is lent again and again: library.rs fills one at each call.

use crate::answer::{Call, Variant};
use crate::library::*;
use std::hint::black_box;

/// Makes the call: the number of its refusal.
pub fn run(call: &Call, sheet: &[u8], buffer: &mut [u64]) -> u64 {
    let (bytes, len) = (black_box(sheet.as_ptr()), sheet.len());
    // SAFETY: `bytes` and the lent buffer point to as many elements as the lengths beside them say, and outlive the
    // call.
    let refusal = unsafe {
        match *call {
            Call::Solve { start, limit } => black_box(kgs_solve(bytes, len, start, limit)).refusal,
            Call::SolvePlain { start, limit } => black_box(kgs_solve_plain(bytes, len, start, limit)).refusal,
            Call::Paths { start, limit, room } => {
                let out = buffer[..room].as_mut_ptr();
                black_box(kgs_paths(bytes, len, start, limit, out, room)).refusal
            }
            Call::Sets { room } => {
                let out = buffer[..room].as_mut_ptr();
                black_box(kgs_sets(bytes, len, out, room)).refusal
            }
            Call::Topology => black_box(kgs_topology(bytes, len)),
            Call::Kuhn { variant: Variant::Vanilla, iterations } => black_box(kgs_kuhn_vanilla(iterations)).refusal,
            Call::Kuhn { variant: Variant::CfrPlus, iterations } => black_box(kgs_kuhn_cfr_plus(iterations)).refusal,
            Call::Kuhn { variant: Variant::LinearCfr, iterations } => {
                black_box(kgs_kuhn_linear_cfr(iterations)).refusal
            }
        }
    };
    refusal.number
}
