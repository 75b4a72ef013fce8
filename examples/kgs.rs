//! The solve of include/kgs.h for Rust; the other calls are declared in the same way.

/// kgs_refusal.
#[repr(C)]
pub struct Refusal {
    pub number: u64,
    pub fields: [u64; 4],
}

/// kgs_solution.
#[repr(C)]
pub struct Solution {
    pub refusal: Refusal,
    pub has_terminal: u64,
    pub terminal: u64,
    pub action_count: u64,
    pub labels: [u32; 64],
    pub payoff_count: u64,
    pub payoffs: [f64; 8],
}

const _: () = assert!(size_of::<Refusal>() == 40 && size_of::<Solution>() == 392);

extern "C" {
    fn kgs_solve(sheet: *const u8, len: usize, start: u32, limit: u64) -> Solution;
}

pub fn solve(sheet: &[u8], start: u32, limit: u64) -> Solution {
    // SAFETY: the pointer and the length are a slice's, which the call only reads.
    unsafe { kgs_solve(sheet.as_ptr(), sheet.len(), start, limit) }
}
