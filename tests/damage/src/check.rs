//! What an answer must be whatever the sheet says: no second side is asked.

use crate::answer::{fill, Answer, Call, Kuhn, Refusal, Solution, Written};

/// How many fields each refusal number uses.
const FIELDS: [usize; 29] = [0, 1, 0, 1, 1, 2, 1, 0, 1, 0, 0, 1, 1, 1, 1, 3, 1, 1, 2, 3, 1, 2, 4, 1, 1, 1, 1, 1, 1];

/// The refusals of each call beside those of the opening, by `Call::kind`.
const REFUSALS: [&[u64]; 6] = [
    &[11, 13, 14, 15, 16, 17, 18, 19, 24, 25, 27],
    &[11, 13, 14, 15, 16, 18, 20, 24, 27],
    &[11, 13, 14, 15, 16, 24, 26, 27],
    &[11, 14, 15, 21, 22, 23, 26],
    &[11, 12, 13, 17],
    &[28],
];

/// What does not hold of an answer.
pub type Fault = &'static str;

fn ensure(holds: bool, fault: Fault) -> Result<(), Fault> {
    if holds {
        Ok(())
    } else {
        Err(fault)
    }
}

/// The call's answer on these bytes has no fault that shows by itself.
pub fn check(call: &Call, sheet: &[u8], answer: &Answer) -> Result<(), Fault> {
    let refusal = answer.refusal();
    check_refusal(call, sheet, refusal)?;
    let refused = refusal.number != 0;
    match answer {
        Answer::Solution(solution) => check_solution(refused, solution),
        Answer::Written(written, buffer) => check_written(refused, call.room(), written, buffer),
        Answer::Topology(_) => Ok(()),
        Answer::Kuhn(kuhn) => check_kuhn(refused, kuhn),
    }
}

fn check_refusal(call: &Call, sheet: &[u8], refusal: Refusal) -> Result<(), Fault> {
    let Refusal { number, a, b, c, d } = refusal;
    let takes_sheet = !matches!(call, Call::Kuhn { .. });
    let known = number == 0 || (takes_sheet && number <= 10) || REFUSALS[call.kind()].contains(&number);
    ensure(known, "the number is none of this call")?;
    ensure([a, b, c, d][FIELDS[number as usize]..].iter().all(|&field| field == 0), "an unused field is not 0")?;

    // What comes before the sheet is looked at, then its size.
    let (first, past) = match *call {
        Call::Solve { limit, .. } | Call::SolvePlain { limit, .. } | Call::Paths { limit, .. } => (limit > 64, limit),
        Call::Sets { .. } | Call::Topology => (false, 0),
        Call::Kuhn { iterations, .. } => (iterations > 1_000_000, iterations),
    };
    ensure((number == 27 || number == 28) == first, "27 or 28 without its reason, or not given")?;
    ensure(!first || a == past, "the field of 27 or 28")?;
    let unfit = takes_sheet && !first && !(92..=65_536).contains(&sheet.len());
    ensure((number == 1) == unfit, "1 without its reason, or not given")?;
    ensure(number != 1 || a == sheet.len() as u64, "the field of 1")?;
    ensure(number != 26 || a == call.room() as u64, "the field of 26")
}

fn check_solution(refused: bool, solution: &Solution) -> Result<(), Fault> {
    let (actions, payoffs) = (solution.action_count as usize, solution.payoff_count as usize);
    ensure(actions <= 64 && payoffs <= 8, "more labels or payoffs than there is room for")?;
    let (used, unused) = solution.payoffs.split_at(payoffs);
    ensure(used.iter().all(|payoff| payoff.is_finite()), "a payoff is not finite")?;
    ensure(unused.iter().all(|payoff| payoff.to_bits() == 0), "an unused payoff is not 0")?;
    ensure(solution.labels[actions..].iter().all(|&label| label == 0), "an unused label is not 0")?;
    let most = if solution.has_terminal == 1 { u64::from(u32::MAX) } else { 0 };
    ensure(solution.has_terminal <= 1 && solution.terminal <= most, "the terminal")?;
    if refused {
        ensure(actions == 0 && payoffs == 0 && solution.has_terminal == 0, "a refusal with an answer")
    } else {
        ensure(payoffs > 0, "an answer without payoffs")
    }
}

fn check_written(refused: bool, room: usize, written: &Written, buffer: &[u64]) -> Result<(), Fault> {
    let count = written.count as usize;
    ensure(count <= room, "more was written than there is room for")?;
    ensure(!refused || count == 0, "a refusal with a count")?;
    ensure((count..).zip(&buffer[count..]).all(|(i, &element)| element == fill(i)), "the buffer's tail was changed")
}

fn check_kuhn(refused: bool, kuhn: &Kuhn) -> Result<(), Fault> {
    if refused {
        ensure(kuhn.value.to_bits() == 0 && kuhn.bet_share.to_bits() == 0, "a refusal with an answer")
    } else {
        // no hand wins or loses more than 2
        ensure((-2.0..=2.0).contains(&kuhn.value) && (0.0..=1.0).contains(&kuhn.bet_share), "the value or the share")
    }
}
