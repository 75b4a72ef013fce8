//! What is called and what comes back: the calls and structs of include/kgs.h.
//!
//! Answers are compared by `==`. On f64s that is equality of bits with zeros of either sign alike, since no right
//! answer holds a NaN; a side that gives one differs from every other.

/// A refusal by its number in docs/REFUSALS.md with its fields; number 0 is none.
#[repr(C)]
#[derive(Clone, Copy, Debug, Default, PartialEq)]
pub struct Refusal {
    pub number: u64,
    pub a: u64,
    pub b: u64,
    pub c: u64,
    pub d: u64,
}

/// The refusal with this number and these fields, the others 0.
pub fn refusal<const N: usize>(number: u64, fields: [u64; N]) -> Refusal {
    let field = |i| fields.get(i).copied().unwrap_or(0);
    Refusal { number, a: field(0), b: field(1), c: field(2), d: field(3) }
}

#[repr(C)]
#[derive(Clone, Copy, Debug, PartialEq)]
pub struct Solution {
    pub refusal: Refusal,
    pub has_terminal: u64,
    pub terminal: u64,
    pub action_count: u64,
    pub labels: [u32; 64],
    pub payoff_count: u64,
    pub payoffs: [f64; 8],
}

#[repr(C)]
#[derive(Clone, Copy, Debug, PartialEq)]
pub struct Written {
    pub refusal: Refusal,
    pub count: u64,
}

#[repr(C)]
#[derive(Clone, Copy, Debug, PartialEq)]
pub struct Kuhn {
    pub refusal: Refusal,
    pub value: f64,
    pub bet_share: f64,
}

/// The sizes that a C compiler for x86-64 gives these structs.
const _: () = assert!(size_of::<Refusal>() == 40 && size_of::<Written>() == 48 && size_of::<Kuhn>() == 56);
const _: () = assert!(size_of::<Solution>() == 392);

#[derive(Clone, Copy, Debug, PartialEq)]
pub enum Variant {
    Vanilla,
    CfrPlus,
    LinearCfr,
}

pub const VARIANTS: [Variant; 3] = [Variant::Vanilla, Variant::CfrPlus, Variant::LinearCfr];

/// A call with its arguments but for the sheet; `room` is the lent buffer's length in u64s.
#[derive(Clone, Copy, Debug, PartialEq)]
pub enum Call {
    Solve { start: u32, limit: u64 },
    SolvePlain { start: u32, limit: u64 },
    Paths { start: u32, limit: u64, room: usize },
    Sets { room: usize },
    Topology,
    Kuhn { variant: Variant, iterations: u64 },
}

/// The names of the calls, by `Call::kind`.
pub const KINDS: [&str; 6] = ["solve", "plain", "paths", "sets", "topology", "kuhn"];

impl Call {
    pub fn kind(&self) -> usize {
        match self {
            Call::Solve { .. } => 0,
            Call::SolvePlain { .. } => 1,
            Call::Paths { .. } => 2,
            Call::Sets { .. } => 3,
            Call::Topology => 4,
            Call::Kuhn { .. } => 5,
        }
    }

    /// The length of the buffer that the call is lent; 0 where it takes none.
    #[cfg_attr(not(library), allow(dead_code))]
    pub fn room(&self) -> usize {
        match *self {
            Call::Paths { room, .. } | Call::Sets { room } => room,
            _ => 0,
        }
    }

    /// This call's answer when it is refused: every other member 0, the buffer as it was.
    pub fn refused(&self, refusal: Refusal) -> Answer {
        match *self {
            Call::Solve { .. } | Call::SolvePlain { .. } => Answer::Solution(Solution {
                refusal,
                has_terminal: 0,
                terminal: 0,
                action_count: 0,
                labels: [0; 64],
                payoff_count: 0,
                payoffs: [0.0; 8],
            }),
            Call::Paths { room, .. } | Call::Sets { room } => {
                Answer::Written(Written { refusal, count: 0 }, lent(room))
            }
            Call::Topology => Answer::Topology(refusal),
            Call::Kuhn { .. } => Answer::Kuhn(Kuhn { refusal, value: 0.0, bet_share: 0.0 }),
        }
    }
}

/// What a call gives back; beside `Written` stands the whole lent buffer with its guard, as the call left it.
#[derive(Clone, Debug, PartialEq)]
pub enum Answer {
    Solution(Solution),
    Written(Written, Vec<u64>),
    Topology(Refusal),
    Kuhn(Kuhn),
}

impl Answer {
    pub fn refusal(&self) -> Refusal {
        match self {
            Answer::Solution(solution) => solution.refusal,
            Answer::Written(written, _) => written.refusal,
            Answer::Topology(refusal) => *refusal,
            Answer::Kuhn(kuhn) => kuhn.refusal,
        }
    }

    /// A solution; there are at most 64 labels and 8 payoffs.
    pub fn solution(terminal: Option<u32>, labels: &[u32], payoffs: &[f64]) -> Answer {
        let mut solution = Solution {
            refusal: Refusal::default(),
            has_terminal: terminal.is_some().into(),
            terminal: terminal.unwrap_or(0).into(),
            action_count: labels.len() as u64,
            labels: [0; 64],
            payoff_count: payoffs.len() as u64,
            payoffs: [0.0; 8],
        };
        solution.labels[..labels.len()].copy_from_slice(labels);
        solution.payoffs[..payoffs.len()].copy_from_slice(payoffs);
        Answer::Solution(solution)
    }

    /// These words at the front of a buffer of `room`, or 26 if they do not fit.
    pub fn written(words: &[u64], room: usize) -> Answer {
        let mut buffer = lent(room);
        if words.len() > room {
            let refusal = refusal(26, [room as u64]);
            return Answer::Written(Written { refusal, count: 0 }, buffer);
        }
        buffer[..words.len()].copy_from_slice(words);
        let written = Written { refusal: Refusal::default(), count: words.len() as u64 };
        Answer::Written(written, buffer)
    }

    /// The answer as u64s: the refusal's five, then, if not refused, the members that are in use. See README.md.
    pub fn words(&self) -> Vec<u64> {
        let Refusal { number, a, b, c, d } = self.refusal();
        let mut words = vec![number, a, b, c, d];
        if number != 0 {
            return words;
        }
        match self {
            Answer::Solution(solution) => {
                let labels = solution.labels.len().min(solution.action_count as usize);
                words.extend([solution.has_terminal, solution.terminal, solution.payoff_count]);
                words.extend(solution.payoffs.map(f64::to_bits));
                words.push(solution.action_count);
                words.extend(solution.labels[..labels].iter().map(|&label| u64::from(label)));
            }
            Answer::Written(written, buffer) => {
                words.push(written.count);
                words.extend(&buffer[..buffer.len().min(written.count as usize)]);
            }
            Answer::Topology(_) => {}
            Answer::Kuhn(kuhn) => words.extend([kuhn.value.to_bits(), kuhn.bet_share.to_bits()]),
        }
        words
    }
}

/// Elements after the lent buffer's end that no call may touch.
const GUARD: usize = 8;

/// A buffer of `room` elements with the guard after it, each element unlike any that a call writes by chance.
pub fn lent(room: usize) -> Vec<u64> {
    (0..room + GUARD).map(fill).collect()
}

/// What element `i` of a lent buffer holds before the call.
pub fn fill(i: usize) -> u64 {
    0xA5A5_A5A5_0000_0000 + i as u64
}
