//! Stores the fixed list with its answers, for a program that has no Rust at hand. README.md has the format.

use crate::answer::{Answer, Call, Variant};
use crate::judge::Expected;

const END: u64 = 0;
const SHEET: u64 = 1;
const CASE: u64 = 2;
const TEXT: u64 = 3;

/// Words of an answer that the program vectors has room for.
pub const MOST_WORDS: usize = 1_100;

/// The file's records but for the first and the last, in the making.
#[derive(Default)]
pub struct Vectors {
    bytes: Vec<u8>,
    sheet: Option<Vec<u8>>,
    pub cases: u64,
    /// Cases in which the Rust was asked.
    pub asked: u64,
}

impl Vectors {
    /// Adds a case; its sheet too, unless it is the one before's.
    pub fn add(&mut self, sheet: &[u8], call: &Call, expected: &Expected) {
        if self.sheet.as_deref() != Some(sheet) {
            self.record(SHEET, sheet);
            self.sheet = Some(sheet.to_vec());
        }
        let [number, start, limit, room] = arguments(call);
        let words = without_sign(&expected.answer).words();
        assert!(words.len() <= MOST_WORDS, "an answer that can be replayed");
        self.words(&[CASE, number, start, limit, room, words.len() as u64]);
        self.words(&words);
        self.cases += 1;
        self.asked += u64::from(expected.asked);
    }

    /// The file, which starts by saying how it was made.
    pub fn finish(&self) -> Vec<u8> {
        let mut file = Vectors::default();
        file.record(TEXT, self.made().as_bytes());
        file.bytes.extend(&self.bytes);
        file.words(&[END, self.cases]);
        file.bytes
    }

    fn made(&self) -> String {
        let (cases, asked) = (self.cases, self.asked);
        format!(
            "made by tests/differential/run --vectors FILE: the fixed list of tests/differential/src/fixed, {cases} cases; \
             the unchanged Rust was asked in {asked}, the other answers are the reference's\n"
        )
    }

    /// A record of bytes.
    fn record(&mut self, kind: u64, bytes: &[u8]) {
        self.words(&[kind, bytes.len() as u64]);
        self.bytes.extend(bytes);
    }

    fn words(&mut self, words: &[u64]) {
        self.bytes.extend(words.iter().flat_map(|word| word.to_le_bytes()));
    }
}

/// The call's number and its arguments, those that it lacks 0.
fn arguments(call: &Call) -> [u64; 4] {
    match *call {
        Call::Solve { start, limit } => [1, start.into(), limit, 0],
        Call::SolvePlain { start, limit } => [2, start.into(), limit, 0],
        Call::Paths { start, limit, room } => [3, start.into(), limit, room as u64],
        Call::Sets { room } => [4, 0, 0, room as u64],
        Call::Topology => [5, 0, 0, 0],
        Call::Kuhn { variant: Variant::Vanilla, iterations } => [6, 0, iterations, 0],
        Call::Kuhn { variant: Variant::CfrPlus, iterations } => [7, 0, iterations, 0],
        Call::Kuhn { variant: Variant::LinearCfr, iterations } => [8, 0, iterations, 0],
    }
}

/// The answer with plus 0 for a zero of either sign.
fn without_sign(answer: &Answer) -> Answer {
    let mut answer = answer.clone();
    match &mut answer {
        Answer::Solution(solution) => solution.payoffs = solution.payoffs.map(|payoff| payoff + 0.0),
        Answer::Kuhn(kuhn) => {
            kuhn.value += 0.0;
            kuhn.bet_share += 0.0;
        }
        Answer::Written(..) | Answer::Topology(_) => {}
    }
    answer
}
