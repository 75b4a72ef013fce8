//! The fixed list: the cases P1 to P12 of docs/SHEET.md and the boundaries that the rules of docs/ draw, each with its
//! answer, stated by hand. Every run goes through it; the stored vectors are made from it.

mod beside;
mod largest;
mod limits;
mod opening;
mod solving;

use crate::answer::{refusal, Answer, Call, Refusal};
use crate::draft::Draft;

/// What a case is to answer.
pub enum Says {
    Refused(Refusal),
    Answered(Answer),
    /// Not refused: the values are left to the two sides.
    Accepted,
}

pub struct Case {
    pub name: &'static str,
    pub sheet: Vec<u8>,
    pub call: Call,
    pub says: Says,
}

/// The list in its order. Cases on the same sheet stand together.
pub fn list() -> Vec<Case> {
    let mut list = List(Vec::new());
    solving::worked_cases(&mut list);
    opening::sizes(&mut list);
    opening::layouts(&mut list);
    opening::claims(&mut list);
    opening::repeated_entities(&mut list);
    opening::bad_rows(&mut list);
    opening::odd_rows(&mut list);
    opening::constructors(&mut list);
    opening::every_call(&mut list);
    opening::check_order(&mut list);
    solving::edges(&mut list);
    solving::solves(&mut list);
    solving::rounding(&mut list);
    solving::depths(&mut list);
    solving::shared_nodes(&mut list);
    solving::loops(&mut list);
    beside::paths(&mut list);
    beside::sets(&mut list);
    beside::topology_before_walk(&mut list);
    beside::topology_walk(&mut list);
    beside::kuhn(&mut list);
    largest::longest_sheet(&mut list);
    largest::full_edges(&mut list);
    largest::full_line(&mut list);
    largest::full_paths(&mut list);
    largest::full_sets(&mut list);
    limits::one_byte_short(&mut list);
    limits::one_row_short(&mut list);
    limits::one_row_over(&mut list);
    list.0
}

struct List(Vec<Case>);

impl List {
    fn add(&mut self, name: &'static str, sheet: &[u8], call: Call, says: Says) {
        self.0.push(Case { name, sheet: sheet.to_vec(), call, says });
    }

    fn refused<const N: usize>(&mut self, name: &'static str, sheet: &[u8], call: Call, number: u64, fields: [u64; N]) {
        self.add(name, sheet, call, Says::Refused(refusal(number, fields)));
    }

    fn accepted(&mut self, name: &'static str, sheet: &[u8], call: Call) {
        self.add(name, sheet, call, Says::Accepted);
    }

    fn solved(
        &mut self,
        name: &'static str,
        sheet: &[u8],
        call: Call,
        terminal: Option<u32>,
        labels: &[u32],
        payoffs: &[f64],
    ) {
        self.add(name, sheet, call, Says::Answered(Answer::solution(terminal, labels, payoffs)));
    }

    /// The topology check passes the sheet.
    fn passed(&mut self, name: &'static str, sheet: &[u8]) {
        self.add(name, sheet, Call::Topology, Says::Answered(Answer::Topology(Refusal::default())));
    }

    /// The words that a call with this much room writes.
    fn written(&mut self, name: &'static str, sheet: &[u8], call: Call, words: &[u64], room: usize) {
        self.add(name, sheet, call, Says::Answered(Answer::written(words, room)));
    }
}

const SOLVE: Call = Call::Solve { start: 1, limit: 0 };
const PLAIN: Call = Call::SolvePlain { start: 1, limit: 0 };

fn solve(limit: u64) -> Call {
    Call::Solve { start: 1, limit }
}

fn paths_in(room: usize) -> Call {
    Call::Paths { start: 1, limit: 0, room }
}

/// A sheet's calls, one of each, with little room.
const EACH: [Call; 5] =
    [SOLVE, PLAIN, Call::Paths { start: 1, limit: 0, room: 4 }, Call::Sets { room: 4 }, Call::Topology];

/// The worked sheet.
fn worked() -> Draft {
    let mut draft = Draft { root: 1, ..Draft::default() };
    let [open, wait, high, low] = ["open", "wait", "high", "low"].map(|text| draft.label(text));
    draft.decision(1, 0);
    draft.chance(2);
    draft.terminal(3, &[2.0, 2.0]);
    draft.terminal(4, &[8.0, 0.0]);
    draft.terminal(5, &[0.0, 4.0]);
    draft.action(10, 1, open, 2);
    draft.action(11, 1, wait, 3);
    draft.outcome(12, 2, high, 4, 0.25);
    draft.outcome(13, 2, low, 5, 0.75);
    draft
}

/// A sheet with something changed about it.
fn changed(mut draft: Draft, change: impl FnOnce(&mut Draft)) -> Vec<u8> {
    change(&mut draft);
    draft.encode()
}

/// The worked sheet with something changed about it.
fn but(change: impl FnOnce(&mut Draft)) -> Vec<u8> {
    changed(worked(), change)
}
