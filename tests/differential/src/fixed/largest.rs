//! Sections at their limits, the longest sheet, and listings as long as a stored answer can hold.

use super::{paths_in, List, EACH, SOLVE};
use crate::answer::Call;
use crate::draft::{row, Draft};
use crate::sheet::*;
use crate::vectors::MOST_WORDS;

/// Nodes, children, terminals, payoffs and labels at their limits, 65,536 bytes in all.
fn longest() -> Vec<u8> {
    let mut draft = Draft { root: 0, ..Draft::default() };
    for number in 0..LIMITS[LABELS] {
        draft.label(if number < 156 { "a" } else { "" });
    }
    draft.decision(0, 3);
    for terminal in 1..1024 {
        let value = f64::from(terminal);
        draft.terminal(terminal, &[-value, 1.0 / value, value, 0.1 * f64::from(terminal % 89)]);
    }
    draft.payoffs(5000, &[0.0; 4]);
    for edge in 0..90 {
        draft.action(2000 + edge, 0, edge, 1023 - edge);
    }
    for edge in 90..1024 {
        draft.sections[CHILDREN].push(row([2000 + edge, 0]));
    }
    let sheet = draft.encode();
    assert_eq!(sheet.len(), LONGEST, "the longest sheet");
    sheet
}

/// Every call on the longest sheet, and on one byte more.
pub fn longest_sheet(list: &mut List) {
    let sheet = longest();
    let from = |start, room| Call::Paths { start, limit: 0, room };
    list.accepted("the longest sheet", &sheet, Call::Solve { start: 0, limit: 0 });
    list.accepted("the longest sheet", &sheet, Call::SolvePlain { start: 0, limit: 0 });
    list.accepted("the longest sheet", &sheet, from(0, 720));
    list.refused("the longest sheet", &sheet, from(0, 719), 26, [719]);
    list.written("the longest sheet", &sheet, Call::Sets { room: 0 }, &[], 0);
    list.refused("the longest sheet", &sheet, Call::Topology, 11, [2000]);
    let longer: Vec<u8> = sheet.iter().copied().chain([0]).collect();
    for call in EACH {
        list.refused("one byte longer", &longer, call, 1, [65_537]);
    }
}

/// Children, actions, chances, transitions and text at their limits.
pub fn full_edges(list: &mut List) {
    let mut draft = Draft { root: 1, ..Draft::default() };
    let label = draft.label("a");
    draft.sections[TEXT].resize(LIMITS[TEXT], vec![b'~']);
    draft.chance(1);
    for terminal in 2..102u32 {
        draft.terminal(terminal, &[0.1 * f64::from(terminal), -1.0 / f64::from(terminal)]);
    }
    for edge in 0..1024 {
        let target = 2 + edge * 7 % 100;
        draft.action(2000 + edge, 1, label, target);
        draft.chance_row(2000 + edge, label, target, 1.0 / 1024.0);
    }
    let sheet = draft.encode();
    list.accepted("1,024 outcomes", &sheet, SOLVE);
    list.refused("1,024 paths", &sheet, paths_in(6143), 26, [6143]);
}

/// A line of 1,024 decisions by child rows, all in two sets.
pub fn full_line(list: &mut List) {
    let mut draft = Draft { root: 1, ..Draft::default() };
    for node in 1..=1024 {
        draft.decision(node, 0);
        draft.set(node, 0, u64::from(node % 2));
        if node > 1 {
            draft.sections[CHILDREN].push(row([node, node - 1]));
        }
    }
    let sheet = draft.encode();
    list.passed("1,024 levels", &sheet);
    list.accepted("1,024 set rows", &sheet, Call::Sets { room: 1032 });
    list.refused("1,024 set rows", &sheet, Call::Sets { room: 1031 }, 26, [1031]);
    draft.sections[SETS].clear();
    draft.sections[CHILDREN].push(row([1, 1024]));
    list.refused("1,024 levels and back", &draft.encode(), Call::Topology, 12, [1]);
}

/// The longest listing that can be stored: before it stand the refusal's five words and the count.
const MOST_LISTED: usize = MOST_WORDS - 6;

/// A decision with 214 edges to a terminal with one payoff and 4 to one with two.
pub fn full_paths(list: &mut List) {
    let mut draft = Draft { root: 1, ..Draft::default() };
    let labels = ["in", "on", "out"].map(|text| draft.label(text));
    draft.decision(1, 0);
    draft.terminal(2, &[0.1]);
    draft.terminal(3, &[0.3, -0.7]);
    let mut words: Vec<u64> = Vec::new();
    for edge in 0..218u32 {
        let (label, is_last) = (labels[edge as usize % 3], edge >= 214);
        let payoffs: &[f64] = if is_last { &[0.3, -0.7] } else { &[0.1] };
        let target = if is_last { 3 } else { 2 };
        draft.action(1000 + edge, 1, label, target);
        words.extend([target.into(), payoffs.len() as u64, 1, label.into()]);
        words.extend(payoffs.iter().map(|payoff| payoff.to_bits()));
    }
    assert_eq!(words.len(), MOST_LISTED, "the longest listing");
    let sheet = draft.encode();
    list.written("a long listing of paths", &sheet, paths_in(words.len()), &words, words.len());
    list.refused("a long listing of paths", &sheet, paths_in(words.len() - 1), 26, [words.len() as u64 - 1]);
}

/// 222 decisions in 218 sets, whose ids fall by row.
pub fn full_sets(list: &mut List) {
    let id = |node: u32| u64::from(218 - node % 218);
    let mut draft = Draft { root: 1, ..Draft::default() };
    for node in 1..=222 {
        draft.decision(node, 0);
        draft.set(node, 0, id(node));
    }
    let mut words: Vec<u64> = Vec::new();
    for set in 1..=218 {
        let members: Vec<u64> = (1..=222).filter(|&node| id(node) == set).map(u64::from).collect();
        words.extend([set, 0, members.len() as u64, 0]);
        words.extend(members);
    }
    assert_eq!(words.len(), MOST_LISTED, "the longest listing");
    let sheet = draft.encode();
    let room = |room| Call::Sets { room };
    list.written("a long listing of sets", &sheet, room(words.len()), &words, words.len());
    list.refused("a long listing of sets", &sheet, room(words.len() - 1), 26, [words.len() as u64 - 1]);
}
