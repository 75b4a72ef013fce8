//! Sheets one byte or one row short of a limit, which open, and sheets with one row more, which do not.

use super::{paths_in, List, PLAIN, SOLVE};
use crate::answer::Call;
use crate::draft::{row, Draft};
use crate::sheet::*;

/// 65,535 bytes: nodes, children, actions, transitions, sets, labels and text one short of their limits. Node 1 has
/// 1,023 edges to the terminal 1023.
fn one_short_of_longest() -> Draft {
    let mut draft = Draft { root: 1, ..Draft::default() };
    for number in 0..254 {
        draft.label(&format!("{number:016}"));
    }
    draft.label(&format!("{:031}", 254));
    for node in 1..1023 {
        draft.decision(node, 3);
        draft.set(node, 3, if node == 1 { 9 } else { 7 });
    }
    draft.terminal(1023, &[1.0, 2.0, 3.0, 0.1]);
    draft.set(1023, 3, 8);
    for edge in 0..1023 {
        draft.action(2000 + edge, 1, edge % 255, 1023);
    }
    for edge in 0..99 {
        draft.chance_row(2000 + edge, edge, 1023, 1.0);
    }
    draft
}

/// Every call on the sheet of 65,535 bytes: that the terminal is in a set is found in the last set row.
pub fn one_byte_short(list: &mut List) {
    let draft = one_short_of_longest();
    for section in [NODES, CHILDREN, ACTIONS, TRANSITIONS, SETS, LABELS, TEXT] {
        assert_eq!(draft.sections[section].len(), LIMITS[section] - 1, "one row short");
    }
    let sheet = draft.encode();
    assert_eq!(sheet.len(), LONGEST - 1, "one byte short");
    let payoffs = [1.0, 2.0, 3.0, 0.1];
    list.solved("65,535 bytes", &sheet, SOLVE, Some(1023), &[0], &payoffs);
    list.solved("65,535 bytes", &sheet, PLAIN, Some(1023), &[0], &payoffs);
    list.refused("65,535 bytes", &sheet, paths_in(100), 26, [100]);
    list.refused("65,535 bytes", &sheet, Call::Sets { room: 0 }, 21, [8, 1023]);
    list.refused("65,535 bytes", &sheet, Call::Topology, 11, [2000]);
}

/// Chances, terminals and payoffs one short of their limits.
pub fn one_row_short(list: &mut List) {
    let mut draft = Draft { root: 1, ..Draft::default() };
    let label = draft.label("a");
    draft.chance(1);
    for terminal in 2..=64 {
        draft.terminal(terminal, &[f64::from(terminal), 0.1, -1.0, 0.0]);
    }
    for terminal in 65..1024 {
        draft.payoffs(terminal, &[1.0; 4]);
    }
    draft.payoffs(1024, &[1.0; 7]);
    for edge in 0..1023 {
        draft.chance_row(2000 + edge, label, 2 + edge % 63, 0.015625);
    }
    for edge in 0..63 {
        draft.edge(2000 + edge, 1, 2 + edge);
    }
    for section in [CHANCES, TERMINALS, PAYOFFS] {
        assert_eq!(draft.sections[section].len(), LIMITS[section] - 1, "one row short");
    }
    let sheet = draft.encode();
    list.accepted("one row short", &sheet, SOLVE);
    list.refused("one row short", &sheet, PLAIN, 20, [1]);
    list.written("one row short", &sheet, Call::Sets { room: 0 }, &[], 0);
}

/// Sheets that have one row more than a section may have, and have it in full.
pub fn one_row_over(list: &mut List) {
    for section in 0..10 {
        let full = filled(section, LIMITS[section]).encode();
        assert!(Sheet::lay_out(&full).is_ok(), "the limit itself is kept");
        let over = filled(section, LIMITS[section] + 1).encode();
        list.refused("a row too many, in full", &over, SOLVE, 4, [section as u64]);
    }
}

/// So many rows of a section with what they need beside them: no other fault.
fn filled(section: usize, rows: usize) -> Draft {
    let mut draft = Draft { root: 1, ..Draft::default() };
    let label = draft.label("a");
    for entity in 0..rows as u32 {
        let left = rows - draft.sections[section].len();
        match section {
            _ if left == 0 => break,
            NODES => draft.decision(entity, 0),
            CHILDREN | TRANSITIONS => draft.sections[section].push(row([entity, 1])),
            ACTIONS => draft.action_row(entity, label, 1),
            CHANCES => draft.chance_row(entity, label, 1, 0.5),
            TERMINALS => draft.payoffs(entity, &[1.0]),
            PAYOFFS => draft.payoffs(entity, &vec![1.0; left.min(8)]),
            SETS => draft.set(entity, 0, 7),
            LABELS => drop(draft.label("")),
            _ => draft.sections[TEXT].push(vec![b'x']),
        }
    }
    draft
}
