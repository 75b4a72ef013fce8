//! Sheets that do not open, refusals 1 to 10, and some that just do.

use super::{but, solve, worked, List, Says, EACH, SOLVE};
use crate::answer::{refusal, Call};
use crate::draft::{field, row, set_field, Draft};
use crate::sheet::*;

/// Refusal 1.
pub fn sizes(list: &mut List) {
    let empty = Draft::default().encode();
    for call in EACH {
        list.refused("no bytes", &[], call, 1, [0]);
    }
    list.refused("one byte short of the header", &empty[..HEADER - 1], SOLVE, 1, [91]);
    list.refused("only the header", &empty, SOLVE, 11, [1]);
    list.refused("only the header", &empty, Call::Topology, 11, [0]);
    list.written("only the header", &empty, Call::Sets { room: 0 }, &[], 0);
    list.written("only the header", &empty, Call::Sets { room: 3 }, &[], 3);
    let longer: Vec<u8> = empty.iter().copied().chain([0]).collect();
    for call in EACH {
        list.refused("one byte past the header", &longer, call, 4, [9]);
    }
}

/// Refusals 2 to 4 of a sheet that has rows in every section.
pub fn layouts(list: &mut List) {
    let sheet = but(|draft| draft.set(1, 0, 7));
    let patched = |at: usize, bytes: &[u8]| {
        let mut sheet = sheet.clone();
        sheet[at..at + bytes.len()].copy_from_slice(bytes);
        sheet
    };
    for at in 0..4 {
        list.refused("a byte of the mark", &patched(at, &[sheet[at] ^ 0x20]), SOLVE, 2, []);
    }
    for edition in [0u16, 2, 256, 257, 65535] {
        list.refused("edition", &patched(4, &edition.to_le_bytes()), SOLVE, 3, [edition.into()]);
    }
    for zero in [1u16, 256] {
        list.refused("the zero", &patched(6, &zero.to_le_bytes()), SOLVE, 4, [10]);
    }
    let number_at = |at: usize| u32::from_le_bytes(sheet[at..at + 4].try_into().expect("four bytes"));
    let by = |at: usize, by: u32| patched(at, &number_at(at).wrapping_add(by).to_le_bytes());
    for section in 0..10 {
        let (offset, length) = (12 + 8 * section, 16 + 8 * section);
        let fault = [section as u64];
        list.refused("offset one more", &by(offset, 1), SOLVE, 4, fault);
        list.refused("offset one less", &by(offset, u32::MAX), SOLVE, 4, fault);
        list.refused("length one more", &by(length, 1), SOLVE, 4, fault);
        list.refused("length one less", &by(length, u32::MAX), SOLVE, 4, fault);
        if section < TEXT {
            let width = WIDTHS[section] as u32;
            list.refused("length one row less", &by(length, width.wrapping_neg()), SOLVE, 4, [section as u64 + 1]);
        }
    }
    list.refused("one byte short", &sheet[..sheet.len() - 1], SOLVE, 4, [9]);
    let longer: Vec<u8> = sheet.iter().copied().chain([b'x']).collect();
    list.refused("one byte more", &longer, SOLVE, 4, [9]);
}

/// The header alone, with offsets that agree: one row too many is seen before the missing bytes.
pub fn claims(list: &mut List) {
    for section in 0..10 {
        let fault = [section as u64];
        list.refused("a row too many", &claiming(section, LIMITS[section] + 1), SOLVE, 4, fault);
        list.refused("rows that are not there", &claiming(section, LIMITS[section]), SOLVE, 4, [9]);
    }
}

/// A header that claims so many rows of one section, and nothing after it.
fn claiming(section: usize, rows: usize) -> Vec<u8> {
    let mut draft = Draft::default();
    draft.sections[section] = vec![vec![0; WIDTHS[section]]; rows];
    let mut sheet = draft.encode();
    sheet.truncate(HEADER);
    sheet
}

/// The worked sheet with one u32 changed.
fn set(section: usize, row: usize, at: usize, value: u32) -> Vec<u8> {
    but(|draft| set_field(&mut draft.sections[section][row], at, value))
}

/// An entity twice in a section.
pub fn repeated_entities(list: &mut List) {
    for section in [NODES, CHILDREN, ACTIONS, CHANCES, TRANSITIONS, TERMINALS] {
        let first = field(&worked().sections[section][0], 0);
        list.refused("an entity twice", &set(section, 1, 0, first), SOLVE, 5, [section as u64, 1]);
    }
    let sets = but(|draft| {
        draft.set(1, 0, 7);
        draft.set(2, 0, 7);
        draft.set(1, 0, 8);
    });
    list.refused("an entity twice", &sets, SOLVE, 5, [SETS as u64, 2]);
}

/// The other faults of 5.
pub fn bad_rows(list: &mut List) {
    let mut bad = |name, section: usize, row: usize, sheet: Vec<u8>| {
        list.refused(name, &sheet, SOLVE, 5, [section as u64, row as u64]);
    };
    bad("kind 3", NODES, 0, set(NODES, 0, 4, 3));
    bad("a chance node's player", NODES, 1, set(NODES, 1, 8, 1));
    bad("a terminal's player", NODES, 4, set(NODES, 4, 8, u32::MAX));
    bad("label 4 of 4", ACTIONS, 1, set(ACTIONS, 1, 4, 4));
    bad("label 4 of 4", CHANCES, 0, set(CHANCES, 0, 4, 4));
    bad("nine payoffs", TERMINALS, 2, set(TERMINALS, 2, 4, 9));
    bad("a payoff count one less", TERMINALS, 3, set(TERMINALS, 0, 4, 1));
    bad("a payoff count one more", TERMINALS, 3, set(TERMINALS, 2, 4, 3));
    bad("no terminals, six payoffs", TERMINALS, 0, but(|draft| draft.sections[TERMINALS].clear()));
    bad("a label that starts in the one before", LABELS, 1, set(LABELS, 1, 0, 3));
    bad("a label that ends past the text", LABELS, 3, set(LABELS, 3, 4, 4));
    bad("a label whose end is past 4294967295", LABELS, 3, set(LABELS, 3, 4, u32::MAX));
    bad("an empty label past the text", LABELS, 4, but(|draft| draft.sections[LABELS].push(row([16, 0]))));
    for (byte, name) in [(0x1F, "text byte 1F"), (0x7F, "text byte 7F"), (0x00, "text byte 00"), (0xFF, "text byte FF")]
    {
        bad(name, TEXT, 14, but(|draft| draft.sections[TEXT][14] = vec![byte]));
    }
}

/// Rows that are just no fault of 5.
pub fn odd_rows(list: &mut List) {
    let with_ends = but(|draft| {
        draft.sections[TEXT][0] = vec![0x20];
        draft.sections[TEXT][14] = vec![0x7E];
    });
    list.accepted("text bytes 20 and 7E", &with_ends, SOLVE);
    let unused = but(|draft| draft.sections[LABELS].push(row([15, 0])));
    list.accepted("an empty label at the text's end, unused", &unused, SOLVE);
    let gap = but(|draft| {
        draft.sections[TEXT].insert(0, vec![b'-']);
        for label in &mut draft.sections[LABELS] {
            let start = field(label, 0);
            set_field(label, 0, start + 1);
        }
    });
    list.accepted("text before the first label", &gap, SOLVE);
}

/// Refusals 6 to 10.
pub fn constructors(list: &mut List) {
    list.refused("player 4294967295", &set(NODES, 0, 8, u32::MAX), SOLVE, 6, [4_294_967_295]);
    list.refused("player 4294967294", &set(NODES, 0, 8, u32::MAX - 1), SOLVE, 18, [2, 4_294_967_294]);
    let member = but(|draft| draft.set(1, u32::MAX, 7));
    list.refused("a set's player 4294967295", &member, Call::Sets { room: 8 }, 6, [4_294_967_295]);
    list.refused("an action's label is empty", &set(LABELS, 1, 4, 0), SOLVE, 7, []);
    list.refused("an outcome's label is empty", &set(LABELS, 2, 4, 0), SOLVE, 7, []);
    let nan = 0x7FF0_0000_0000_0001;
    let above_one = 0x3FF0_0000_0000_0001;
    for bits in [0, 1 << 63, 1 << 63 | 1, 0xBFF0 << 48, above_one, 0x7FF0 << 48, 0xFFF0 << 48, nan, u64::MAX] {
        list.refused("a probability", &with_probability(f64::from_bits(bits)), SOLVE, 8, [bits]);
    }
    for probability in [5e-324, 1.0] {
        list.accepted("the least and the greatest probability", &with_probability(probability), SOLVE);
    }
    let none = but(|draft| draft.set_payoffs(1, &[]));
    list.refused("no payoffs", &none, SOLVE, 9, []);
    for payoff in [f64::INFINITY, f64::NEG_INFINITY, f64::NAN, f64::from_bits(nan)] {
        let sheet = but(|draft| draft.set_payoffs(2, &[0.0, payoff]));
        list.refused("a payoff", &sheet, SOLVE, 10, []);
    }
    let most = but(|draft| {
        for terminal in 0..3 {
            draft.set_payoffs(terminal, &[f64::MAX, -f64::MAX, -0.0, 0.0, 5e-324, 1.0, 2.0, 3.0]);
        }
    });
    list.accepted("eight payoffs", &most, SOLVE);
}

/// The worked sheet with this probability for edge 13.
fn with_probability(probability: f64) -> Vec<u8> {
    but(|draft| draft.sections[CHANCES][1][12..].copy_from_slice(&probability.to_le_bytes()))
}

/// Each of the refusals 1 to 10 from each call that takes a sheet.
pub fn every_call(list: &mut List) {
    let sheet = worked().encode();
    let refused = [
        (sheet[..HEADER - 1].to_vec(), refusal(1, [91])),
        (patch(&sheet, 0, 0), refusal(2, [])),
        (patch(&sheet, 4, 2), refusal(3, [2])),
        (patch(&sheet, 6, 1), refusal(4, [10])),
        (set(TERMINALS, 2, 4, 9), refusal(5, [5, 2])),
        (set(NODES, 0, 8, u32::MAX), refusal(6, [4_294_967_295])),
        (set(LABELS, 0, 4, 0), refusal(7, [])),
        (with_probability(-0.25), refusal(8, [0xBFD0 << 48])),
        (but(|draft| draft.set_payoffs(2, &[])), refusal(9, [])),
        (but(|draft| draft.set_payoffs(0, &[f64::INFINITY, 2.0])), refusal(10, [])),
    ];
    for (sheet, refusal) in refused {
        for call in EACH {
            list.add("a sheet that does not open", &sheet, call, Says::Refused(refusal));
        }
    }
}

/// Of two faults the one that is looked for first.
pub fn check_order(list: &mut List) {
    list.refused("27 before 1", &[], solve(65), 27, [65]);
    list.refused("27 before 1", &[], Call::SolvePlain { start: 1, limit: u64::MAX }, 27, [u64::MAX]);
    list.refused("27 before 1", &[], Call::Paths { start: 1, limit: 65, room: 2 }, 27, [65]);
    let mut header = worked().encode();
    header[6] = 1;
    list.refused("4 of section 10 before 4 of section 0", &patch(&header, 12, 0), SOLVE, 4, [10]);
    header[4] = 2;
    list.refused("3 before 4", &header, SOLVE, 3, [2]);
    header[0] = 0;
    list.refused("2 before 3", &header, SOLVE, 2, []);
    list.refused("1 before 2", &header[..80], SOLVE, 1, [80]);
    let set = |draft: &mut Draft, section: usize, row: usize, at: usize, value: u32| {
        set_field(&mut draft.sections[section][row], at, value);
    };
    let mut draft = worked();
    draft.set(1, u32::MAX, 7);
    let mut next = |name, change: &dyn Fn(&mut Draft), number, fields: [u64; 2]| {
        change(&mut draft);
        list.refused(name, &draft.encode(), SOLVE, number, fields);
    };
    // each change makes a fault that is looked for before all those made so far
    next("section 7", &|_| {}, 6, [4_294_967_295, 0]);
    next("section 6", &|draft| draft.set_payoffs(0, &[f64::INFINITY, 0.0]), 10, [0, 0]);
    next("the counts' sum before 10", &|draft| set(draft, TERMINALS, 1, 4, 1), 5, [5, 3]);
    next("9 before the counts' sum", &|draft| set(draft, TERMINALS, 1, 4, 0), 9, [0, 0]);
    next("an earlier row", &|draft| set(draft, TERMINALS, 0, 4, 9), 5, [5, 0]);
    next("section 4", &|draft| set(draft, TRANSITIONS, 1, 0, 10), 5, [4, 1]);
    next("section 3", &|draft| draft.sections[CHANCES][1][12..].fill(0), 8, [0, 0]);
    next("7 before 8", &|draft| set(draft, LABELS, 3, 4, 0), 7, [0, 0]);
    next("5 before 7", &|draft| set(draft, CHANCES, 1, 0, 12), 5, [3, 1]);
    next("section 2", &|draft| set(draft, ACTIONS, 1, 4, 9), 5, [2, 1]);
    next("section 1", &|draft| set(draft, CHILDREN, 3, 0, 10), 5, [1, 3]);
    next("section 0", &|draft| set(draft, NODES, 4, 8, 1), 5, [0, 4]);
    next("6 in an earlier row", &|draft| set(draft, NODES, 0, 8, u32::MAX), 6, [4_294_967_295, 0]);
    next("5 before 6", &|draft| set(draft, NODES, 0, 4, 3), 5, [0, 0]);
    next("section 9", &|draft| draft.sections[TEXT][0] = vec![0], 5, [9, 0]);
    next("section 8", &|draft| set(draft, LABELS, 2, 0, 7), 5, [8, 2]);
}

fn patch(sheet: &[u8], at: usize, byte: u8) -> Vec<u8> {
    let mut sheet = sheet.to_vec();
    sheet[at] = byte;
    sheet
}
