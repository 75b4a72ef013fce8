//! What may go wrong with a sheet: rows dropped, doubled or changed, which often leaves a sheet that opens, and
//! damage to its bytes, which mostly does not.

use crate::draft::{field, row, set_field, Draft, Row};
use crate::generate;
use crate::random::Random;
use crate::sheet::*;

/// Probabilities and payoffs that are refused, or nearly.
const ODD_BITS: [u64; 14] = [
    0x0000_0000_0000_0000, // 0
    0x8000_0000_0000_0000, // minus 0
    0x0000_0000_0000_0001, // the least subnormal
    0x8000_0000_0000_0001,
    0x3FF0_0000_0000_0000, // 1
    0x3FF0_0000_0000_0001, // the next above 1
    0xBFF0_0000_0000_0000,
    0x7FEF_FFFF_FFFF_FFFF, // the greatest finite number
    0xFFEF_FFFF_FFFF_FFFF,
    0x7FF0_0000_0000_0000, // infinity
    0xFFF0_0000_0000_0000,
    0x7FF0_0000_0000_0001, // NaNs
    0x7FF8_0000_0000_0000,
    0xFFFF_FFFF_FFFF_FFFF,
];

/// A u32 that lies at some boundary, or an entity of the sheet.
fn odd_number(draft: &Draft, random: &mut Random) -> u32 {
    match random.below(3) {
        0 => random.pick(&[0, 1, 2, 3, 7, 8, 9, 255, 256, 1023, 1024, 4096, 1 << 31, u32::MAX - 1, u32::MAX]),
        1 => random.below(12) as u32,
        _ => any_entity(draft, random),
    }
}

/// An entity of some row, or one of none.
fn any_entity(draft: &Draft, random: &mut Random) -> u32 {
    let rows = &draft.sections[random.pick(&[NODES, NODES, NODES, CHILDREN, TERMINALS])];
    if rows.is_empty() || random.one_in(20) {
        return random.next() as u32;
    }
    field(&rows[random.below(rows.len())], 0)
}

/// A start and a limit of any kind.
pub fn any_place(draft: &Draft, random: &mut Random) -> (u32, u64) {
    let start = if random.one_in(4) { any_entity(draft, random) } else { draft.root };
    let limit = match random.below(40) {
        0 => 65 + random.next() % 100,
        1 => random.next(),
        2..=14 => 0,
        15..=26 => 64,
        _ => random.between(1, 64) as u64,
    };
    (start, limit)
}

/// What is done to a fit sheet.
#[derive(Clone, Copy)]
pub enum Harm {
    None,
    Rows,
    Bytes,
    Both,
}

/// A sheet to which this was done, and its rows before its bytes were damaged.
pub fn make(harm: Harm, random: &mut Random) -> (Draft, Vec<u8>) {
    let mut draft = generate::fit(random);
    let mut bytes = draft.encode();
    if let Harm::Rows | Harm::Both = harm {
        let fit = bytes.clone();
        while bytes == fit {
            for _ in 0..random.between(1, 3) {
                change_rows(&mut draft, random);
            }
            bytes = draft.encode();
        }
    }
    if let Harm::Bytes | Harm::Both = harm {
        let whole = bytes.clone();
        while bytes == whole {
            for _ in 0..random.pick(&[1, 1, 1, 2]) {
                damage(&mut bytes, random);
            }
        }
    }
    (draft, bytes)
}

/// Changes one thing about the rows.
fn change_rows(draft: &mut Draft, random: &mut Random) {
    let section = random.below(10);
    let rows = draft.sections[section].len();
    let place = random.below(rows.max(1));
    let number = odd_number(draft, random);
    let entity = any_entity(draft, random);
    match random.below(16) {
        0 => lead_elsewhere(draft, entity, random),
        // an edge without its transition, or without another of its rows
        1 => drop_row(draft, &[TRANSITIONS, TRANSITIONS, CHILDREN, ACTIONS, CHANCES], random),
        // a node that is gone, or has no payoffs
        2 => drop_row(draft, &[NODES, TERMINALS], random),
        // a node without edges
        3 => draft.sections[CHILDREN].retain(|row| field(row, 4) != entity),
        4 => drop_kind_of_edges(draft, entity, random),
        5 | 6 => change_payoff_count(draft, random),
        7 => change_node(draft, random),
        // another probability
        8 => odd_bits(draft, CHANCES, 12, random),
        // another payoff
        9 => odd_bits(draft, PAYOFFS, 0, random),
        10 => put_root_below(draft, entity),
        11 => join_sets(draft, random),
        12 => change_set(draft, entity, number, random),
        13 => change_label(draft, random),
        14 => double_row(draft, section, place, random),
        // any field of any row
        _ if rows > 0 && WIDTHS[section] >= 4 => {
            let at = 4 * random.below(WIDTHS[section] / 4);
            set_field(&mut draft.sections[section][place], at, number);
        }
        _ => {}
    }
}

/// An edge that leads to this entity, by all its rows or by some.
fn lead_elsewhere(draft: &mut Draft, entity: u32, random: &mut Random) {
    let edges = &draft.sections[TRANSITIONS];
    if edges.is_empty() {
        return;
    }
    let edge = field(&edges[random.below(edges.len())], 0);
    let all = random.one_in(2);
    for (section, at) in [(ACTIONS, 8), (CHANCES, 8), (TRANSITIONS, 4)] {
        for row in draft.sections[section].iter_mut().filter(|row| field(row, 0) == edge) {
            if all || random.one_in(2) {
                set_field(row, at, entity);
            }
        }
    }
}

/// A node without outcomes, or without actions.
fn drop_kind_of_edges(draft: &mut Draft, node: u32, random: &mut Random) {
    let section = random.pick(&[ACTIONS, CHANCES]);
    let children = draft.sections[CHILDREN].iter().filter(|row| field(row, 4) == node);
    let children: Vec<u32> = children.map(|row| field(row, 0)).collect();
    draft.sections[section].retain(|row| !children.contains(&field(row, 0)));
}

/// A terminal with another payoff count.
fn change_payoff_count(draft: &mut Draft, random: &mut Random) {
    let terminals = draft.sections[TERMINALS].len();
    if terminals > 0 {
        let payoffs = vec![random.below(5) as f64; random.pick(&[0, 1, 2, 3, 8, 9])];
        draft.set_payoffs(random.below(terminals), &payoffs);
    }
}

/// A node of another kind, or another player's.
fn change_node(draft: &mut Draft, random: &mut Random) {
    let nodes = draft.sections[NODES].len();
    if let Some(node) = draft.sections[NODES].get_mut(random.below(nodes.max(1))) {
        let kind = random.pick(&[0, 0, 1, 2, 3]);
        set_field(node, 4, kind);
        let player = if kind == 0 || random.one_in(8) { random.pick(&[0, 1, 2, 7, 8, u32::MAX]) } else { 0 };
        set_field(node, 8, player);
    }
}

/// The root below one of its nodes.
fn put_root_below(draft: &mut Draft, node: u32) {
    let root = draft.root;
    draft.sections[CHILDREN].retain(|row| field(row, 0) != root);
    draft.sections[CHILDREN].push(row([root, node]));
}

/// The set id of each set row.
fn set_ids(draft: &Draft) -> Vec<u64> {
    let id = |row: &Row| u64::from_le_bytes(row[8..].try_into().expect("eight bytes"));
    draft.sections[SETS].iter().map(id).collect()
}

/// Two sets made one.
fn join_sets(draft: &mut Draft, random: &mut Random) {
    let ids = set_ids(draft);
    if !ids.is_empty() {
        let id = random.pick(&ids);
        draft.sections[SETS][random.below(ids.len())][8..].copy_from_slice(&id.to_le_bytes());
    }
}

/// A set row for another entity, player or set; `id` where there is none so far.
fn change_set(draft: &mut Draft, entity: u32, id: u32, random: &mut Random) {
    let ids = set_ids(draft);
    let id = if ids.is_empty() { id.into() } else { random.pick(&ids) };
    let player = random.pick(&[0, 0, 1, 2, u32::MAX]);
    draft.sections[SETS].retain(|row| field(row, 0) != entity || random.one_in(9));
    draft.set(entity, player, id);
}

/// A label of another length, or another byte of text.
fn change_label(draft: &mut Draft, random: &mut Random) {
    if random.one_in(2) {
        if let Some(label) = draft.sections[LABELS].get_mut(random.below(8)) {
            set_field(label, 4, random.pick(&[0, 0, 0, 1, 2, 5, u32::MAX]));
        }
    } else if let Some(byte) = draft.sections[TEXT].get_mut(random.below(20)) {
        byte[0] = random.pick(&[0x1F, 0x20, 0x7E, 0x7F, 0x00, 0xFF, b'x']);
    }
}

/// A row that stands in its section twice.
fn double_row(draft: &mut Draft, section: usize, place: usize, random: &mut Random) {
    let rows = draft.sections[section].len();
    if rows > 0 {
        let copy = draft.sections[section][place].clone();
        draft.sections[section].insert(random.below(rows + 1), copy);
    }
}

/// Drops a row of one of these sections, a terminal's payoffs with it.
fn drop_row(draft: &mut Draft, sections: &[usize], random: &mut Random) {
    let section = random.pick(sections);
    let rows = draft.sections[section].len();
    if rows > 0 {
        let place = random.below(rows);
        if section == TERMINALS {
            draft.set_payoffs(place, &[]);
        }
        draft.sections[section].remove(place);
    }
}

fn odd_bits(draft: &mut Draft, section: usize, at: usize, random: &mut Random) {
    let rows = draft.sections[section].len();
    if rows > 0 {
        let bits = random.pick(&ODD_BITS);
        draft.sections[section][random.below(rows)][at..at + 8].copy_from_slice(&bits.to_le_bytes());
    }
}

/// Damages the bytes of a sheet.
fn damage(bytes: &mut Vec<u8>, random: &mut Random) {
    let section = random.below(10);
    match random.below(8) {
        0 | 1 => flip_bits(bytes, random),
        2 => cut_short(bytes, random),
        3 => add_bytes(bytes, random),
        4 if bytes.len() >= HEADER => shift_pair(bytes, section, random),
        5 if bytes.len() >= HEADER && section < TEXT => shift_boundary(bytes, section, random),
        6 => change_mark(bytes, random),
        7 if bytes.len() >= HEADER => overwrite(bytes, random),
        _ => {}
    }
}

/// Flipped bits, in the header or anywhere.
fn flip_bits(bytes: &mut [u8], random: &mut Random) {
    for _ in 0..random.between(1, 4) {
        let reach = if random.one_in(3) { HEADER } else { bytes.len() };
        let place = random.below(reach.min(bytes.len()).max(1));
        if let Some(byte) = bytes.get_mut(place) {
            *byte ^= 1 << random.below(8);
        }
    }
}

fn cut_short(bytes: &mut Vec<u8>, random: &mut Random) {
    let length = match random.below(3) {
        0 => bytes.len().saturating_sub(random.between(1, 20)),
        1 => random.below(HEADER + 4).min(bytes.len()),
        _ => random.below(bytes.len() + 1),
    };
    bytes.truncate(length);
}

/// Bytes added, sometimes past the longest sheet.
fn add_bytes(bytes: &mut Vec<u8>, random: &mut Random) {
    let more =
        if random.one_in(8) { LONGEST + random.below(3) - bytes.len().min(LONGEST) } else { random.between(1, 40) };
    bytes.resize(bytes.len() + more, 0);
}

/// Where a section's offset stands in the header; its length follows.
fn pair(section: usize) -> usize {
    12 + 8 * section
}

/// An offset or a length moved.
fn shift_pair(bytes: &mut [u8], section: usize, random: &mut Random) {
    let by = random.pick(&[1u32, 4, 8, WIDTHS[section] as u32, 1 << 31]);
    let by = if random.one_in(2) { by } else { by.wrapping_neg() };
    change(bytes, pair(section) + 4 * random.below(2), |number| number.wrapping_add(by));
}

/// The boundary between a section and the next one moved.
fn shift_boundary(bytes: &mut [u8], section: usize, random: &mut Random) {
    let by = random.pick(&[1u32, 4, 8, 12, 16, 20, 24, 40, 60, 120, 240]);
    let by = if random.one_in(2) { by } else { by.wrapping_neg() };
    change(bytes, pair(section) + 4, |length| length.wrapping_add(by));
    change(bytes, pair(section + 1), |offset| offset.wrapping_add(by));
    change(bytes, pair(section + 1) + 4, |length| length.wrapping_sub(by));
}

/// Another byte of the mark, the edition or the zero.
fn change_mark(bytes: &mut [u8], random: &mut Random) {
    let place = random.below(8);
    if let Some(byte) = bytes.get_mut(place) {
        *byte = random.pick(&[0, 1, 2, 0x4B, 0xFF]);
    }
}

/// A u32 overwritten.
fn overwrite(bytes: &mut [u8], random: &mut Random) {
    let place = 8 + 4 * random.below((bytes.len() - 8) / 4);
    let number = random.pick(&[0, 1, 2, 8, 9, 1024, u32::MAX]);
    change(bytes, place, |_| number);
}

fn change(bytes: &mut [u8], place: usize, to: impl FnOnce(u32) -> u32) {
    let number = u32::from_le_bytes(bytes[place..place + 4].try_into().expect("four bytes"));
    bytes[place..place + 4].copy_from_slice(&to(number).to_le_bytes());
}
