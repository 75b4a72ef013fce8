//! Sheets that are built to be slow, and a search for slower ones.

use crate::answer::Call;
use crate::draft::{row, set_field, Draft};
use crate::numbering::crowded;
use crate::random::Random;
use crate::sheet::*;
use crate::sheets::*;

/// A lent buffer that is long enough for every listing of sets.
pub const AMPLE: usize = 20_000;

/// How many calls are made on a sheet.
pub const CALLS: usize = 6;

/// Each call from a sheet's root with no room, so that no listing is written, and the sets with room.
pub fn calls(start: u32) -> [Call; CALLS] {
    [
        Call::Solve { start, limit: 64 },
        Call::SolvePlain { start, limit: 64 },
        Call::Paths { start, limit: 64, room: 0 },
        Call::Sets { room: 0 },
        Call::Sets { room: AMPLE },
        Call::Topology,
    ]
}

/// The sheets by name, each with its rows in three orders, and in no order in an adversary's numbering.
pub fn list() -> Vec<(String, Vec<u8>)> {
    let mut sheets = Vec::new();
    for (name, draft) in solved().into_iter().chain(with_sets()).chain(walked_by_children()) {
        let crowded = crowded(arranged(draft.clone(), Order::Shuffled));
        let orders = ORDERS.map(|(order, said)| (arranged(draft.clone(), order), said));
        for (draft, said) in orders.into_iter().chain([(crowded, "shuffled, an adversary's numbering")]) {
            let bytes = draft.encode();
            assert!(bytes.len() <= LONGEST, "{name} fits a sheet");
            sheets.push((format!("{name}, {said}"), bytes));
        }
    }
    sheets
}

fn named(name: &str, make: impl FnOnce(&mut Maker)) -> (String, Draft) {
    (name.to_owned(), made(make))
}

/// Sheets for the solves and the paths: many nodes, many edges, lookups that miss, faults found last.
fn solved() -> Vec<(String, Draft)> {
    use Kinds::*;
    let mut sheets = vec![
        named("binary tree of 10 levels", |maker| maker.tree(1, 10, 2, Decisions)),
        named("binary tree of 10 levels, chance in turn", |maker| maker.tree(1, 10, 2, InTurn)),
        named("1,000 replies with a terminal each", |maker| maker.tree(1, 2, 1_000, Decisions)),
        named("1,024 replies to one terminal", |maker| maker.chain(1, 1_024, Decisions)),
        named("1,024 outcomes to one terminal", |maker| maker.chain(1, 1_024, Chances)),
        named("31 nodes of 31 replies each", |maker| maker.tree(1, 3, 31, Decisions)),
        named("63 levels of 16 edges", |maker| maker.chain(63, 16, Decisions)),
        named("63 levels of 16 edges, chance in turn", |maker| maker.chain(63, 16, InTurn)),
        named("63 levels of 8 nodes of 2 edges", |maker| maker.layers(1, 63, 8, 2, Decisions)),
        named("16 lines of 62 decisions", |maker| maker.layers_below_root(62, 16, 1, Decisions)),
        named("16 lines of 62 chance nodes", |maker| maker.layers_below_root(62, 16, 1, Chances)),
        named("binary tree of 9 levels and 514 child rows that are no edge", |maker| {
            maker.tree(1, 9, 2, Decisions);
            (0..514).for_each(|number| maker.stray_child(1 + number % 255));
        }),
        named("binary tree of 9 levels, and 514 child rows that are no edge at the last node", |maker| {
            maker.tree(1, 9, 2, InTurn);
            (0..514).for_each(|_| maker.stray_child(255));
        }),
    ];
    let mut last_fails = full_tree(10, 2, Decisions);
    set_field(last_fails.sections[NODES].last_mut().expect("a node"), 4, 0);
    sheets.push(("binary tree of 10 levels, no answer at the last node".to_owned(), last_fails));
    let mut tiny = made(|maker| {
        maker.payoffs = 8;
        maker.layers(1, 63, 8, 2, Chances);
    });
    for terminal in 0..8 {
        tiny.set_payoffs(terminal, &[f64::from_bits(0x000F_0123_4567_89AB); 8]);
    }
    sheets.push(("63 levels of 8 chance nodes, 8 subnormal payoffs".to_owned(), tiny));
    sheets.push(("a spine of 50 into a subtree of 255 nodes".to_owned(), spine()));
    sheets
}

/// Sheets for the sets: one set or many, few edges or many, equal texts under different numbers.
fn with_sets() -> Vec<(String, Draft)> {
    let shapes = [
        (1_023, 1, 1),
        (1_023, 1, 1_023),
        (1_023, 0, 1),
        (1_023, 0, 1_023),
        (512, 2, 1),
        (512, 2, 256),
        (341, 3, 31),
        (32, 32, 1),
        (32, 32, 32),
        (4, 256, 2),
        (2, 512, 1),
    ];
    let texts = [(2, 2_000, "2 equal texts of 2,000 bytes"), (250, 16, "250 equal texts of 16 bytes")];
    let mut sheets = Vec::new();
    for (members, edges, sets) in shapes {
        for (labels, length, said) in texts {
            let name = format!("{members} nodes in {sets} sets, edges of a node: {edges}, {said}");
            sheets.push((name, sets_of(members, edges, sets, labels, length)));
        }
    }
    let mut last_differs = sets_of(1_023, 1, 1, 2, 2_000);
    set_field(last_differs.sections[ACTIONS].last_mut().expect("an action"), 4, 0);
    sheets.push(("1023 nodes in 1 set, edges of a node: 1, the last label differs".to_owned(), last_differs));
    sheets
}

/// Decisions with so many edges each, dealt to sets whose ids fall; labels of one text take turns.
pub fn sets_of(members: u32, edges: u32, sets: u32, labels: u32, length: usize) -> Draft {
    made(|maker| {
        let text = "x".repeat(length);
        let first = maker.draft.label(&text);
        for _ in 1..labels {
            maker.draft.label(&text);
        }
        let terminal = members + 1;
        for node in 1..=members {
            maker.draft.decision(node, 0);
            maker.draft.set(node, 0, 5_000 - u64::from(node % sets));
            for _ in 0..edges {
                let edge = maker.edge();
                maker.draft.action(edge, node, first + edge % labels, terminal);
            }
        }
        maker.terminal(terminal);
    })
}

/// Sheets for the topology check, which walks child rows: here an edge's entity is the node below it. A child has one
/// row and so one parent: no node is met twice but where rows go in a circle.
fn walked_by_children() -> Vec<(String, Draft)> {
    let parents: [(&str, fn(u32) -> u32); 3] = [
        ("a chain of 1,024", |node| node - 1),
        ("1,023 children of one node", |_| 1),
        ("1,024 nodes by twos", |node| node / 2),
    ];
    let mut sheets = Vec::new();
    for (name, parent) in parents {
        for is_chance in [false, true] {
            let draft = made(|maker| walked(maker, parent, is_chance));
            sheets.push((format!("{name}{}", if is_chance { ", chance nodes" } else { "" }), draft));
        }
    }
    sheets.push(named("a chain of 1,024 and back", |maker| {
        walked(maker, |node| node - 1, true);
        maker.draft.sections[CHILDREN].push(row([1, 1_024]));
    }));
    sheets
}

/// The longest walk of the topology check.
pub fn longest_walk() -> Draft {
    made(|maker| walked(maker, |node| node - 1, true))
}

/// 1,024 nodes below their parents; those that have a child may be chance nodes.
fn walked(maker: &mut Maker, parent: fn(u32) -> u32, is_chance: bool) {
    for node in 1..=1_024 {
        let has_child = (2..=1_024).any(|child| parent(child) == node);
        if is_chance && has_child {
            maker.draft.chance(node);
        } else {
            maker.draft.decision(node, 0);
        }
        if node > 1 {
            maker.draft.sections[CHILDREN].push(row([node, parent(node)]));
            maker.draft.action_row(node, 0, node);
            maker.draft.chance_row(node, 1, node, 0.5);
        }
    }
}

/// A sheet of any shape that is near the format's limits.
pub fn any(random: &mut Random) -> Draft {
    let levels = random.pick(&[1, 1, 2, 2, 3, 5, 8, 16, 31, 62]);
    let width = random.between(1, 1_000 / (levels + 1));
    let edges = random.between(1, (1_024 - width) / (levels * width));
    let kinds = random.pick(&[Kinds::Decisions, Kinds::Decisions, Kinds::InTurn, Kinds::Chances]);
    let mut draft = made(|maker| {
        maker.payoffs = if width > 100 { 2 } else { random.between(2, 8) };
        maker.layers_below_root(levels as u32, width as u32, edges as u32, kinds);
        let rest = 1_024 - maker.draft.sections[CHILDREN].len();
        for _ in 0..random.below(rest + 1) {
            maker.stray_child(1 + random.below(levels * width) as u32);
        }
    });
    let sets = random.pick(&[1, 2, 30, 1_024]);
    for node in (2..2 + (levels * width) as u32).filter(|_| kinds == Kinds::Decisions) {
        draft.set(node, node % 2, 2 * random.below(sets) as u64 + u64::from(node % 2));
    }
    let mut draft = arranged(draft, random.pick(&ORDERS).0);
    let excess = draft.encode().len().saturating_sub(LONGEST).div_ceil(WIDTHS[SETS]);
    let kept = draft.sections[SETS].len() - excess;
    draft.sections[SETS].truncate(kept);
    draft
}
