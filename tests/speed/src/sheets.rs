//! The shapes of the sheets that are timed.

use crate::draft::{field, row, set_field, Draft};
use crate::random::Random;
use crate::sheet::*;

/// Entities of edges lie from here on, those of nodes below.
const EDGES: u32 = 10_000;

/// Which inner nodes are chance nodes.
#[derive(Clone, Copy, PartialEq)]
pub enum Kinds {
    Decisions,
    /// Those of every second level.
    InTurn,
    Chances,
}

/// The order of the rows of every section that is keyed by entities.
#[derive(Clone, Copy, PartialEq)]
pub enum Order {
    Rising,
    Falling,
    Shuffled,
}

pub const ORDERS: [(Order, &str); 3] =
    [(Order::Rising, "rising"), (Order::Falling, "falling"), (Order::Shuffled, "shuffled")];

/// A sheet in the making: root 1, two labels, edges numbered as they come.
pub struct Maker {
    pub draft: Draft,
    next_edge: u32,
    /// Each terminal's payoffs.
    pub payoffs: usize,
}

impl Maker {
    pub fn new() -> Maker {
        let mut draft = Draft { root: 1, ..Draft::default() };
        draft.label("accept");
        draft.label("decline");
        Maker { draft, next_edge: EDGES, payoffs: 2 }
    }

    /// An inner node of this level, counted from 0, and its edges.
    pub fn inner(&mut self, entity: u32, level: u32, kinds: Kinds, targets: &[u32]) {
        let is_chance = kinds == Kinds::Chances || (kinds == Kinds::InTurn && level % 2 == 1);
        if is_chance {
            self.draft.chance(entity);
        } else {
            self.draft.decision(entity, entity % 2);
        }
        for &target in targets {
            let edge = self.edge();
            let label = edge % 2;
            if is_chance {
                self.draft.outcome(edge, entity, label, target, 1.0 / targets.len() as f64);
            } else {
                self.draft.action(edge, entity, label, target);
            }
        }
    }

    /// A terminal whose payoffs are unlike its neighbours'.
    pub fn terminal(&mut self, entity: u32) {
        let mixed = entity.wrapping_mul(2_654_435_761);
        let payoffs: Vec<f64> = (0..self.payoffs).map(|player| f64::from(mixed >> (20 - 2 * player)) / 8.0).collect();
        self.draft.terminal(entity, &payoffs);
    }

    /// The entity of the next edge.
    pub fn edge(&mut self) -> u32 {
        self.next_edge += 1;
        self.next_edge - 1
    }

    /// A child row whose entity has no other row, so that looking it up as an edge misses.
    pub fn stray_child(&mut self, parent: u32) {
        let entity = self.edge();
        self.draft.sections[CHILDREN].push(row([entity, parent]));
    }

    /// A full tree, level by level, with entities from `first` on.
    pub fn tree(&mut self, first: u32, levels: u32, branches: u32, kinds: Kinds) {
        let (mut start, mut width) = (first, 1);
        for level in 0..levels {
            let next = start + width;
            for place in 0..width {
                let child = next + place * branches;
                if level + 1 == levels {
                    self.terminal(start + place);
                } else {
                    let targets: Vec<u32> = (child..child + branches).collect();
                    self.inner(start + place, level, kinds, &targets);
                }
            }
            (start, width) = (next, width * branches);
        }
    }

    /// Levels of one inner node with so many edges to the next, from 1 on, and a terminal below.
    pub fn chain(&mut self, levels: u32, edges: usize, kinds: Kinds) {
        for level in 0..levels {
            self.inner(1 + level, level, kinds, &vec![2 + level; edges]);
        }
        self.terminal(1 + levels);
    }

    /// Levels of so many inner nodes, with entities from `first` on; each has so many edges to nodes of the next.
    pub fn layers(&mut self, first: u32, levels: u32, width: u32, edges: u32, kinds: Kinds) {
        for level in 0..levels {
            for place in 0..width {
                let target = |edge| first + (level + 1) * width + (place + edge * 7) % width;
                let targets: Vec<u32> = (0..edges).map(target).collect();
                self.inner(first + level * width + place, level, kinds, &targets);
            }
        }
        for place in 0..width {
            self.terminal(first + levels * width + place);
        }
    }

    /// Layers as above from 2 on, and the root above all nodes of the first.
    pub fn layers_below_root(&mut self, levels: u32, width: u32, edges: u32, kinds: Kinds) {
        let targets: Vec<u32> = (2..2 + width).collect();
        self.inner(1, 0, kinds, &targets);
        self.layers(2, levels, width, edges, kinds);
    }
}

/// A sheet's rows, made by some of the above.
pub fn made(make: impl FnOnce(&mut Maker)) -> Draft {
    let mut maker = Maker::new();
    make(&mut maker);
    maker.draft
}

pub fn full_tree(levels: u32, branches: u32, kinds: Kinds) -> Draft {
    made(|maker| maker.tree(1, levels, branches, kinds))
}

/// Two edges from each level to one next node.
pub fn chain(levels: u32, kinds: Kinds) -> Draft {
    made(|maker| maker.chain(levels, 2, kinds))
}

/// The same rows with those of every keyed section in this order.
pub fn arranged(mut draft: Draft, order: Order) -> Draft {
    let mut random = Random::new(1, 0);
    for section in [NODES, CHILDREN, ACTIONS, CHANCES, TRANSITIONS, TERMINALS, SETS] {
        draft.arrange(section, |rows| {
            rows.sort_by_key(|(row, _)| field(row, 0));
            match order {
                Order::Rising => {}
                Order::Falling => rows.reverse(),
                Order::Shuffled => random.shuffle(rows),
            }
        });
    }
    draft
}

/// The first node of the subtree that a spine leads into.
pub const SUBTREE: u32 = 1_000;

/// A spine of 50 decisions, each with an edge into one subtree of 255 nodes and then one to the next.
pub fn spine() -> Draft {
    made(|maker| {
        for level in 1..=50 {
            let next = if level == 50 { SUBTREE } else { level + 1 };
            maker.inner(level, 0, Kinds::Decisions, &[SUBTREE, next]);
        }
        maker.tree(SUBTREE, 8, 2, Kinds::InTurn);
    })
}

/// Ten decisions in a circle with two edges each to the next.
pub fn circle() -> Draft {
    made(|maker| (1..=10).for_each(|node| maker.inner(node, 0, Kinds::Decisions, &[node % 10 + 1; 2])))
}

/// A chain of 40 levels, 2 to the 40 paths, and behind them an edge from the root to what is no node.
pub fn fault_behind_paths() -> Draft {
    made(|maker| {
        maker.chain(40, 2, Kinds::Decisions);
        let edge = maker.edge();
        maker.draft.action(edge, 1, 0, 9_999);
    })
}

/// Alike many rows in every keyed section.
pub fn keyed_rows(bytes: usize) -> Draft {
    let mut draft = made(|_| ());
    let rows = (bytes - draft.encode().len()) / 92;
    for number in 0..rows as u32 {
        let entity = 1 + 3 * number;
        draft.terminal(entity, &[f64::from(number)]);
        draft.action(entity, entity, 0, entity);
        draft.chance_row(entity, 1, entity, 0.5);
        draft.set(entity, 0, u64::from(number));
    }
    draft
}

/// The same rows, of which the last that is read is refused, so that every call ends with the opening.
pub fn refused_last(mut draft: Draft) -> Draft {
    set_field(draft.sections[SETS].last_mut().expect("a set"), 4, u32::MAX);
    draft
}

/// 65,536 bytes: these rows, and text that no label has.
fn longest(mut draft: Draft) -> Draft {
    let rest = LONGEST - draft.encode().len();
    draft.sections[TEXT].extend(vec![vec![b'x']; rest]);
    draft
}

/// 65,536 bytes: 1,000 replies with a terminal each.
pub fn longest_replies() -> Draft {
    longest(full_tree(2, 1_000, Kinds::Decisions))
}

/// 65,536 bytes, of which the solve meets few: 1,024 nodes and child rows, 90 edges.
pub fn mostly_unmet() -> Draft {
    longest(made(|maker| {
        maker.payoffs = 4;
        let targets: Vec<u32> = (935..=1_024).rev().collect();
        maker.inner(1, 0, Kinds::Decisions, &targets);
        (2..=1_024).for_each(|entity| maker.terminal(entity));
        (90..1_024).for_each(|_| maker.stray_child(1));
    }))
}
