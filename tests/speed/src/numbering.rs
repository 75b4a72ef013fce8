//! Other numbers for a sheet's entities: natural ones that do not go up by one, and an adversary's.

use crate::draft::{field, set_field, Draft};
use crate::random::Random;
use crate::sheet::*;
use std::sync::LazyLock;

/// The sections whose rows name entities, and at which bytes of a row.
const NAMED: [(usize, &[usize]); 7] = [
    (NODES, &[0]),
    (CHILDREN, &[0, 4]),
    (ACTIONS, &[0, 8]),
    (CHANCES, &[0, 8]),
    (TRANSITIONS, &[0, 4]),
    (TERMINALS, &[0]),
    (SETS, &[0]),
];

/// Numberings that a caller may well have.
pub const NATURAL: [(&str, fn(u32) -> u32); 7] = [
    ("entities times 10", |entity| entity * 10),
    ("entities times 64", |entity| entity * 64),
    ("entities times 128", |entity| entity * 128),
    ("entities times 1,000", |entity| entity * 1_000),
    ("entities times 65,536", times_65_536),
    ("entities times 1,048,576", |entity| entity * 1_048_576),
    ("entities scattered", scattered),
];

/// Steps between entities: the powers of two up to 2^24, and others.
pub fn steps() -> Vec<u32> {
    let others = [3, 5, 7, 10, 12, 25, 33, 50, 100, 500, 999, 1_000, 1_023, 1_025, 10_000, 100_000, 1_000_000];
    (1..=24).map(|power| 1 << power).chain(others).collect()
}

pub fn times_65_536(entity: u32) -> u32 {
    entity * 65_536
}

/// A permutation of the u32s: a product with an odd number can be undone, and so can folding the upper half into the
/// lower.
fn scattered(entity: u32) -> u32 {
    let mut random = Random::new(1, 0);
    let mut number = entity;
    for _ in 0..4 {
        number = number.wrapping_mul(random.below(1 << 32) as u32 | 1);
        number ^= number >> 16;
    }
    number
}

/// The same rows with other entities.
pub fn renumbered(mut draft: Draft, number: impl Fn(u32) -> u32) -> Draft {
    for (section, fields) in NAMED {
        for row in &mut draft.sections[section] {
            for &at in fields {
                let entity = field(row, at);
                set_field(row, at, number(entity));
            }
        }
    }
    draft.root = number(draft.root);
    draft
}

/// Every entity that a sheet names, rising.
fn entities(draft: &Draft) -> Vec<u32> {
    let mut entities = vec![draft.root];
    for (section, fields) in NAMED {
        let rows = draft.sections[section].iter();
        entities.extend(rows.flat_map(|row| fields.iter().map(|&at| field(row, at))));
    }
    entities.sort_unstable();
    entities.dedup();
    entities
}

/// The library's tables of hints.
#[derive(Clone, Copy)]
enum Table {
    Short,
    Long,
}

const FACTOR: u32 = 3_294_197_973;

/// The number that comes after another one.
fn mixed(number: u32) -> u32 {
    number.wrapping_mul(FACTOR)
}

/// The number that comes before.
fn unmixed(number: u32) -> u32 {
    // each round doubles how many of the lowest digits of the product with the factor are those of 1
    let inverse =
        (0..5).fold(FACTOR, |inverse, _| inverse.wrapping_mul(2u32.wrapping_sub(FACTOR.wrapping_mul(inverse))));
    number.wrapping_mul(inverse)
}

impl Table {
    /// How many binary digits tell a place in the longest such table: others take it modulo a lower power of two.
    fn digits(self) -> u32 {
        match self {
            Table::Short => 7,
            Table::Long => 11,
        }
    }

    /// An entity's first place.
    fn first(self, entity: u32) -> u64 {
        let number = u64::from(entity);
        match self {
            Table::Short => u64::from(self.place(mixed(entity))),
            Table::Long => (number + number / 1_024 + number / 32_768) % 2_048,
        }
    }

    /// The place by a number.
    fn place(self, number: u32) -> u32 {
        number >> (32 - self.digits())
    }

    /// Entities with first place 0 and few second and third places, those with the lowest fourth places first: as many
    /// as there are in a short table, and more than a sheet may have in a long one.
    fn crowd(self) -> Vec<u32> {
        let few: u32 = match self {
            Table::Short => 1,
            Table::Long => 80,
        };
        // the second place is by the number after the number after the entity, and so on
        let second = (0..few << (32 - self.digits())).filter(|&number| self.place(mixed(number)) < few);
        let entities = second.map(|number| unmixed(unmixed(number)));
        let mut crowd: Vec<u32> = entities.filter(|&entity| self.first(entity) == 0).collect();
        crowd.sort_unstable_by_key(|&entity| mixed(mixed(mixed(mixed(entity)))));
        crowd
    }
}

static SHORT: LazyLock<Vec<u32>> = LazyLock::new(|| Table::Short.crowd());
static LONG: LazyLock<Vec<u32>> = LazyLock::new(|| Table::Long.crowd());

/// How many rows there may be for a short table: of nodes and child rows to solve, and of a section to open.
const SOLVED: usize = 32;
const OPENED: usize = 64;

fn is_within(draft: &Draft, most: usize) -> bool {
    draft.sections[NODES].len().max(draft.sections[CHILDREN].len()) <= most
}

/// Whether a sheet is solved with a short table.
pub fn is_short(draft: &Draft) -> bool {
    is_within(draft, SOLVED)
}

/// The same rows with entities that share their places when the sheet is solved: an adversary's numbering.
pub fn crowded(draft: Draft) -> Draft {
    let short = is_short(&draft);
    renumbered_from(draft, if short { &SHORT } else { &LONG })
}

/// The same for opening, of a sheet with alike many rows in every section.
pub fn crowded_to_open(draft: Draft) -> Draft {
    let short = is_within(&draft, OPENED);
    renumbered_from(draft, if short { &SHORT } else { &LONG })
}

/// The same rows with the first entities of a crowd, in the order that their own had.
fn renumbered_from(draft: Draft, crowd: &[u32]) -> Draft {
    let before = entities(&draft);
    assert!(before.len() <= crowd.len(), "enough entities share their places");
    let mut chosen = crowd[..before.len()].to_vec();
    chosen.sort_unstable();
    let place = |entity: u32| before.binary_search(&entity).expect("an entity of the sheet");
    let crowded = renumbered(draft, |entity| chosen[place(entity)]);
    assert_eq!(before.len(), entities(&crowded).len(), "entities that differ still do");
    crowded
}
