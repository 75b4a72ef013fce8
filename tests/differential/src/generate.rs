//! Sheets of many shapes: trees, shared nodes, lines around the depth limits, fans, loops, full sections, sheets as long
//! as can be; with payoffs and probabilities that try the rounding, and labels and sets that try the comparison of texts.

use crate::draft::{field, row, Draft};
use crate::random::Random;
use crate::sheet::*;
use std::collections::{BTreeMap, HashSet};

/// What the payoffs of a sheet look like.
#[derive(Clone, Copy)]
enum Values {
    Whole,
    NearTies,
    Zeros,
    Subnormal,
    Huge,
    AnyBits,
    Mixed,
}

/// What the probabilities of a sheet look like.
#[derive(Clone, Copy)]
enum Odds {
    Halves,
    Shares,
    AnyBits,
    Extreme,
}

/// Which entity an edge has.
#[derive(Clone, Copy)]
enum Edges {
    /// Its own, which is no node: the topology check refuses it.
    Apart,
    /// Its own, which is a decision node beside the tree.
    AsNodes,
    /// That of the node it leads to, where no other edge has it.
    AsTargets,
}

/// How entities or sets are numbered.
#[derive(Clone, Copy)]
enum Numbering {
    Rising,
    Falling,
    AnyNumber,
}

/// The order of a section's rows.
#[derive(Clone, Copy)]
enum Order {
    AsMade,
    Rising,
    Falling,
    Shuffled,
    /// Rising but for two rows.
    Swapped,
}

/// The texts that labels have; a sheet may hold each more than once.
const TEXTS: [&str; 8] = ["open", "wait", "pay", "leave", "high", "low", "~", " counter offer"];

/// A sheet in the making, and what it is to be like.
struct Grower<'a> {
    random: &'a mut Random,
    draft: Draft,
    /// Entities in use.
    used: HashSet<u32>,
    /// Nodes whose edges are complete.
    done: Vec<u32>,
    /// Nodes whose entity some edge has.
    named: HashSet<u32>,
    /// The label numbers of each text in use.
    labels: Vec<Vec<u32>>,
    values: Values,
    odds: Odds,
    edges: Edges,
    numbering: Numbering,
    players: usize,
    payoffs: usize,
    /// One in so many inner nodes is a chance node; 0 for none.
    chances: usize,
    /// One in so many targets is an earlier node; 0 for none.
    shared: usize,
    /// One in so many targets is a node on the way to it; 0 for none.
    loops: usize,
    /// One in so many terminals has another payoff count; 0 for none.
    uneven: usize,
    /// One in so many edges has both an action row and a chance row; 0 for none.
    both: usize,
    /// The i-th edge of every node has the i-th text.
    aligned: bool,
    nodes_left: usize,
}

/// A sheet that opens, unless a section has a row too many or the rows are too long in all; calls on it may be refused by
/// 11 and above.
pub fn fit(random: &mut Random) -> Draft {
    let shape = random.below(16);
    let mut grower = Grower::new(random);
    grower.make_labels();
    let root = match shape {
        0..=6 => grower.tree(0, &mut Vec::new()),
        7..=9 => grower.layers(),
        10..=12 => grower.chain(),
        13 => grower.fan(),
        14 => {
            let root = grower.tree(0, &mut Vec::new());
            match grower.random.below(8) {
                0 => grower.fill_to(LONGEST - 1),
                1 => grower.fill_to(LONGEST),
                _ => grower.fill_a_section(),
            }
            root
        }
        _ => {
            // next to nothing
            let nodes = grower.random.below(2);
            grower.nodes_left = nodes;
            if nodes == 0 && grower.random.one_in(2) {
                grower.draft = Draft::default();
                grower.random.below(3) as u32
            } else {
                grower.tree(0, &mut Vec::new())
            }
        }
    };
    grower.draft.root = root;
    grower.arrange();
    grower.make_sets();
    grower.draft
}

impl<'a> Grower<'a> {
    fn new(random: &'a mut Random) -> Self {
        let players = random.between(1, 4);
        Grower {
            draft: Draft::default(),
            used: HashSet::new(),
            done: Vec::new(),
            named: HashSet::new(),
            labels: Vec::new(),
            values: random.pick(&[
                Values::Whole,
                Values::Whole,
                Values::NearTies,
                Values::Zeros,
                Values::Subnormal,
                Values::Huge,
                Values::AnyBits,
                Values::Mixed,
            ]),
            odds: random.pick(&[Odds::Halves, Odds::Shares, Odds::Shares, Odds::AnyBits, Odds::Extreme]),
            edges: random.pick(&[Edges::Apart, Edges::AsNodes, Edges::AsTargets, Edges::AsTargets]),
            numbering: random.pick(&[Numbering::Rising, Numbering::Rising, Numbering::Falling, Numbering::AnyNumber]),
            players,
            payoffs: if random.one_in(6) { random.between(1, 8) } else { players },
            chances: random.pick(&[0, 0, 2, 3, 6]),
            shared: random.pick(&[0, 0, 3, 6]),
            loops: random.pick(&[0, 0, 0, 0, 0, 0, 20]),
            uneven: random.pick(&[0, 0, 0, 0, 8]),
            both: random.pick(&[0, 1, 1, 2]),
            aligned: !random.one_in(3),
            nodes_left: random.pick(&[3, 6, 10, 20, 40]),
            random,
        }
    }

    /// True once in `rate` on average, and never where that is 0.
    fn now(&mut self, rate: usize) -> bool {
        rate != 0 && self.random.one_in(rate)
    }

    /// Labels for some texts, some of them twice, with unused ones of length 0 and text that no label has between them.
    fn make_labels(&mut self) {
        for text in &TEXTS[..self.random.between(3, TEXTS.len())] {
            let numbers = (0..self.random.pick(&[1, 1, 2, 3]))
                .map(|_| {
                    if self.random.one_in(8) {
                        self.draft.sections[TEXT].push(vec![b'-']);
                    }
                    if self.random.one_in(8) {
                        self.draft.label("");
                    }
                    self.draft.label(text)
                })
                .collect();
            self.labels.push(numbers);
        }
    }

    fn entity(&mut self) -> u32 {
        loop {
            let count = self.used.len() as u32;
            let entity = match self.numbering {
                Numbering::Rising => count,
                Numbering::Falling => u32::MAX - count,
                Numbering::AnyNumber => self.random.next() as u32,
            };
            if self.used.insert(entity) {
                return entity;
            }
        }
    }

    fn terminal(&mut self) -> u32 {
        let entity = self.entity();
        let count = if self.now(self.uneven) { self.random.between(1, 8) } else { self.payoffs };
        let payoffs: Vec<f64> = (0..count).map(|_| value(self.random, self.values)).collect();
        self.draft.terminal(entity, &payoffs);
        self.done.push(entity);
        entity
    }

    /// The row of an inner node: whether it is a chance node.
    fn inner(&mut self, entity: u32) -> bool {
        let is_chance = self.now(self.chances);
        if is_chance {
            self.draft.chance(entity);
        } else {
            let player = self.random.below(self.players) as u32;
            self.draft.decision(entity, player);
        }
        is_chance
    }

    /// Edges from a node to targets, in order.
    fn connect(&mut self, node: u32, is_chance: bool, targets: &[u32]) {
        let probabilities = probabilities(self.random, self.odds, targets.len());
        for (place, (&target, probability)) in targets.iter().zip(probabilities).enumerate() {
            let edge = match self.edges {
                Edges::AsTargets if self.named.insert(target) => target,
                Edges::Apart => self.entity(),
                Edges::AsNodes | Edges::AsTargets => {
                    let edge = self.entity();
                    self.draft.decision(edge, 0);
                    edge
                }
            };
            let text = if self.aligned { place } else { self.random.below(self.labels.len()) };
            let numbers = &self.labels[text % self.labels.len()];
            let label = self.random.pick(numbers);
            let both = self.now(self.both);
            self.draft.edge(edge, node, target);
            if both || !is_chance {
                self.draft.action_row(edge, label, target);
            }
            if both || is_chance {
                self.draft.chance_row(edge, label, target, probability);
            }
        }
        self.done.push(node);
    }

    /// A tree from here down; targets may be nodes that are done, or, where loops are wanted, those above.
    fn tree(&mut self, depth: usize, above: &mut Vec<u32>) -> u32 {
        if depth >= 12 || self.nodes_left == 0 || (depth > 0 && self.random.one_in(4)) {
            return self.terminal();
        }
        self.nodes_left -= 1;
        let node = self.entity();
        let is_chance = self.inner(node);
        above.push(node);
        let mut targets = Vec::new();
        for _ in 0..self.random.pick(&[1, 2, 2, 2, 3, 4]) {
            targets.push(if !self.done.is_empty() && self.now(self.shared) {
                self.random.pick(&self.done)
            } else if self.now(self.loops) {
                self.random.pick(above)
            } else {
                self.tree(depth + 1, above)
            });
        }
        above.pop();
        self.connect(node, is_chance, &targets);
        node
    }

    /// Layers in which each node leads to nodes of the next: a walk that keeps nothing doubles at each.
    fn layers(&mut self) -> u32 {
        let depth = self.random.pick(&[2, 3, 5, 8, 12, 31, 32, 33, 63, 64, 65]);
        let (width, most) = self.random.pick(&[(1, 3), (2, 3), (3, 3), (7, 2)]);
        let mut below: Vec<u32> = (0..width).map(|_| self.terminal()).collect();
        for _ in 1..depth {
            below = (0..width)
                .map(|_| {
                    let node = self.entity();
                    let is_chance = self.inner(node);
                    let edges = self.random.between(1, most);
                    let targets: Vec<u32> = (0..edges).map(|_| self.random.pick(&below)).collect();
                    self.connect(node, is_chance, &targets);
                    node
                })
                .collect();
        }
        below[0]
    }

    /// A line of nodes, some with a terminal beside the next one, or with an edge that skips others: what is below is
    /// then met with more depth left and with less.
    fn chain(&mut self) -> u32 {
        let depth = self.random.pick(&[2, 3, 4, 16, 30, 31, 32, 33, 34, 62, 63, 64, 65, 66]);
        let skips = self.random.pick(&[0, 0, 2, 5, 20]);
        let mut below = vec![self.terminal()];
        for _ in 1..depth {
            let node = self.entity();
            let is_chance = self.inner(node);
            let mut targets = vec![below[below.len() - 1]];
            if self.random.one_in(3) {
                targets.push(self.terminal());
            }
            if self.now(skips) {
                targets.push(self.random.pick(&below));
            }
            self.random.shuffle(&mut targets);
            self.connect(node, is_chance, &targets);
            below.push(node);
        }
        below[below.len() - 1]
    }

    /// One node with many edges. Where they are as many as there can be, they are no nodes and lead to few.
    fn fan(&mut self) -> u32 {
        let edges = self.random.pick(&[9, 64, 65, 200, 500, LIMITS[CHILDREN]]);
        let is_full = edges == LIMITS[CHILDREN];
        if is_full {
            self.edges = Edges::Apart;
        }
        let targets: Vec<u32> = if self.random.one_in(2) && !is_full {
            (0..edges).map(|_| self.terminal()).collect()
        } else {
            let few: Vec<u32> = (0..4).map(|_| self.terminal()).collect();
            (0..edges).map(|_| self.random.pick(&few)).collect()
        };
        let node = self.entity();
        let is_chance = self.inner(node);
        self.connect(node, is_chance, &targets);
        node
    }

    /// Fills one section with fit rows to its limit, or to one row below or above it.
    fn fill_a_section(&mut self) {
        let section = self.random.below(10);
        let rows = self.random.between(LIMITS[section] - 1, LIMITS[section] + 1);
        while self.draft.sections[section].len() < rows {
            self.add_row(section, rows - self.draft.sections[section].len());
        }
    }

    /// Fills the sheet to so many bytes: with fit rows, many of them of one section, until text can fill what is left.
    fn fill_to(&mut self, size: usize) {
        let sections = [NODES, CHILDREN, ACTIONS, CHANCES, TRANSITIONS, TERMINALS, PAYOFFS, SETS];
        let often = self.random.pick(&sections);
        // where there is a set row, none comes later
        self.add_row(SETS, 1);
        while self.draft.size() + LIMITS[TEXT] < size + self.draft.sections[TEXT].len() {
            let section = if self.random.one_in(2) { often } else { self.random.pick(&sections) };
            if self.has_room(section) {
                self.add_row(section, 8);
            }
        }
        self.draft.sections[TEXT].resize(self.draft.sections[TEXT].len() + size - self.draft.size(), vec![b'x']);
    }

    /// Whether a row more leaves the section, and what comes with the row, within their limits.
    fn has_room(&self, section: usize) -> bool {
        let fits = |section: usize, more: usize| self.draft.sections[section].len() + more <= LIMITS[section];
        match section {
            TERMINALS | PAYOFFS => fits(TERMINALS, 1) && fits(PAYOFFS, 8),
            _ => fits(section, 1),
        }
    }

    /// Adds a fit row to a section; payoffs, which come with a terminal row, are at most 8 and at most `left`.
    fn add_row(&mut self, section: usize, left: usize) {
        let label = self.labels[0][0];
        let entity = self.entity();
        let known = self.random.pick(&self.done);
        match section {
            NODES => {
                self.inner(entity);
            }
            CHILDREN | TRANSITIONS => self.draft.sections[section].push(row([entity, known])),
            ACTIONS => self.draft.action_row(entity, label, known),
            CHANCES => self.draft.chance_row(entity, label, known, 0.5),
            TERMINALS => self.draft.payoffs(entity, &[1.0]),
            PAYOFFS => self.draft.payoffs(entity, &vec![1.0; left.min(8)]),
            SETS => {
                if self.draft.sections[NODES].len() < LIMITS[NODES] {
                    self.draft.decision(entity, 0);
                }
                let id = self.random.below(300) as u64;
                self.draft.set(entity, 0, id);
            }
            LABELS => {
                let text = self.random.pick(&["", "", "a"]);
                self.draft.label(text);
            }
            _ => self.draft.sections[TEXT].push(vec![b'x']),
        }
    }

    /// Puts each section's rows into some order.
    fn arrange(&mut self) {
        let orders = [Order::AsMade, Order::Rising, Order::Falling, Order::Shuffled, Order::Swapped];
        let overall = self.random.pick(&orders);
        for section in [NODES, CHILDREN, ACTIONS, CHANCES, TRANSITIONS, TERMINALS] {
            let order = if self.random.one_in(6) { self.random.pick(&orders) } else { overall };
            let random = &mut *self.random;
            self.draft.arrange(section, |rows| match order {
                Order::AsMade => {}
                Order::Rising => rows.sort_by_key(|(row, _)| field(row, 0)),
                Order::Falling => rows.sort_by_key(|(row, _)| !field(row, 0)),
                Order::Shuffled => random.shuffle(rows),
                Order::Swapped => {
                    rows.sort_by_key(|(row, _)| field(row, 0));
                    if !rows.is_empty() {
                        rows.swap(random.below(rows.len()), random.below(rows.len()));
                    }
                }
            });
        }
    }

    /// Sets of decisions with one player and the same texts in the same order, their ids rising by row, falling or any.
    fn make_sets(&mut self) {
        if !self.draft.sections[SETS].is_empty() {
            return;
        }
        let numbering = self.random.pick(&[Numbering::Rising, Numbering::Falling, Numbering::AnyNumber]);
        let mut ids: BTreeMap<(u32, Vec<usize>), u64> = BTreeMap::new();
        let mut rows = Vec::new();
        for node in self.draft.sections[NODES].iter().take(60) {
            let (entity, kind, player) = (field(node, 0), field(node, 4), field(node, 8));
            if kind != 0 || self.random.one_in(4) {
                continue;
            }
            let id = match numbering {
                Numbering::Rising => ids.len() as u64,
                Numbering::Falling => 100 - ids.len() as u64,
                Numbering::AnyNumber => self.random.next(),
            };
            let id = *ids.entry((player, self.texts(entity))).or_insert(id);
            rows.push((entity, player, id));
        }
        if self.random.one_in(2) {
            self.random.shuffle(&mut rows);
        }
        for (entity, player, id) in rows {
            self.draft.set(entity, player, id);
        }
    }

    /// The texts, by their place in `labels`, of the actions out of a node.
    fn texts(&self, node: u32) -> Vec<usize> {
        let actions = &self.draft.sections[ACTIONS];
        self.draft.sections[CHILDREN]
            .iter()
            .filter(|child| field(child, 4) == node)
            .filter_map(|child| actions.iter().find(|action| field(action, 0) == field(child, 0)))
            .filter_map(|action| self.labels.iter().position(|text| text.contains(&field(action, 4))))
            .collect()
    }
}

/// A payoff.
fn value(random: &mut Random, values: Values) -> f64 {
    match values {
        Values::Whole => random.between(0, 8) as f64 - 4.0,
        Values::NearTies => {
            let near = random.pick(&[1.0f64, 0.1, -0.3, 3.0e10]);
            f64::from_bits(near.to_bits() + random.below(3) as u64)
        }
        Values::Zeros => random.pick(&[0.0, -0.0, 0.0, -0.0, 1.0, -1.0, 5e-324, -5e-324]),
        Values::Subnormal => {
            let bits = match random.below(3) {
                0 => random.below(9) as u64,
                1 => random.next() >> 12,
                _ => (1u64 << 52) - 4 + random.below(8) as u64,
            };
            f64::from_bits(bits | random.next() << 63)
        }
        Values::Huge => random.pick(&[f64::MAX, -f64::MAX, f64::MAX / 2.0, -f64::MAX / 2.0, 1e308, -1e308, 1.0]),
        Values::AnyBits => {
            let bits = random.next();
            let value = f64::from_bits(bits);
            // without its lowest exponent bit the number is finite
            if value.is_finite() {
                value
            } else {
                f64::from_bits(bits & !(1 << 52))
            }
        }
        Values::Mixed => {
            let all =
                [Values::Whole, Values::NearTies, Values::Zeros, Values::Subnormal, Values::Huge, Values::AnyBits];
            let one = random.pick(&all);
            value(random, one)
        }
    }
}

/// Probabilities for so many outcomes of a chance point; their sum need not be 1.
fn probabilities(random: &mut Random, odds: Odds, count: usize) -> Vec<f64> {
    let share = |random: &mut Random| random.between(1, 65_536) as f64;
    match odds {
        Odds::Halves => (0..count).map(|_| random.pick(&[0.5, 0.25, 0.75, 1.0])).collect(),
        Odds::Shares => {
            let shares: Vec<f64> = (0..count).map(|_| share(random)).collect();
            let sum: f64 = shares.iter().sum();
            shares.iter().map(|share| share / sum).collect()
        }
        // the patterns from 1 to that of 1.0 are the numbers above 0 and at most 1
        Odds::AnyBits => (0..count).map(|_| f64::from_bits(1 + random.next() % 1.0f64.to_bits())).collect(),
        Odds::Extreme => (0..count)
            .map(|_| random.pick(&[5e-324, f64::MIN_POSITIVE, 1.0 - f64::EPSILON / 2.0, 1.0, 1.0, f64::EPSILON]))
            .collect(),
    }
}
