//! Every call's answer on a sheet, said directly from the rules of docs/ and without a look at the Rust.
//!
//! A walk keeps what it found at a node with so much depth left, which changes no answer: those two decide it. It also
//! counts the visits of a walk that keeps nothing, so that the Rust is not asked where it would not end.

use crate::answer::{refusal, Answer, Call, Refusal};
use crate::sheet::*;
use std::collections::{HashMap, HashSet};
use std::rc::Rc;

/// Rows in order, found by entity.
struct Table<T> {
    rows: Vec<(u32, T)>,
    places: HashMap<u32, usize>,
}

impl<T> Default for Table<T> {
    fn default() -> Self {
        Table { rows: Vec::new(), places: HashMap::new() }
    }
}

impl<T> Table<T> {
    fn push(&mut self, entity: u32, row: T) {
        self.places.insert(entity, self.rows.len());
        self.rows.push((entity, row));
    }

    fn get(&self, entity: u32) -> Option<&T> {
        self.places.get(&entity).map(|&place| &self.rows[place].1)
    }
}

#[derive(Clone, Copy)]
enum Kind {
    Decision { player: u32 },
    Chance,
    Terminal,
}

/// What an action or chance row says of its edge; an action's probability is not looked at.
#[derive(Clone, Copy)]
struct Edge {
    label: u32,
    target: u32,
    probability: f64,
}

struct SetRow {
    player: u32,
    id: u64,
}

/// The game that a fit sheet means.
#[derive(Default)]
pub struct Game {
    root: u32,
    nodes: Table<Kind>,
    children: HashMap<u32, Vec<u32>>,
    actions: Table<Edge>,
    chances: Table<Edge>,
    transitions: Table<u32>,
    terminals: Table<Vec<f64>>,
    sets: Table<SetRow>,
    labels: Vec<String>,
}

/// A call's answer, and the visits that a walk without memory makes for it, as far as they can be counted.
pub struct Walked {
    pub answer: Answer,
    pub visits: u64,
}

/// The depth that a limit allows, or 27.
pub fn depth(limit: u64) -> Result<u64, Refusal> {
    match limit {
        0 => Ok(32),
        1..=64 => Ok(limit),
        _ => Err(refusal(27, [limit])),
    }
}

/// A row's player, or 6.
fn checked_player(player: u32) -> Result<u32, Refusal> {
    match player {
        u32::MAX => Err(refusal(6, [player.into()])),
        _ => Ok(player),
    }
}

/// The probability with these bits, or 8; a NaN is not above 0.
fn checked_probability(bits: u64) -> Result<f64, Refusal> {
    let probability = f64::from_bits(bits);
    if probability > 0.0 && probability <= 1.0 {
        Ok(probability)
    } else {
        Err(refusal(8, [bits]))
    }
}

/// The payoff with these bits, or 10.
fn checked_payoff(bits: u64) -> Result<f64, Refusal> {
    let payoff = f64::from_bits(bits);
    if payoff.is_finite() {
        Ok(payoff)
    } else {
        Err(refusal(10, []))
    }
}

impl Game {
    /// The game of a sheet, or its first fault.
    pub fn open(bytes: &[u8]) -> Result<Game, Refusal> {
        let sheet = Sheet::lay_out(bytes)?;
        let mut game = Game { root: sheet.root(), ..Game::default() };
        let mut payoffs = Vec::new();
        sheet.check_rows(|section, row| game.read_row(&sheet, section, row, &mut payoffs))?;
        game.labels = (0..sheet.rows(LABELS)).map(|number| sheet.label(number as u32).to_owned()).collect();
        let mut payoffs = payoffs.into_iter();
        for row in 0..sheet.rows(TERMINALS) {
            let count = sheet.u32(TERMINALS, row, 4) as usize;
            let entity = sheet.u32(TERMINALS, row, 0);
            game.terminals.push(entity, payoffs.by_ref().take(count).collect());
        }
        Ok(game)
    }

    /// Takes a row in that has no fault of 5, or refuses it by 6 to 10.
    fn read_row(&mut self, sheet: &Sheet, section: usize, row: usize, payoffs: &mut Vec<f64>) -> Result<(), Refusal> {
        let field = |at| sheet.u32(section, row, at);
        match section {
            NODES => {
                let kind = match field(4) {
                    0 => Kind::Decision { player: checked_player(field(8))? },
                    1 => Kind::Chance,
                    _ => Kind::Terminal,
                };
                self.nodes.push(field(0), kind);
            }
            CHILDREN => self.children.entry(field(4)).or_default().push(field(0)),
            ACTIONS | CHANCES if sheet.label(field(4)).is_empty() => return Err(refusal(7, [])),
            ACTIONS => self.actions.push(field(0), Edge { label: field(4), target: field(8), probability: 0.0 }),
            CHANCES => {
                let probability = checked_probability(sheet.u64(CHANCES, row, 12))?;
                self.chances.push(field(0), Edge { label: field(4), target: field(8), probability });
            }
            TRANSITIONS => self.transitions.push(field(0), field(4)),
            TERMINALS if field(4) == 0 => return Err(refusal(9, [])),
            PAYOFFS => payoffs.push(checked_payoff(sheet.u64(PAYOFFS, row, 0))?),
            SETS => {
                let set = SetRow { player: checked_player(field(4))?, id: sheet.u64(SETS, row, 8) };
                self.sets.push(field(0), set);
            }
            _ => {}
        }
        Ok(())
    }

    /// The answer to a call of this game whose limit is at most 64.
    pub fn answer(&self, call: &Call) -> Walked {
        match *call {
            Call::Solve { start, limit } => self.solve(call, start, limit, false),
            Call::SolvePlain { start, limit } => self.solve(call, start, limit, true),
            Call::Paths { start, limit, room } => self.paths(call, start, limit, room),
            Call::Sets { room } => {
                let answer = match self.set_words() {
                    Ok(words) => Answer::written(&words, room),
                    Err(refusal) => call.refused(refusal),
                };
                Walked { answer, visits: 0 }
            }
            Call::Topology => {
                let refusal = self.check_topology().err().unwrap_or_default();
                Walked { answer: Answer::Topology(refusal), visits: 0 }
            }
            Call::Kuhn { .. } => unreachable!("Kuhn has no sheet"),
        }
    }

    /// The edges out of a node in child-row order, by action rows or by chance rows: 14 or 15 for the first fault.
    fn edges(&self, node: u32, rows: &Table<Edge>) -> Result<Vec<Edge>, Refusal> {
        let children = self.children.get(&node).map_or(&[][..], Vec::as_slice);
        let mut edges = Vec::new();
        for &edge in children {
            let Some(row) = rows.get(edge) else { continue };
            let Some(&target) = self.transitions.get(edge) else {
                return Err(refusal(14, [edge.into()]));
            };
            if row.target != target {
                return Err(refusal(15, [edge.into(), row.target.into(), target.into()]));
            }
            edges.push(*row);
        }
        Ok(edges)
    }

    fn node(&self, entity: u32) -> Result<Kind, Refusal> {
        self.nodes.get(entity).copied().ok_or(refusal(11, [entity.into()]))
    }

    fn terminal(&self, entity: u32) -> Result<&Vec<f64>, Refusal> {
        self.terminals.get(entity).ok_or(refusal(13, [entity.into()]))
    }

    fn action_edges(&self, node: u32) -> Result<Vec<Edge>, Refusal> {
        let edges = self.edges(node, &self.actions)?;
        if edges.is_empty() {
            return Err(refusal(16, [node.into()]));
        }
        Ok(edges)
    }

    fn solve(&self, call: &Call, start: u32, limit: u64, plain: bool) -> Walked {
        let mut solver = Solver { game: self, plain, visits: 0, known: HashMap::new() };
        let solved = depth(limit).and_then(|depth| solver.solve(start, depth));
        let answer = match solved {
            Ok(solved) => Answer::solution(solved.terminal, &solved.labels, &solved.payoffs),
            Err(refusal) => call.refused(refusal),
        };
        Walked { answer, visits: solver.visits }
    }

    fn paths(&self, call: &Call, start: u32, limit: u64, room: usize) -> Walked {
        let mut lister = Lister { game: self, visits: 0, known: HashMap::new() };
        let total = depth(limit).and_then(|depth| lister.total(start, depth));
        let answer = match total {
            Err(refusal) => call.refused(refusal),
            Ok(total) if total.words > room as u64 => call.refused(refusal(26, [room as u64])),
            Ok(_) => {
                let mut words = Vec::new();
                self.list(start, &mut Vec::new(), &mut words);
                Answer::written(&words, room)
            }
        };
        Walked { answer, visits: lister.visits }
    }

    /// How many u64s the listing of the paths has, if the walk finds no fault.
    pub fn path_words(&self, start: u32, limit: u64) -> Option<u64> {
        let mut lister = Lister { game: self, visits: 0, known: HashMap::new() };
        let total = depth(limit).and_then(|depth| lister.total(start, depth));
        total.ok().map(|total| total.words)
    }

    /// Lists the paths from a node whose walk has no fault, `labels` being those on the way to it.
    fn list(&self, entity: u32, labels: &mut Vec<u32>, words: &mut Vec<u64>) {
        if let Ok(Kind::Terminal) = self.node(entity) {
            let payoffs = self.terminal(entity).expect("the walk found no fault");
            words.extend([u64::from(entity), payoffs.len() as u64, labels.len() as u64]);
            words.extend(labels.iter().map(|&label| u64::from(label)));
            words.extend(payoffs.iter().map(|payoff| payoff.to_bits()));
            return;
        }
        for edge in self.action_edges(entity).expect("the walk found no fault") {
            labels.push(edge.label);
            self.list(edge.target, labels, words);
            labels.pop();
        }
    }

    /// The listing of the sets.
    pub fn set_words(&self) -> Result<Vec<u64>, Refusal> {
        struct Set {
            id: u64,
            player: u32,
            members: Vec<u32>,
            labels: Vec<u32>,
        }
        let mut sets: Vec<Set> = Vec::new();
        for (entity, row) in &self.sets.rows {
            let (entity, id, player) = (*entity, row.id, row.player);
            let Kind::Decision { player: mover } = self.node(entity)? else {
                return Err(refusal(21, [id, entity.into()]));
            };
            if mover != player {
                return Err(refusal(22, [id, entity.into(), player.into(), mover.into()]));
            }
            let edges = self.edges(entity, &self.actions)?;
            let labels: Vec<u32> = edges.iter().map(|edge| edge.label).collect();
            let texts = |labels: &[u32]| -> Vec<&str> {
                labels.iter().map(|&label| self.labels[label as usize].as_str()).collect()
            };
            match sets.iter_mut().find(|set| set.id == id) {
                None => sets.push(Set { id, player, members: vec![entity], labels }),
                Some(set) if set.player != player || texts(&set.labels) != texts(&labels) => {
                    return Err(refusal(23, [id]));
                }
                Some(set) => set.members.push(entity),
            }
        }
        sets.sort_by_key(|set| set.id);
        let mut words = Vec::new();
        for set in sets {
            words.extend([set.id, set.player.into(), set.members.len() as u64, set.labels.len() as u64]);
            words.extend(set.members.iter().map(|&member| u64::from(member)));
            words.extend(set.labels.iter().map(|&label| u64::from(label)));
        }
        Ok(words)
    }

    fn check_topology(&self) -> Result<(), Refusal> {
        self.node(self.root)?;
        for (_, row) in self.actions.rows.iter().chain(&self.chances.rows) {
            self.node(row.target)?;
        }
        self.check_below(self.root, &mut Vec::new(), &mut HashSet::new())
    }

    /// Walks the child rows below an entity; `above` are the entities on the way to it, `done` those already walked.
    fn check_below(&self, entity: u32, above: &mut Vec<u32>, done: &mut HashSet<u32>) -> Result<(), Refusal> {
        if above.contains(&entity) {
            return Err(refusal(12, [entity.into()]));
        }
        let kind = self.node(entity)?;
        if done.contains(&entity) {
            return Ok(());
        }
        let children = self.children.get(&entity).map_or(&[][..], Vec::as_slice);
        match kind {
            Kind::Terminal => {
                self.terminal(entity)?;
            }
            Kind::Chance => {
                if !children.iter().any(|&child| self.chances.get(child).is_some()) {
                    return Err(refusal(17, [entity.into()]));
                }
            }
            Kind::Decision { .. } => {}
        }
        above.push(entity);
        for &child in children {
            self.check_below(child, above, done)?;
        }
        above.pop();
        done.insert(entity);
        Ok(())
    }
}

/// The solve's answer at a node with so much depth left, and the visits that a walk without memory makes for it.
struct Solved {
    terminal: Option<u32>,
    labels: Vec<u32>,
    payoffs: Vec<f64>,
    visits: u64,
}

struct Solver<'a> {
    game: &'a Game,
    plain: bool,
    visits: u64,
    known: HashMap<(u32, u64), Rc<Solved>>,
}

impl Solver<'_> {
    /// Solves an entity; `left` is 1 where the limit allows this node and none below it.
    fn solve(&mut self, entity: u32, left: u64) -> Result<Rc<Solved>, Refusal> {
        if left == 0 {
            return Err(refusal(24, [entity.into()]));
        }
        if let Some(solved) = self.known.get(&(entity, left)) {
            self.visits = self.visits.saturating_add(solved.visits);
            return Ok(Rc::clone(solved));
        }
        let before = self.visits;
        self.visits = self.visits.saturating_add(1);
        let mut solved = match self.game.node(entity)? {
            Kind::Terminal => {
                let payoffs = self.game.terminal(entity)?.clone();
                Solved { terminal: Some(entity), labels: Vec::new(), payoffs, visits: 0 }
            }
            Kind::Decision { player } => self.decide(entity, player, left)?,
            Kind::Chance if self.plain => return Err(refusal(20, [entity.into()])),
            Kind::Chance => {
                let payoffs = self.weigh(entity, left)?;
                Solved { terminal: None, labels: Vec::new(), payoffs, visits: 0 }
            }
        };
        solved.visits = self.visits.saturating_sub(before);
        let solved = Rc::new(solved);
        self.known.insert((entity, left), Rc::clone(&solved));
        Ok(solved)
    }

    /// The best reply for the mover, the first among equals, its label in front.
    fn decide(&mut self, entity: u32, player: u32, left: u64) -> Result<Solved, Refusal> {
        let mut best: Option<(f64, u32, Rc<Solved>)> = None;
        for edge in self.game.action_edges(entity)? {
            let reply = self.solve(edge.target, left - 1)?;
            let Some(&payoff) = reply.payoffs.get(player as usize) else {
                let named = reply.terminal.unwrap_or(edge.target);
                return Err(refusal(18, [named.into(), player.into()]));
            };
            if best.as_ref().is_none_or(|(most, ..)| payoff > *most) {
                best = Some((payoff, edge.label, reply));
            }
        }
        let (_, label, reply) = best.expect("there is an edge");
        let labels = std::iter::once(label).chain(reply.labels.iter().copied()).collect();
        Ok(Solved { terminal: reply.terminal, labels, payoffs: reply.payoffs.clone(), visits: 0 })
    }

    /// The weighted sums of the outcomes' payoffs.
    fn weigh(&mut self, entity: u32, left: u64) -> Result<Vec<f64>, Refusal> {
        let outcomes = self.game.edges(entity, &self.game.chances)?;
        let mut sums: Option<Vec<f64>> = None;
        for outcome in &outcomes {
            let solved = self.solve(outcome.target, left - 1)?;
            let products = solved.payoffs.iter().map(|payoff| outcome.probability * payoff);
            sums = Some(match sums {
                None => products.collect(),
                Some(sums) if sums.len() != solved.payoffs.len() => {
                    let (expected, actual) = (sums.len() as u64, solved.payoffs.len() as u64);
                    return Err(refusal(19, [entity.into(), expected, actual]));
                }
                Some(sums) => sums.iter().zip(products).map(|(sum, product)| sum + product).collect(),
            });
        }
        let sums = sums.ok_or(refusal(17, [entity.into()]))?;
        if sums.iter().any(|sum| !sum.is_finite()) {
            return Err(refusal(25, [entity.into()]));
        }
        Ok(sums)
    }
}

/// The paths below a node: how many, and how many u64s their records have from there on.
#[derive(Clone, Copy)]
struct Total {
    paths: u64,
    words: u64,
    visits: u64,
}

struct Lister<'a> {
    game: &'a Game,
    visits: u64,
    known: HashMap<(u32, u64), Total>,
}

impl Lister<'_> {
    /// The walk of the listing: its first fault or its totals, which stop growing at the greatest u64.
    fn total(&mut self, entity: u32, left: u64) -> Result<Total, Refusal> {
        if left == 0 {
            return Err(refusal(24, [entity.into()]));
        }
        if let Some(&total) = self.known.get(&(entity, left)) {
            self.visits = self.visits.saturating_add(total.visits);
            return Ok(total);
        }
        let before = self.visits;
        self.visits = self.visits.saturating_add(1);
        let mut total = Total { paths: 0, words: 0, visits: 0 };
        if let Kind::Terminal = self.game.node(entity)? {
            let payoffs = self.game.terminal(entity)?.len() as u64;
            total = Total { paths: 1, words: 3 + payoffs, visits: 0 };
        } else {
            for edge in self.game.action_edges(entity)? {
                let below = self.total(edge.target, left - 1)?;
                total.paths = total.paths.saturating_add(below.paths);
                // each path below gets one more label
                total.words = total.words.saturating_add(below.words).saturating_add(below.paths);
            }
        }
        total.visits = self.visits.saturating_sub(before);
        self.known.insert((entity, left), total);
        Ok(total)
    }
}
