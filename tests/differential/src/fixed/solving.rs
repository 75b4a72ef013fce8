//! Solves: the worked cases, edges, replies, weighted sums and depth.

use super::{but, paths_in, solve, worked, List, Says, PLAIN, SOLVE};
use crate::answer::{Answer, Call, Kuhn, Refusal, VARIANTS};
use crate::draft::{field, row, set_field, Draft};
use crate::sheet::*;

/// P1 to P12 of docs/SHEET.md.
pub fn worked_cases(list: &mut List) {
    let sheet = worked().encode();
    list.solved("P1 solve", &sheet, SOLVE, None, &[0], &[2.0, 3.0]);
    list.refused("P3 limit 1", &sheet, solve(1), 24, [2]);
    list.refused("P4 limit 2", &sheet, solve(2), 24, [4]);
    list.solved("P5 limit 3", &sheet, solve(3), None, &[0], &[2.0, 3.0]);
    list.refused("P6 plain", &sheet, PLAIN, 20, [2]);
    list.refused("P7 paths", &sheet, paths_in(64), 16, [2]);
    list.refused("P8 topology", &sheet, Call::Topology, 11, [10]);
    list.refused("P10 start 9", &sheet, Call::Solve { start: 9, limit: 0 }, 11, [9]);
    list.refused("P11 limit 65", &sheet, solve(65), 27, [65]);
    let swapped = but(|draft| draft.sections[CHILDREN].swap(0, 1));
    list.solved("P2 children swapped", &swapped, SOLVE, Some(3), &[1], &[2.0, 2.0]);
    let without = but(|draft| draft.sections[TRANSITIONS].retain(|row| field(row, 0) != 11));
    list.refused("P9 no transition", &without, SOLVE, 14, [11]);
    for variant in VARIANTS {
        let none = Kuhn { refusal: Refusal::default(), value: 0.0, bet_share: 0.5 };
        list.add("P12 Kuhn", &[], Call::Kuhn { variant, iterations: 0 }, Says::Answered(Answer::Kuhn(none)));
    }
}

/// Refusals 13 to 17: what stands between a node and its targets.
pub fn edges(list: &mut List) {
    let drop_row =
        |section: usize, entity: u32| but(|draft| draft.sections[section].retain(|row| field(row, 0) != entity));
    list.refused("an outcome's transition", &drop_row(TRANSITIONS, 13), SOLVE, 14, [13]);
    let elsewhere = but(|draft| set_field(&mut draft.sections[TRANSITIONS][0], 4, 4));
    for call in [SOLVE, PLAIN, paths_in(4)] {
        list.refused("an action's transition leads elsewhere", &elsewhere, call, 15, [10, 2, 4]);
    }
    let outcome = but(|draft| set_field(&mut draft.sections[TRANSITIONS][3], 4, 77));
    list.refused("an outcome's transition leads elsewhere", &outcome, SOLVE, 15, [13, 5, 77]);
    list.solved("an edge without an action row", &drop_row(ACTIONS, 10), SOLVE, Some(3), &[1], &[2.0, 2.0]);
    list.solved("an outcome without a chance row", &drop_row(CHANCES, 13), SOLVE, None, &[0], &[2.0, 0.0]);
    let no_actions = but(|draft| draft.sections[ACTIONS].clear());
    list.refused("no actions", &no_actions, SOLVE, 16, [1]);
    list.refused("no actions", &no_actions, PLAIN, 16, [1]);
    list.refused("no outcomes", &but(|draft| draft.sections[CHANCES].clear()), SOLVE, 17, [2]);
    // the whole list stands before a target is visited
    let both = but(|draft| {
        draft.sections[NODES].remove(1);
        draft.sections[TRANSITIONS].remove(1);
    });
    list.refused("14 before the first target's 11", &both, SOLVE, 14, [11]);
    list.refused("a target that is no node", &drop_row(NODES, 5), SOLVE, 11, [5]);
    let mut bare = Draft { root: 1, ..Draft::default() };
    bare.sections[NODES].push(row([1, 2, 0]));
    let bare = bare.encode();
    for call in [SOLVE, PLAIN, paths_in(9)] {
        list.refused("a terminal without payoffs", &bare, call, 13, [1]);
    }
}

/// Starts, movers, replies and payoff counts.
pub fn solves(list: &mut List) {
    let sheet = worked().encode();
    let from = |start| Call::Solve { start, limit: 0 };
    list.solved("from a terminal", &sheet, from(3), Some(3), &[], &[2.0, 2.0]);
    list.solved("from a chance node", &sheet, from(2), None, &[], &[2.0, 3.0]);
    list.refused("plain from a chance node", &sheet, Call::SolvePlain { start: 2, limit: 0 }, 20, [2]);
    list.refused("an edge is no node", &sheet, from(10), 11, [10]);
    list.refused("24 before 11", &but(|draft| drop(draft.sections[NODES].remove(1))), solve(1), 24, [2]);
    let mover = |player| but(|draft| set_field(&mut draft.sections[NODES][0], 8, player));
    list.solved("the second player moves", &mover(1), SOLVE, None, &[0], &[2.0, 3.0]);
    list.refused("18 names the target of a chance node", &mover(2), SOLVE, 18, [2, 2]);
    let waiting = but(|draft| {
        set_field(&mut draft.sections[NODES][0], 8, 2);
        draft.sections[CHILDREN].swap(0, 1);
    });
    list.refused("18 names the terminal", &waiting, SOLVE, 18, [3, 2]);
    list.refused("18 names the terminal", &waiting, PLAIN, 18, [3, 2]);
    let mut below = ladder(3, 1);
    set_field(&mut below.sections[NODES][0], 8, 1);
    let below = below.encode();
    list.refused("18 names the terminal below the target", &below, SOLVE, 18, [3, 1]);
    list.refused("18 names the terminal below the target", &below, PLAIN, 18, [3, 1]);
    let more = but(|draft| draft.set_payoffs(2, &[0.0, 4.0, 1.0]));
    list.refused("19", &more, SOLVE, 19, [2, 2, 3]);
    let fewer = but(|draft| draft.set_payoffs(2, &[0.0]));
    list.refused("19", &fewer, SOLVE, 19, [2, 2, 1]);
    let better = but(|draft| draft.set_payoffs(0, &[f64::from_bits(2.0f64.to_bits() + 1), 0.0]));
    list.accepted("a later reply is better by the least amount", &better, SOLVE);
    let twins = but(|draft| {
        draft.label("open");
        set_field(&mut draft.sections[ACTIONS][0], 4, 4);
    });
    list.solved("a second label of equal text", &twins, SOLVE, None, &[4], &[2.0, 3.0]);
}

/// A chance node 1 with these outcomes of one or more payoffs.
fn lottery(outcomes: &[(f64, &[f64])]) -> Vec<u8> {
    let mut draft = Draft { root: 1, ..Draft::default() };
    let label = draft.label("x");
    draft.chance(1);
    for (place, (probability, payoffs)) in outcomes.iter().enumerate() {
        let terminal = 2 + place as u32;
        draft.terminal(terminal, payoffs);
        draft.outcome(1000 + terminal, 1, label, terminal, *probability);
    }
    draft.encode()
}

/// Weighted sums: out of range, ties, zeros, order.
pub fn rounding(list: &mut List) {
    let top = f64::MAX;
    let half_step = 2f64.powi(970);
    let below_half_step = f64::from_bits(half_step.to_bits() - 1);
    list.refused("out of range", &lottery(&[(1.0, &[0.0, top]), (1.0, &[0.0, top])]), SOLVE, 25, [1]);
    list.refused("out of range below", &lottery(&[(1.0, &[-top]), (1.0, &[-top])]), SOLVE, 25, [1]);
    list.refused("by half a step", &lottery(&[(1.0, &[top]), (1.0, &[half_step])]), SOLVE, 25, [1]);
    let within = lottery(&[(1.0, &[top]), (1.0, &[below_half_step])]);
    list.solved("by less than half a step", &within, SOLVE, None, &[], &[top]);
    let back = lottery(&[(1.0, &[top]), (1.0, &[top]), (1.0, &[-top])]);
    list.refused("out of range and back", &back, SOLVE, 25, [1]);
    let later = lottery(&[(1.0, &[top]), (1.0, &[top]), (1.0, &[1.0, 1.0])]);
    list.refused("19 after the sum went out of range", &later, SOLVE, 19, [1, 1, 2]);
    let halves = lottery(&[(0.5, &[top, -top]), (0.5, &[top, -top])]);
    list.solved("two halves of the greatest", &halves, SOLVE, None, &[], &[top, -top]);
    let least = 5e-324;
    let tie = lottery(&[(0.5, &[least, -least, 3.0 * least])]);
    list.solved("ties below the least", &tie, SOLVE, None, &[], &[0.0, -0.0, 2.0 * least]);
    list.solved("above a tie", &lottery(&[(0.75, &[least])]), SOLVE, None, &[], &[least]);
    let zeros = lottery(&[(1.0, &[-0.0, -0.0, 0.0]), (1.0, &[-0.0, 0.0, -0.0])]);
    list.solved("zeros", &zeros, SOLVE, None, &[], &[-0.0, 0.0, 0.0]);
    let twice = lottery(&[(1.0, &[-1.0]), (0.1, &[10.0])]);
    list.solved("product and sum are rounded apart", &twice, SOLVE, None, &[], &[0.0]);
    let big = 1e16;
    let rising = lottery(&[(1.0, &[1.0]), (1.0, &[big]), (1.0, &[-big])]);
    list.solved("the sum goes by child row", &rising, SOLVE, None, &[], &[0.0]);
    let falling = lottery(&[(1.0, &[-big]), (1.0, &[big]), (1.0, &[1.0])]);
    list.solved("the sum goes by child row", &falling, SOLVE, None, &[], &[1.0]);
    let thirds = lottery(&[(1.0 / 3.0, &[0.1, 1e308]), (1.0 / 3.0, &[0.2, 1e308]), (1.0 / 3.0, &[0.7, -3e-310])]);
    list.accepted("thirds", &thirds, SOLVE);
}

/// Decisions 1, 2, .. to the terminal `depth`, each with so many edges to the next.
fn ladder(depth: u32, edges: u32) -> Draft {
    let mut draft = Draft { root: 1, ..Draft::default() };
    let label = draft.label("on");
    for node in 1..depth {
        draft.decision(node, 0);
        for edge in 0..edges {
            draft.action(1000 * (edge + 1) + node, node, label, node + 1);
        }
    }
    draft.terminal(depth, &[1.0]);
    draft
}

/// Chance nodes 1, 2, .. to the terminal `depth`, each with two outcomes that lead to the next.
fn lotteries(depth: u32) -> Draft {
    let mut draft = Draft { root: 1, ..Draft::default() };
    let label = draft.label("on");
    for node in 1..depth {
        draft.chance(node);
        draft.outcome(1000 + node, node, label, node + 1, 0.1);
        draft.outcome(2000 + node, node, label, node + 1, 0.9);
    }
    draft.terminal(depth, &[1.0, -3.0]);
    draft
}

/// The calls that have a limit, all with this one.
fn limited(limit: u64) -> [Call; 3] {
    [Call::Solve { start: 1, limit }, Call::SolvePlain { start: 1, limit }, Call::Paths { start: 1, limit, room: 80 }]
}

/// Depth that suffices and depth that does not.
pub fn depths(list: &mut List) {
    for (depth, limit) in [(1, 1), (2, 2), (32, 0), (32, 32), (63, 63), (64, 64)] {
        let sheet = ladder(depth, 1).encode();
        for call in limited(limit) {
            list.accepted("depth that suffices", &sheet, call);
        }
    }
    for (depth, limit) in [(2, 1), (33, 0), (33, 32), (64, 63), (65, 64)] {
        let sheet = ladder(depth, 1).encode();
        for call in limited(limit) {
            list.refused("depth one short", &sheet, call, 24, [depth.into()]);
        }
    }
}

/// Nodes that 2 to the 63 ways lead to, and one that is met with depth to spare and then without.
pub fn shared_nodes(list: &mut List) {
    let shared = ladder(64, 2).encode();
    list.accepted("shared nodes", &shared, solve(64));
    list.accepted("shared nodes", &shared, Call::SolvePlain { start: 1, limit: 64 });
    list.refused("shared nodes", &shared, Call::Paths { start: 1, limit: 64, room: 100 }, 26, [100]);
    list.refused("shared nodes, depth one short", &shared, solve(63), 24, [64]);
    list.accepted("shared chance nodes", &lotteries(64).encode(), solve(64));
    // node 2 is first found with depth to spare, then with one less than it needs
    let mut longer = Draft { root: 1, ..Draft::default() };
    let label = longer.label("on");
    for node in [1, 2, 3, 4] {
        longer.decision(node, 0);
    }
    longer.terminal(5, &[1.0]);
    longer.action(10, 1, label, 2);
    longer.action(11, 1, label, 3);
    longer.action(12, 3, label, 2);
    longer.action(13, 2, label, 4);
    longer.action(14, 4, label, 5);
    let longer = longer.encode();
    for call in limited(4) {
        list.refused("a longer way to a solved node", &longer, call, 24, [5]);
    }
    for call in limited(5) {
        list.accepted("a longer way to a solved node", &longer, call);
    }
}

/// Transitions in a circle, which the topology check does not look at.
pub fn loops(list: &mut List) {
    let mut looped = Draft { root: 1, ..Draft::default() };
    let label = looped.label("on");
    looped.decision(1, 0);
    looped.decision(2, 0);
    looped.action(2, 1, label, 2);
    looped.decision(3, 0);
    looped.action(3, 2, label, 1);
    let looped = looped.encode();
    list.refused("transitions that loop", &looped, solve(0), 24, [1]);
    list.refused("transitions that loop", &looped, solve(63), 24, [2]);
    list.passed("the topology passes transitions that loop", &looped);
}
