//! The calls beside the solve: paths, sets, topology, Kuhn.

use super::{changed, paths_in, worked, List, SOLVE};
use crate::answer::{Call, VARIANTS};
use crate::draft::{field, row, set_field, Draft, Row};
use crate::sheet::*;

/// Node 1 with two replies, the second a chance node that goes on by action rows too.
fn forked() -> Draft {
    let mut draft = worked();
    draft.action_row(12, 2, 4);
    draft.action_row(13, 3, 5);
    draft
}

/// Node 1 with two replies to node 2, and a third to a terminal that node 2 leads to as well.
fn shared() -> Draft {
    let mut draft = Draft { root: 1, ..Draft::default() };
    let [left, right, on, out] = ["left", "right", "on", "out"].map(|text| draft.label(text));
    draft.decision(1, 0);
    draft.decision(2, 1);
    draft.terminal(3, &[1.0]);
    draft.terminal(4, &[-0.0, 5.0]);
    draft.action(10, 1, left, 2);
    draft.action(11, 1, right, 2);
    draft.action(12, 1, out, 4);
    draft.action(13, 2, on, 3);
    draft.action(14, 2, out, 4);
    draft
}

/// Listings that just fit, that do not, and the faults that come before 26.
pub fn paths(list: &mut List) {
    let sheet = forked().encode();
    let bits = |payoff: f64| payoff.to_bits();
    let words = [
        [4, 2, 2, 0, 2, bits(8.0), bits(0.0)].as_slice(),
        &[5, 2, 2, 0, 3, bits(0.0), bits(4.0)],
        &[3, 2, 1, 1, bits(2.0), bits(2.0)],
    ]
    .concat();
    let full = words.len();
    for room in [full, full + 1, full + 7] {
        list.written("paths", &sheet, paths_in(room), &words, room);
    }
    for room in [full - 1, 1, 0] {
        list.refused("paths", &sheet, paths_in(room), 26, [room as u64]);
    }
    let at_3 = Call::Paths { start: 3, limit: 1, room: 5 };
    list.written("paths from a terminal", &sheet, at_3, &[3, 2, 0, bits(2.0), bits(2.0)], 5);
    list.refused("paths", &sheet, Call::Paths { start: 1, limit: 2, room: 0 }, 24, [4]);
    list.refused("paths", &sheet, Call::Paths { start: 8, limit: 0, room: 0 }, 11, [8]);
    list.refused("paths", &sheet, Call::Paths { start: 1, limit: 65, room: 0 }, 27, [65]);
    let sheet = shared().encode();
    let words = [
        [3, 1, 2, 0, 2, bits(1.0)].as_slice(),
        &[4, 2, 2, 0, 3, bits(-0.0), bits(5.0)],
        &[3, 1, 2, 1, 2, bits(1.0)],
        &[4, 2, 2, 1, 3, bits(-0.0), bits(5.0)],
        &[4, 2, 1, 3, bits(-0.0), bits(5.0)],
    ]
    .concat();
    list.written("paths by shared nodes", &sheet, paths_in(40), &words, 40);
    list.refused("paths by shared nodes", &sheet, paths_in(words.len() - 1), 26, [words.len() as u64 - 1]);
    let mut faulty = forked();
    faulty.sections[TERMINALS].remove(0);
    faulty.sections[PAYOFFS].drain(..2);
    list.refused("13 before 26", &faulty.encode(), paths_in(0), 13, [3]);
}

/// Four decisions, each with two replies to terminal 9: those of 4 are the other way round.
fn conversations() -> Draft {
    let mut draft = Draft { root: 1, ..Draft::default() };
    let [yes, no, also_yes] = ["yes", "no", "yes"].map(|text| draft.label(text));
    for (node, player) in [(1, 0), (2, 0), (3, 1), (4, 0)] {
        draft.decision(node, player);
    }
    draft.terminal(9, &[0.0, 0.0]);
    for (node, [first, second]) in [(1, [yes, no]), (2, [also_yes, no]), (3, [yes, no]), (4, [no, yes])] {
        draft.action(10 * node, node, first, 9);
        draft.action(10 * node + 1, node, second, 9);
    }
    draft
}

/// Refusals 21 to 23 and what comes before them; sets by rising id.
pub fn sets(list: &mut List) {
    let with = |sets: &[(u32, u32, u64)], change: &dyn Fn(&mut Draft)| {
        let mut draft = conversations();
        for &(entity, player, id) in sets {
            draft.set(entity, player, id);
        }
        change(&mut draft);
        draft.encode()
    };
    let none = |_: &mut Draft| {};
    let room = |room| Call::Sets { room };
    let large = u64::MAX;
    let sheet = with(&[(2, 0, large), (3, 1, 1 << 32), (1, 0, large), (4, 0, 5)], &none);
    let words =
        [[5, 0, 1, 2, 4, 1, 0].as_slice(), &[1 << 32, 1, 1, 2, 3, 0, 1], &[large, 0, 2, 2, 2, 1, 2, 1]].concat();
    let full = words.len();
    for size in [full, full + 5] {
        list.written("sets by rising id, labels by text", &sheet, room(size), &words, size);
    }
    for size in [full - 1, 0] {
        list.refused("sets", &sheet, room(size), 26, [size as u64]);
    }
    list.refused("labels in another order", &with(&[(1, 0, 5), (4, 0, 5)], &none), room(0), 23, [5]);
    list.refused("another player", &with(&[(1, 0, 5), (3, 1, 5)], &none), room(0), 23, [5]);
    list.refused("not a decision", &with(&[(1, 0, 5), (9, 0, 6)], &none), room(0), 21, [6, 9]);
    list.refused("not a node", &with(&[(8, 0, 5)], &none), room(0), 11, [8]);
    list.refused("the node's player", &with(&[(3, 0, 5)], &none), room(0), 22, [5, 3, 0, 1]);
    let without = |draft: &mut Draft| draft.sections[TRANSITIONS].retain(|row: &Row| field(row, 0) != 41);
    list.refused("14 before 23", &with(&[(1, 0, 5), (4, 0, 5)], &without), room(0), 14, [41]);
    let elsewhere = |draft: &mut Draft| set_field(&mut draft.sections[TRANSITIONS][7], 4, 1);
    list.refused("15", &with(&[(4, 0, 5)], &elsewhere), room(0), 15, [41, 9, 1]);
    list.refused("22 before 14", &with(&[(4, 1, 5)], &without), room(0), 22, [5, 4, 1, 0]);
    let fewer = |draft: &mut Draft| draft.sections[ACTIONS].retain(|row: &Row| field(row, 0) != 21);
    list.refused("fewer labels", &with(&[(1, 0, 5), (2, 0, 5)], &fewer), room(0), 23, [5]);
    let edgeless = |draft: &mut Draft| draft.sections[ACTIONS].clear();
    let sheet = with(&[(1, 0, 0), (2, 0, 0)], &edgeless);
    list.written("no labels", &sheet, room(6), &[0, 0, 2, 0, 1, 2], 6);
}

/// A tree whose edges are its nodes, as the topology check wants it: 1 decides on 2 or 3, 3 is chance between 4 and 5.
fn plain_tree() -> Draft {
    let mut draft = Draft { root: 1, ..Draft::default() };
    let label = draft.label("x");
    draft.decision(1, 0);
    draft.terminal(2, &[1.0]);
    draft.chance(3);
    draft.terminal(4, &[0.0]);
    draft.terminal(5, &[4.0]);
    draft.action(2, 1, label, 2);
    draft.action(3, 1, label, 3);
    draft.outcome(4, 3, label, 4, 0.5);
    draft.outcome(5, 3, label, 5, 0.5);
    draft
}

/// The tree with something changed about it.
fn tree_but(change: impl FnOnce(&mut Draft)) -> Vec<u8> {
    changed(plain_tree(), change)
}

/// What the topology check passes, and what it refuses before it walks.
pub fn topology_before_walk(list: &mut List) {
    let sheet = plain_tree().encode();
    list.passed("topology", &sheet);
    list.solved("its solve", &sheet, SOLVE, None, &[0], &[2.0]);
    let mut missing = |name, sheet: Vec<u8>, entity| list.refused(name, &sheet, Call::Topology, 11, [entity]);
    missing("no root", tree_but(|draft| draft.root = 7), 7);
    missing("an action's target", tree_but(|draft| set_field(&mut draft.sections[ACTIONS][1], 8, 8)), 8);
    missing("an outcome's target", tree_but(|draft| set_field(&mut draft.sections[CHANCES][1], 8, 9)), 9);
    let neither = tree_but(|draft| {
        draft.root = 7;
        set_field(&mut draft.sections[ACTIONS][1], 8, 8);
    });
    missing("the root before actions", neither, 7);
    let both = tree_but(|draft| {
        set_field(&mut draft.sections[CHANCES][0], 8, 9);
        set_field(&mut draft.sections[ACTIONS][1], 8, 8);
    });
    missing("actions before outcomes", both, 8);
}

/// What the topology check finds on its walk, and what it does not look at.
pub fn topology_walk(list: &mut List) {
    let mut says = |name, sheet: Vec<u8>, number, entity| {
        list.refused(name, &sheet, Call::Topology, number, [entity]);
    };
    says("a child that is no node", tree_but(|draft| draft.sections[CHILDREN].push(row([6, 3]))), 11, 6);
    says("the root below itself", tree_but(|draft| draft.sections[CHILDREN].push(row([1, 1]))), 12, 1);
    says("the root below a terminal", tree_but(|draft| draft.sections[CHILDREN].push(row([1, 5]))), 12, 1);
    let unpaid = tree_but(|draft| {
        draft.sections[TERMINALS].remove(1);
        draft.sections[PAYOFFS].remove(1);
    });
    says("a terminal without payoffs", unpaid, 13, 4);
    says("no child has a chance row", tree_but(|draft| draft.sections[CHANCES].clear()), 17, 3);
    let actions = tree_but(|draft| {
        draft.sections[CHANCES].clear();
        draft.action_row(4, 0, 4);
        draft.action_row(5, 0, 5);
    });
    says("action rows are no outcomes", actions, 17, 3);
    let before = tree_but(|draft| {
        draft.sections[CHANCES].clear();
        draft.sections[NODES].retain(|row| field(row, 0) != 5);
    });
    says("17 before the children", before, 17, 3);
    let without =
        |section: usize, entity: u32| tree_but(|draft| draft.sections[section].retain(|row| field(row, 0) != entity));
    list.passed("one outcome is enough", &without(CHANCES, 5));
    list.passed("transitions do not matter", &without(TRANSITIONS, 4));
}

/// Iterations up to the most and past it.
pub fn kuhn(list: &mut List) {
    for variant in VARIANTS {
        for iterations in [1, 2, 3, 10, 1_000, 1_000_000] {
            list.accepted("Kuhn", &[], Call::Kuhn { variant, iterations });
        }
        for iterations in [1_000_001, u64::MAX] {
            list.refused("Kuhn", &[], Call::Kuhn { variant, iterations }, 28, [iterations]);
        }
    }
}
