//! The tables of sheets at the format's limits, of entities numbered in other ways, and of what no goal holds.

use crate::answer::Call;
use crate::bench::{Bench, Done, Named};
use crate::draft::Draft;
use crate::numbering::{crowded, is_short, renumbered, steps, NATURAL};
use crate::report::{grouped, table, NOT_REACHED};
use crate::sheets::*;
use crate::tables::{most, COLUMNS, PATHS, PLAIN, SOLVE};
use crate::worst::sets_of;
use std::fs;

pub fn limits(bench: &mut Bench) -> Done<()> {
    largest(bench)?;
    numbered_otherwise(bench)?;
    worst_steps(bench)?;
    not_reached(bench)
}

const ADVERSARY: &str = "an adversary's numbering";
const OUTCOMES: &str = "1,024 outcomes to one terminal";

/// A node with 1,024 edges to one terminal.
fn one_node(kind: Kinds) -> Draft {
    made(|maker| maker.chain(1, 1_024, kind))
}

/// Sheets at the format's limits in each order of their rows: both solves and paths. A chance root, which the plain
/// solve refuses at once, is in `not_reached`.
fn largest(bench: &mut Bench) -> Done<()> {
    let limits = [
        ("binary tree of 10 levels", Kinds::Decisions, full_tree(10, 2, Kinds::Decisions)),
        ("1,024 replies to one terminal", Kinds::Decisions, one_node(Kinds::Decisions)),
        (OUTCOMES, Kinds::Chances, one_node(Kinds::Chances)),
        ("65,536 bytes, 1,000 replies", Kinds::Decisions, longest_replies()),
        ("65,536 bytes, most of them not met by the solve", Kinds::Decisions, mostly_unmet()),
    ];
    table("Sheets at the format's limits", COLUMNS);
    for (name, kinds, draft) in limits {
        for (order, said) in ORDERS {
            let named = Named::of(format!("{name}, rows {said}"), arranged(draft.clone(), order));
            bench.ratio(&named, &SOLVE, most(&named))?;
            if kinds == Kinds::Decisions {
                bench.ratio(&named, &PLAIN, most(&named))?;
            }
            bench.no_goal(&named, &PATHS)?;
        }
    }
    Ok(())
}

/// Entities that do not go up by one, in numberings that a caller may well have, and an adversary's where the table is
/// not the shortest. The library's table of hints has three sizes, and each has a sheet here.
fn numbered_otherwise(bench: &mut Bench) -> Done<()> {
    let sheets = [
        ("binary tree of 5 levels", full_tree(5, 2, Kinds::Decisions)),
        ("30 replies", full_tree(2, 30, Kinds::Decisions)),
        ("binary tree of 9 levels", full_tree(9, 2, Kinds::Decisions)),
        ("1,000 replies", full_tree(2, 1_000, Kinds::Decisions)),
        ("a line of 63 decisions", made(|maker| maker.chain(63, 1, Kinds::Decisions))),
    ];
    table("Entities numbered in other ways", COLUMNS);
    for (name, draft) in sheets {
        let natural = NATURAL.map(|(numbers, number)| (numbers, renumbered(draft.clone(), number)));
        let chosen = (!is_short(&draft)).then(|| (ADVERSARY, crowded(draft)));
        for (numbers, draft) in natural.into_iter().chain(chosen) {
            for (order, said) in [(Order::Rising, "rising"), (Order::Shuffled, "shuffled")] {
                let named = Named::of(format!("{name}, {numbers}, rows {said}"), arranged(draft.clone(), order));
                bench.ratio(&named, &Call::Solve { start: named.root(), limit: 64 }, most(&named))?;
            }
        }
    }
    Ok(())
}

/// The step between entities that takes longest beside the Rust in a short measurement, measured again, on the smallest
/// sheets that are held to a ratio.
fn worst_steps(bench: &mut Bench) -> Done<()> {
    table("The worst of 41 steps between entities, rows shuffled", COLUMNS);
    let sheets = [
        ("binary tree of 5 levels", full_tree(5, 2, Kinds::Decisions)),
        ("30 replies", full_tree(2, 30, Kinds::Decisions)),
    ];
    for (name, draft) in sheets {
        let mut worst: Option<(f64, Named, Call)> = None;
        let usual = bench.budget;
        bench.budget /= 4;
        for step in steps() {
            let draft = arranged(renumbered(draft.clone(), |entity| entity * step), Order::Shuffled);
            let named = Named::of(format!("{name}, entities times {}", grouped(u64::from(step))), draft);
            let call = Call::Solve { start: named.root(), limit: 64 };
            let [ours, theirs] = bench.both(&named, &call)?;
            let ratio = ours.over(&theirs);
            if worst.as_ref().is_none_or(|(most, ..)| ratio > *most) {
                worst = Some((ratio, named, call));
            }
        }
        bench.budget = usual;
        let (_, named, call) = worst.expect("there are steps");
        bench.ratio(&named, &call, most(&named))?;
    }
    Ok(())
}

/// Sheets that are held to no ratio, and why it is not reached.
fn not_reached(bench: &mut Bench) -> Done<()> {
    let few =
        "Opening and the visits alone take longer than the Rust; tables are cleared and the answer is copied besides.";
    let places = "Entities share three places and most of them four, so that each search looks at five or more.";
    let small = crowded(arranged(full_tree(5, 2, Kinds::Decisions), Order::Shuffled));
    let two_nodes = "Opening reads every byte, and the Rust's solve visits two nodes.";
    let refused = "Opening reads every byte, and the Rust's solve is refused at the root.";
    let solved = [
        (Named::new("the worked sheet", fs::read("samples/worked.kgs")?), few),
        (Named::of(format!("binary tree of 5 levels, {ADVERSARY}, rows shuffled"), small), places),
        (Named::of("1,023 nodes in sets, one edge from the root", sets_of(1_023, 1, 1_023, 2, 2_000)), two_nodes),
    ];
    let mut columns = COLUMNS;
    columns[7] = "why";
    table(NOT_REACHED, columns);
    for (named, why) in solved {
        bench.not_reached(&named, &Call::Solve { start: named.root(), limit: 0 }, most(&named), why)?;
    }
    let outcomes = Named::of(OUTCOMES, one_node(Kinds::Chances));
    bench.not_reached(&outcomes, &PLAIN, most(&outcomes), refused)
}
