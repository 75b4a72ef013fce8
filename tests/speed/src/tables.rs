//! The tables of the report, but for those of the limits and of the slowest sheets.

use crate::answer::{Call, VARIANTS};
use crate::bench::{Bench, Done, Named};
use crate::clock::in_turn;
use crate::draft::Draft;
use crate::numbering::{crowded_to_open, renumbered, times_65_536};
use crate::report::{grouped, number, row, table};
use crate::sheets::*;
use crate::worst::AMPLE;
use crate::{ours, stack};

pub const SOLVE: Call = Call::Solve { start: 1, limit: 0 };
pub const PLAIN: Call = Call::SolvePlain { start: 1, limit: 0 };
pub const PATHS: Call = Call::Paths { start: 1, limit: 0, room: AMPLE };

pub const COLUMNS: [&str; 8] = ["sheet", "call", "edges", "bytes", "ours", "the Rust's", "ratio", "goal"];

/// What a solve with its opening may take of the Rust's solve.
pub fn most(named: &Named) -> f64 {
    if named.edges > 200 {
        0.5
    } else {
        1.0
    }
}

/// Full trees: both solves, paths, and the solve with chance nodes on every second level.
pub fn trees(bench: &mut Bench) -> Done<()> {
    let binary = (5..=9).map(|levels| (format!("binary tree of {levels} levels"), levels, 2));
    let wide = [(2, 30), (2, 100), (2, 500), (2, 1_000), (3, 10), (3, 28), (4, 9)];
    let wide = wide.map(|(levels, edges)| {
        (format!("{levels} levels, {} edges from a node", grouped(edges.into())), levels, edges)
    });
    table("Trees", COLUMNS);
    for (name, levels, edges) in binary.chain(wide) {
        let named = Named::of(name.clone(), full_tree(levels, edges, Kinds::Decisions));
        bench.ratio(&named, &SOLVE, most(&named))?;
        bench.ratio(&named, &PLAIN, most(&named))?;
        bench.no_goal(&named, &PATHS)?;
        if levels > 2 {
            let named = Named::of(format!("{name}, chance in turn"), full_tree(levels, edges, Kinds::InTurn));
            bench.ratio(&named, &SOLVE, most(&named))?;
        }
    }
    Ok(())
}

/// Chains of shared nodes: on both sides as far as the Rust comes, then ours alone.
pub fn chains(bench: &mut Bench) -> Done<()> {
    let named = |levels: u32, kinds, said| Named::of(format!("chain of {levels} levels{said}"), chain(levels, kinds));
    table("Chains, two edges from each level to one next node", COLUMNS);
    for levels in [5, 6, 7, 8, 10, 12, 14, 16, 18, 20, 22, 24] {
        if levels <= bench.longest_chain {
            let named = named(levels, Kinds::Decisions, "");
            bench.ratio(&named, &SOLVE, most(&named))?;
            bench.ratio(&named, &PLAIN, most(&named))?;
        }
    }
    for levels in [5, 8, 12, 16] {
        let named = named(levels, Kinds::InTurn, ", chance in turn");
        bench.ratio(&named, &SOLVE, most(&named))?;
    }
    table("Chains, ours alone", ["levels", "limit", "solve", "plain", "under 10 ms"]);
    for (levels, limit) in [(15, 0), (31, 0), (31, 64), (40, 64), (50, 64), (62, 64), (63, 64)] {
        let named = named(levels, Kinds::Decisions, "");
        let solve = bench.alone(&named, &Call::Solve { start: 1, limit })?;
        let plain = bench.alone(&named, &Call::SolvePlain { start: 1, limit })?;
        let met = bench.report.goal(&format!("{}, µs", named.name), solve.max(plain), 10_000.0);
        row([levels.to_string(), limit.to_string(), number(solve), number(plain), met.to_owned()]);
    }
    let doubled = [15, 31, 62].map(|levels| named(levels, Kinds::Decisions, ""));
    let [at_15, at_31, at_62] = bench.each(&doubled, &Call::Solve { start: 1, limit: 64 })?;
    let [first, second] = [at_31.over(&at_15), at_62.over(&at_31)];
    let met = bench.report.goal("chains, growth from 15 to 31 and from 31 to 62 levels", first.max(second), 2.5);
    println!("\nFrom 15 to 31 levels the time grows by {first:.2}, from 31 to 62 by {second:.2}; at most 2.5: {met}.");
    Ok(())
}

/// Sheets on which a walk that keeps nothing would not end.
pub fn met_again(bench: &mut Bench) -> Done<()> {
    let spine = Named::of("a spine of 50 levels into one subtree of 255 nodes", spine());
    let circle = Named::of("ten nodes in a circle", circle());
    let many = Named::of("2^40 paths, a buffer of 1,000", chain(40, Kinds::Decisions));
    let behind = Named::of("2^40 paths and a fault behind them", fault_behind_paths());
    let below = Call::Solve { start: SUBTREE, limit: 64 };
    let solve = |limit| Call::Solve { start: 1, limit };
    let paths = Call::Paths { start: 1, limit: 64, room: 1_000 };
    let subtree = bench.alone(&spine, &below)?;
    let rows = [
        (&spine, "solve", solve(64), 4.0 * subtree, "4 times the subtree"),
        (&spine, "solve, the limit ends inside the subtree", solve(55), 4.0 * subtree, "4 times the subtree"),
        (&circle, "solve", solve(64), 1_000.0, "1 ms"),
        (&circle, "paths", paths, 1_000.0, "1 ms"),
        (&many, "paths", paths, 50_000.0, "50 ms"),
        (&behind, "paths", paths, 50_000.0, "50 ms"),
    ];
    table("Nodes met again and again, ours alone", ["sheet", "call", "answer", "time", "goal"]);
    let alone = "the subtree alone";
    row([alone.to_owned(), "solve".to_owned(), spine.answer(&below), number(subtree), "none".to_owned()]);
    for (named, said, call, most, goal) in rows {
        let time = bench.alone(named, &call)?;
        let met = bench.report.goal(&format!("{said}, {}, µs", named.name), time, most);
        row([named.name.clone(), said.to_owned(), named.answer(&call), number(time), format!("{goal}: {met}")]);
    }
    Ok(())
}

/// What the opening is timed on: the numbering and order of the rows. The last is an adversary's.
const OPENED: [(&str, fn(Draft) -> Draft); 5] = [
    ("rows rising", |draft| arranged(draft, Order::Rising)),
    ("rows falling", |draft| arranged(draft, Order::Falling)),
    ("rows shuffled", |draft| arranged(draft, Order::Shuffled)),
    ("entities times 65,536, rows shuffled", |draft| arranged(renumbered(draft, times_65_536), Order::Shuffled)),
    ("an adversary's numbering, rows shuffled", |draft| crowded_to_open(arranged(draft, Order::Shuffled))),
];

/// The opening alone: a sheet whose last row is refused.
pub fn opening(bench: &mut Bench) -> Done<()> {
    let sizes = [1, 2, 4, 8, 16, 32, 64].map(|kilobytes| keyed_rows(kilobytes << 10));
    let lengths = sizes.each_ref().map(|draft| draft.encode().len() as f64);
    let mut columns = Vec::new();
    for (said, numbered) in OPENED {
        let sheets = sizes.each_ref().map(|draft| Named::of(said, refused_last(numbered(draft.clone()))));
        columns.push(bench.each(&sheets, &Call::Topology)?);
    }
    let [rising, falling, shuffled, apart, adversarial] = OPENED.map(|(said, _)| said);
    table("Opening alone, ns per byte", ["bytes", rising, falling, shuffled, apart, adversarial]);
    for (size, length) in lengths.iter().enumerate() {
        let cell = |column: usize| number(1e3 * columns[column][size].median() / length);
        row([grouped(*length as u64), cell(0), cell(1), cell(2), cell(3), cell(4)]);
    }
    println!("\nLinear: a byte of 64 KB takes at most twice the time of a byte of 4 KB.");
    for (times, (said, _)) in columns.iter().zip(OPENED) {
        let growth = times[6].over(&times[2]) * lengths[2] / lengths[6];
        let met = bench.report.goal(&format!("opening, {said}, growth per byte"), growth, 2.0);
        println!("- {said}: {} times, {met}", number(growth));
    }
    Ok(())
}

pub fn kuhn(bench: &mut Bench) -> Done<()> {
    table("Kuhn poker, 1,000,000 iterations, ms", ["variant", "ours", "the Rust's", "ratio", "goal"]);
    let nothing = Named::new("no sheet", Vec::new());
    let usual = bench.budget;
    bench.budget *= 8;
    for variant in VARIANTS {
        let [ours, theirs] = bench.both(&nothing, &Call::Kuhn { variant, iterations: 1_000_000 })?;
        let ratio = ours.over(&theirs);
        let met = bench.report.goal(&format!("Kuhn, {variant:?}, ratio"), ratio, 0.6);
        let [ours, theirs] = [ours, theirs].map(|times| number(times.median() / 1e3));
        row([format!("{variant:?}"), ours, theirs, number(ratio), format!("0.6: {met}")]);
    }
    bench.budget = usual;
    Ok(())
}

/// The stack that each call needs on the sheet that takes it deepest.
pub fn stacks(bench: &mut Bench) -> Done<()> {
    table("Stack", ["call", "sheet", "KB", "goal"]);
    let empty = stack::deepest("an empty call")?;
    for (case, sheet, stated, ..) in stack::cases() {
        let need = (empty - stack::deepest(case)?).div_ceil(1 << 10) as u64;
        let met = bench.report.goal(&format!("{case}, KB of stack"), need as f64, stated as f64);
        row([case.to_owned(), sheet.to_owned(), grouped(need), format!("{stated}: {met}")]);
    }
    Ok(())
}

/// The library against itself: how far a ratio is off.
pub fn noise(bench: &mut Bench) {
    let bytes = full_tree(7, 2, Kinds::Decisions).encode();
    let solve = || {
        ours::run(&SOLVE, &bytes, &mut []);
    };
    let ratio = |_| {
        let [one, other] = in_turn([&mut { solve }, &mut { solve }], bench.budget / 4);
        one.over(&other)
    };
    let mut ratios: Vec<f64> = (0..9).map(ratio).collect();
    ratios.sort_by(f64::total_cmp);
    bench.report.print_noise();
    println!("The library against itself, nine times, gives ratios from {:.3} to {:.3}.", ratios[0], ratios[8]);
}
