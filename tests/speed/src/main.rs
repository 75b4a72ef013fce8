//! Speed: the proved library against the unchanged Rust, both in one run, printed as markdown for docs/MEASUREMENTS.md.
//!
//! Usage: speed FOLDER run|quick          every table; status 1 if a goal is missed
//!        speed stack CASE FRAMES         one call below so many stack frames (see stack.rs)
//!        speed spin SHEET CALL COUNT     the library alone, for a profiler; SHEET is a file, or `tree N`,
//!                                        `chance N` (every second level), `shuffled N` (rows in no order) or `chain N`
//!
//! Ours is timed with the sheet's opening, the Rust's without the building of its stores. Before a call is timed, its
//! answer is compared with the reference's and with the Rust's. The slowest sheets are kept in FOLDER.

mod bench;
mod clock;
mod limits;
mod numbering;
mod ours;
mod report;
mod rust;
mod sheets;
mod slowest;
mod stack;
mod tables;
mod worst;

// The modules of the differential runs; some have more than is needed here.
#[allow(dead_code)]
#[path = "../../differential/src/answer.rs"]
mod answer;
#[allow(dead_code)]
#[path = "../../differential/src/draft.rs"]
mod draft;
#[allow(dead_code)]
#[path = "../../differential/src/judge.rs"]
mod judge;
#[path = "../../differential/src/library.rs"]
mod library;
#[path = "../../differential/src/oracle.rs"]
mod oracle;
#[allow(dead_code)]
#[path = "../../differential/src/random.rs"]
mod random;
#[allow(dead_code)]
#[path = "../../differential/src/reference.rs"]
mod reference;
#[path = "../../differential/src/sheet.rs"]
mod sheet;

use answer::Call;
use bench::{Bench, Done};
use sheets::{Kinds, Order};
use std::fs;
use std::path::Path;
use std::process::ExitCode;

fn main() -> Done<ExitCode> {
    oracle::silence_expected_panic();
    let words: Vec<String> = std::env::args().skip(1).collect();
    let words: Vec<&str> = words.iter().map(String::as_str).collect();
    match words[..] {
        [folder, mode @ ("run" | "quick")] => {
            let met = run(Bench::new(folder.into(), mode == "quick"))?;
            return Ok(if met { ExitCode::SUCCESS } else { ExitCode::FAILURE });
        }
        ["stack", case, frames] => stack::child(case, frames.parse()?)?,
        ["spin", name, call, count] => spin(name, call, count.parse()?)?,
        _ => return Err("usage: speed FOLDER run|quick | stack CASE FRAMES | spin SHEET CALL COUNT".into()),
    }
    Ok(ExitCode::SUCCESS)
}

/// Prints every table; whether all goals are met.
fn run(mut bench: Bench) -> Done<bool> {
    println!(
        "Times are medians in µs where no other unit is named, and one call's where a table says so. Ours is the call \
         with its opening, the Rust's its function alone."
    );
    let parts: [fn(&mut Bench) -> Done<()>; 7] = [
        tables::trees,
        limits::limits,
        tables::chains,
        tables::met_again,
        tables::opening,
        slowest::slowest,
        tables::kuhn,
    ];
    for part in parts {
        bench.report.baseline(bench.budget);
        part(&mut bench)?;
    }
    bench.report.baseline(bench.budget);
    tables::stacks(&mut bench)?;
    tables::noise(&mut bench);
    Ok(bench.report.print_goals())
}

/// Calls the library so many times on a sheet, from its root and with limit 64.
fn spin(name: &str, kind: &str, count: u64) -> Done<()> {
    let bytes = match name.split_once(' ') {
        _ if Path::new(name).exists() => fs::read(name)?,
        Some(("tree", levels)) => sheets::full_tree(levels.parse()?, 2, Kinds::Decisions).encode(),
        Some(("chance", levels)) => sheets::full_tree(levels.parse()?, 2, Kinds::InTurn).encode(),
        Some(("shuffled", levels)) => {
            let tree = sheets::full_tree(levels.parse()?, 2, Kinds::Decisions);
            sheets::arranged(tree, Order::Shuffled).encode()
        }
        Some(("chain", levels)) => sheets::chain(levels.parse()?, Kinds::Decisions).encode(),
        _ => return Err(format!("no sheet {name}").into()),
    };
    let start = draft::field(&bytes, 8);
    let call = match kind {
        "solve" => Call::Solve { start, limit: 64 },
        "plain" => Call::SolvePlain { start, limit: 64 },
        "paths" => Call::Paths { start, limit: 64, room: 0 },
        "sets" => Call::Sets { room: worst::AMPLE },
        "topology" => Call::Topology,
        _ => return Err(format!("no call {kind}").into()),
    };
    let mut buffer = vec![0; worst::AMPLE];
    for _ in 0..count {
        ours::run(&call, &bytes, &mut buffer);
    }
    Ok(())
}
