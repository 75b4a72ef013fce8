//! The slowest sheets of each call, among those built to be slow and those that a search finds.

use crate::answer::KINDS;
use crate::bench::{Bench, Done, Named};
use crate::draft::field;
use crate::numbering::crowded;
use crate::random::Random;
use crate::report::{grouped, number, row, table, time};
use crate::worst::{any, calls, list, CALLS};
use std::cmp::Reverse;
use std::fs;
use std::time::{Duration, Instant};

/// No call may take longer, in microseconds, but for a listing that is written.
const MOST: f64 = 20_000.0;

/// So many sheets of each call, slow at first sight, are timed well.
const KEPT: usize = 3;

/// The slowest sheets of each call so far, with their times at first sight.
type Slowest = [Vec<(Duration, Named)>; CALLS];

pub fn slowest(bench: &mut Bench) -> Done<()> {
    let mut slowest = Slowest::default();
    let built = list();
    let count = built.len();
    for (name, bytes) in built {
        sight(bench, &mut slowest, &name, bytes)?;
    }
    let (start, mut found) = (Instant::now(), 0);
    while start.elapsed() < bench.search {
        let draft = any(&mut Random::new(1, found));
        // one in two has an adversary's numbering
        let (said, draft) = if found % 2 == 1 { (", an adversary's numbering", crowded(draft)) } else { ("", draft) };
        sight(bench, &mut slowest, &format!("found, seed {found}{said}"), draft.encode())?;
        found += 1;
    }
    table("The slowest sheet of each call", ["call", "sheet", "bytes", "answer", "ours", "the Rust's", "under 20 ms"]);
    for (number, sheets) in slowest.iter().enumerate() {
        print(bench, number, sheets)?;
    }
    println!(
        "\nAmong {count} sheets that were built to be slow and {} that a search made. An adversary's \
         numbering makes entities share their places in the library's tables: one in four of the first and one in two of \
         the others have it.",
        grouped(found)
    );
    Ok(())
}

/// Makes every call on a sheet, and keeps it where it is among the slowest.
fn sight(bench: &mut Bench, slowest: &mut Slowest, name: &str, bytes: Vec<u8>) -> Done<()> {
    for (call, slowest) in calls(field(&bytes, 8)).iter().zip(slowest) {
        let least = slowest.get(KEPT - 1).map_or(Duration::ZERO, |&(took, _)| took);
        // the second and third calls rule out that the first was slow by chance
        let mut took = Duration::MAX;
        for _ in 0..3 {
            took = took.min(bench.once(call, &bytes));
            if took < least {
                break;
            }
        }
        if took < least {
            continue;
        }
        let named = Named::new(name, bytes.clone());
        bench.check(&named, call)?;
        slowest.push((took, named));
        slowest.sort_by_key(|&(took, _)| Reverse(took));
        slowest.truncate(KEPT);
    }
    Ok(())
}

/// Prints the slowest of a call's sheets, and keeps it as a file.
fn print(bench: &mut Bench, number_of_call: usize, sheets: &[(Duration, Named)]) -> Done<()> {
    let mut times = Vec::new();
    for (_, named) in sheets {
        times.push((bench.alone(named, &calls(named.root())[number_of_call])?, named));
    }
    let (took, named) = times.into_iter().max_by(|one, other| one.0.total_cmp(&other.0)).ok_or("no sheet")?;
    let call = &calls(named.root())[number_of_call];
    let theirs = match bench.check(named, call)? {
        true => time(&bench.both(named, call)?[1]),
        false => "-".to_owned(),
    };
    let (kind, answer) = (KINDS[call.kind()], named.answer(call));
    let (file, met) = match answer.as_str() {
        "listing" => (format!("slowest-{kind}-written.kgs"), "a listing is written"),
        _ => (format!("slowest-{kind}.kgs"), bench.report.goal(&format!("{kind}, {}, µs", named.name), took, MOST)),
    };
    fs::write(bench.folder.join(file), named.bytes())?;
    row([
        kind.to_owned(),
        named.name.clone(),
        grouped(named.bytes().len() as u64),
        answer,
        number(took),
        theirs,
        met.to_owned(),
    ]);
    Ok(())
}
