//! Differential runs: the proved library, the unchanged Rust and a reference by the rules of docs/, on the same bytes.
//!
//! Usage: differential FOLDER run SEED COUNT
//!        differential FOLDER vectors FILE
//!        differential FOLDER sheet FILE START LIMIT [ROOM]
//!
//! Sheets that show a difference are kept in FOLDER. Built without a library, reference and Rust are compared alone.

mod answer;
mod damage;
mod draft;
mod fixed;
mod generate;
mod judge;
mod last;
#[cfg(library)]
mod library;
mod oracle;
mod random;
mod record;
mod reference;
mod sheet;
mod tally;
mod vectors;

use answer::{Answer, Call, VARIANTS};
use damage::Harm;
use draft::Draft;
use fixed::Says;
use judge::{show, verdict, Difference, Expected, Subject};
use random::Random;
use record::Record;
use std::error::Error;
use std::fs;
use std::path::PathBuf;
use std::process::ExitCode;
use vectors::Vectors;

const USAGE: &str = "usage: differential FOLDER run SEED COUNT | vectors FILE | sheet FILE START LIMIT [ROOM]";

/// Differences after which a run stops.
const ENOUGH: u64 = 10;

/// Paths and sets are given room for at most so many u64s.
const MOST_ROOM: u64 = 20_000;

fn main() -> Result<ExitCode, Box<dyn Error>> {
    oracle::silence_expected_panic();
    let words: Vec<String> = std::env::args().skip(1).collect();
    let words: Vec<&str> = words.iter().map(String::as_str).collect();
    let agreed = match words[..] {
        [folder, "run", seed, count] => run(folder.into(), seed.parse()?, count.parse()?)?,
        [folder, "vectors", file] => store(folder.into(), file)?,
        [_, "sheet", file, start, limit] => show_sheet(file, start.parse()?, limit.parse()?, None)?,
        [_, "sheet", file, start, limit, room] => {
            show_sheet(file, start.parse()?, limit.parse()?, Some(room.parse()?))?
        }
        _ => return Err(USAGE.into()),
    };
    Ok(if agreed { ExitCode::SUCCESS } else { ExitCode::FAILURE })
}

/// The fixed list, then generated sheets and some Kuhn calls.
fn run(folder: PathBuf, seed: u64, count: u64) -> Result<bool, Box<dyn Error>> {
    let mut record = Record::new(folder.clone())?;
    put_fixed(&mut record, |_, _, _| ())?;
    if record.differences > 0 {
        return Ok(false);
    }
    println!("the fixed list");
    record.print();

    let mut record = Record::new(folder)?;
    for index in 0..count {
        let mut random = Random::new(seed, index);
        let harm = any_harm(&mut random);
        let (draft, bytes) = damage::make(harm, &mut random);
        let subject = record.open(bytes)?;
        for call in calls(&draft, &subject, &mut random) {
            record.put(&subject, &call, &format!("seed {seed}, sheet {index}"))?;
        }
        if record.differences >= ENOUGH {
            break;
        }
    }
    put_kuhn(&mut record, seed, count)?;
    println!("seed {seed}, {count} sheets");
    record.print();
    Ok(record.tally.reached_all(count) && record.differences == 0)
}

/// Some calls of Kuhn poker.
fn put_kuhn(record: &mut Record, seed: u64, count: u64) -> Result<(), Box<dyn Error>> {
    let mut random = Random::new(seed, count);
    let nothing = record.open(Vec::new())?;
    for _ in 0..12 {
        let most = random.pick(&[10, 300, 3_000]);
        let past = 1_000_001 + random.next() % 1_000;
        let iterations = if random.one_in(4) { past } else { random.below(most) as u64 };
        let call = Call::Kuhn { variant: random.pick(&VARIANTS), iterations };
        record.put(&nothing, &call, &format!("seed {seed}"))?;
    }
    Ok(())
}

/// Puts the fixed list to every side and to what the list states; `found` is given each case's sheet, call and answer.
fn put_fixed(record: &mut Record, mut found: impl FnMut(&[u8], &Call, &Expected)) -> Result<(), Box<dyn Error>> {
    for case in fixed::list() {
        if record.differences >= ENOUGH {
            break;
        }
        let subject = record.open(case.sheet)?;
        let Some(expected) = record.put(&subject, &case.call, case.name)? else { continue };
        if let Some(difference) = unlike(&case.says, &case.call, &expected.answer) {
            record.differ(&subject, &case.call, case.name, difference)?;
        }
        found(&subject.bytes, &case.call, &expected);
    }
    Ok(())
}

/// How the answer that every side gave differs from what the list states, if it does.
fn unlike(says: &Says, call: &Call, answer: &Answer) -> Option<Difference> {
    let sides = ["the list", "every side"];
    match says {
        Says::Refused(refusal) => Difference::between(sides, [&call.refused(*refusal), answer]),
        Says::Answered(said) => Difference::between(sides, [said, answer]),
        Says::Accepted if answer.refusal().number == 0 => None,
        Says::Accepted => Some(Difference([(sides[0], "no refusal".to_owned()), (sides[1], show(&answer.words()))])),
    }
}

/// What is done to a sheet: to half of them nothing.
fn any_harm(random: &mut Random) -> Harm {
    match random.below(10) {
        0..=4 => Harm::None,
        5..=7 => Harm::Rows,
        8 => Harm::Bytes,
        _ => Harm::Both,
    }
}

/// Calls on a sheet: starts and limits of all kinds, buffers that are just long enough, one short, or anything.
fn calls(draft: &Draft, subject: &Subject, random: &mut Random) -> Vec<Call> {
    let places = [(); 5].map(|_| damage::any_place(draft, random));
    let mut room = |words: Option<u64>| match words.filter(|&words| words <= MOST_ROOM) {
        Some(words) => match random.below(6) {
            0 => random.below(words as usize + 1),
            1 | 2 => (words as usize).saturating_sub(1),
            3 => words as usize + random.below(9),
            _ => words as usize,
        },
        None => random.pick(&[0, 1, 40]),
    };
    let game = subject.game.as_ref().ok();
    let mut calls = vec![Call::Solve { start: draft.root, limit: 0 }, Call::Topology];
    calls.extend(places[..2].iter().map(|&(start, limit)| Call::Solve { start, limit }));
    calls.push(Call::SolvePlain { start: places[2].0, limit: places[2].1 });
    for (start, limit) in [places[3], places[4]] {
        let room = room(game.and_then(|game| game.path_words(start, limit)));
        calls.push(Call::Paths { start, limit, room });
    }
    let words = game.and_then(|game| game.set_words().ok());
    calls.push(Call::Sets { room: room(words.map(|words| words.len() as u64)) });
    calls
}

/// Writes the fixed list with its answers.
fn store(folder: PathBuf, file: &str) -> Result<bool, Box<dyn Error>> {
    let mut record = Record::new(folder)?;
    let mut vectors = Vectors::default();
    put_fixed(&mut record, |sheet, call, expected| vectors.add(sheet, call, expected))?;
    let unreached = record.tally.unreached();
    if record.differences > 0 || !unreached.is_empty() {
        println!("not written; refusal numbers not reached: {unreached:?}");
        return Ok(false);
    }
    let bytes = vectors.finish();
    println!("{file}: {} bytes, {} cases; the Rust was asked in {}", bytes.len(), vectors.cases, vectors.asked);
    fs::write(file, bytes)?;
    Ok(true)
}

/// Shows what every call on a kept sheet answers; nothing is kept. The room of a listing, where none is given, is what
/// it needs.
fn show_sheet(file: &str, start: u32, limit: u64, room: Option<usize>) -> Result<bool, Box<dyn Error>> {
    let subject = Subject::new(fs::read(file)?);
    let needed = || {
        let words = subject.game.as_ref().ok().and_then(|game| game.path_words(start, limit));
        words.unwrap_or(0).min(MOST_ROOM) as usize
    };
    let calls = [
        Call::Solve { start, limit },
        Call::SolvePlain { start, limit },
        Call::Paths { start, limit, room: room.unwrap_or_else(needed) },
        Call::Sets { room: room.unwrap_or(MOST_ROOM as usize) },
        Call::Topology,
    ];
    let mut agreed = true;
    for call in calls {
        match verdict(&subject, &call) {
            Ok(expected) => println!("{call:?}\n  {}", show(&expected.answer.words())),
            Err(difference) => {
                println!("{call:?}, a difference\n{difference}");
                agreed = false;
            }
        }
    }
    Ok(agreed)
}
