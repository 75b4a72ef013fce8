//! Damaged sheets through every call of the library: each call comes back, and its answer has no fault that shows by
//! itself (check.rs). A listing that was written is asked for again with a buffer just long enough, and with one that
//! is one element short.
//!
//! Usage: damage FOLDER run SEED COUNT        eight elements after a lent buffer must stay as they were
//!        damage FOLDER exact SEED COUNT      a lent buffer is an allocation of its own, for valgrind
//!        damage FOLDER threads SEED COUNT    four threads at once must give the answers of one
//!
//! COUNT is that of the sheets whose bytes are damaged; half as many come besides that have only rows changed.
//! A sheet is always an allocation of its own, exactly as long as it is. One that shows a fault is kept in FOLDER.

#[allow(dead_code)]
#[path = "../../differential/src/answer.rs"]
mod answer;
mod check;
#[allow(dead_code)]
#[path = "../../differential/src/damage.rs"]
mod damage;
#[allow(dead_code)]
#[path = "../../differential/src/draft.rs"]
mod draft;
#[path = "../../differential/src/generate.rs"]
mod generate;
#[path = "../../differential/src/last.rs"]
mod last;
#[allow(dead_code)]
#[path = "../../differential/src/library.rs"]
mod library;
#[path = "../../differential/src/random.rs"]
mod random;
#[allow(dead_code)]
#[path = "../../differential/src/sheet.rs"]
mod sheet;
#[path = "../../differential/src/tally.rs"]
mod tally;
mod threads;

use answer::{lent, Answer, Call, VARIANTS};
use check::{check, Fault};
use damage::Harm;
use draft::Draft;
use last::Last;
use random::Random;
use std::error::Error;
use std::fs;
use std::path::Path;
use std::process::ExitCode;
use std::time::Instant;
use tally::Tally;

/// The first sheets of a run, so many of them, come with a call of each variant of Kuhn poker.
const KUHN_SHEETS: u64 = 100;

/// What is done to sheet `index`. Damaged bytes seldom open, so that every third sheet has only rows changed.
fn harm(index: u64) -> Harm {
    [Harm::Bytes, Harm::Both, Harm::Rows][index as usize % 3]
}

/// How many sheets there are in a run in which so many have damaged bytes.
fn sheets(damaged: u64) -> u64 {
    damaged + damaged / 2
}

/// A damaged sheet and the calls on it.
struct Subject {
    bytes: Box<[u8]>,
    calls: Vec<Call>,
}

/// A call whose answer has a fault.
struct Faulty {
    call: Call,
    fault: Fault,
}

impl Subject {
    /// Sheet `index` under a seed.
    fn new(seed: u64, index: u64) -> Subject {
        let random = &mut Random::new(seed, index);
        let (draft, bytes) = damage::make(harm(index), random);
        let mut calls = calls(&draft, random).to_vec();
        if index < KUHN_SHEETS {
            calls.extend(kuhn_calls(index, random));
        }
        Subject { bytes: bytes.into_boxed_slice(), calls }
    }

    /// The answers to the calls, and to those that ask for a listing again.
    fn answers(&self, exact: bool) -> Result<Vec<(Call, Answer)>, Faulty> {
        let mut answers = Vec::new();
        for call in &self.calls {
            let answer = put(call, &self.bytes, exact)?;
            let again = listed_again(call, &answer);
            answers.push((*call, answer));
            for (call, expected) in again {
                let answer = put(&call, &self.bytes, exact)?;
                if answer.words() != expected {
                    return Err(Faulty { call, fault: "the listing depends on the room" });
                }
                answers.push((call, answer));
            }
        }
        Ok(answers)
    }
}

/// Calls for a listing that was written, with just the room that it needs and with one element less, and the words
/// that each must give.
fn listed_again(call: &Call, answer: &Answer) -> Vec<(Call, Vec<u64>)> {
    let Answer::Written(written, _) = answer else { return Vec::new() };
    let count = written.count as usize;
    if count == 0 {
        return Vec::new();
    }
    let with = |room| match *call {
        Call::Paths { start, limit, .. } => Call::Paths { start, limit, room },
        _ => Call::Sets { room },
    };
    vec![(with(count), answer.words()), (with(count - 1), vec![26, count as u64 - 1, 0, 0, 0])]
}

/// The library's answer, with no fault that shows by itself.
fn put(call: &Call, sheet: &[u8], exact: bool) -> Result<Answer, Faulty> {
    let mut buffer = lent(call.room());
    if exact {
        buffer.truncate(call.room());
        buffer.shrink_to_fit();
    }
    let answer = library::answer_in(call, sheet, buffer);
    match check(call, sheet, &answer) {
        Ok(()) => Ok(answer),
        Err(fault) => Err(Faulty { call: *call, fault }),
    }
}

/// The five calls on a sheet.
fn calls(draft: &Draft, random: &mut Random) -> [Call; 5] {
    let [solve, plain, paths] = [(); 3].map(|_| damage::any_place(draft, random));
    let [path_room, set_room] = [(); 2].map(|_| random.pick(&[0, 1, 4, 12, 60, 400, 5_000]));
    [
        Call::Solve { start: solve.0, limit: solve.1 },
        Call::SolvePlain { start: plain.0, limit: plain.1 },
        Call::Paths { start: paths.0, limit: paths.1, room: path_room },
        Call::Sets { room: set_room },
        Call::Topology,
    ]
}

/// A call of each variant of Kuhn poker: with the most iterations first, then with few or with too many.
fn kuhn_calls(index: u64, random: &mut Random) -> [Call; 3] {
    let small = random.below(200) as u64;
    let iterations = match index % 10 {
        _ if index == 0 => 1_000_000,
        8 => 1_000_001 + small,
        9 => u64::MAX - small,
        _ => small,
    };
    VARIANTS.map(|variant| Call::Kuhn { variant, iterations })
}

fn main() -> Result<ExitCode, Box<dyn Error>> {
    let words: Vec<String> = std::env::args().skip(1).collect();
    let [folder, mode, seed, count] = &words[..] else {
        return Err("usage: damage FOLDER run|exact|threads SEED COUNT".into());
    };
    let (folder, seed, count) = (Path::new(folder), seed.parse()?, count.parse()?);
    let begun = Instant::now();
    let mut tally = Tally::default();
    let outcome = match mode.as_str() {
        "threads" => threads::run(seed, sheets(count), &mut tally),
        mode => run(&Last::new(folder)?, mode == "exact", seed, sheets(count), &mut tally)?,
    };
    if let Err((index, Faulty { call, fault })) = outcome {
        let kept = folder.join("fault.kgs");
        fs::write(&kept, &Subject::new(seed, index).bytes)?;
        println!("{fault}: seed {seed}, sheet {index}, {call:?}, kept as {}", kept.display());
        return Ok(ExitCode::FAILURE);
    }
    print!("{tally}");
    let changed = sheets(count) - count;
    println!("damage: {mode}, seed {seed}: {count} sheets with damaged bytes, {changed} with only rows changed");
    let again = if mode == "threads" { ", each made again by four threads at once, twice" } else { "" };
    let (calls, kuhn, seconds) = (tally.calls(), KUHN_SHEETS.min(sheets(count)), begun.elapsed().as_secs_f64());
    println!("{calls} calls without a fault, {kuhn} of each variant of Kuhn poker{again}; {seconds:.0} s");
    Ok(if tally.reached_all(count) { ExitCode::SUCCESS } else { ExitCode::FAILURE })
}

/// What became of a run: the number of a sheet that shows a fault, and the fault.
type Outcome = Result<(), (u64, Faulty)>;

/// One thread over all sheets. The last one stays behind if the library does not come back.
fn run(last: &Last, exact: bool, seed: u64, sheets: u64, tally: &mut Tally) -> std::io::Result<Outcome> {
    for index in 0..sheets {
        let subject = Subject::new(seed, index);
        last.keep(&subject.bytes)?;
        match subject.answers(exact) {
            Ok(answers) => answers.iter().for_each(|(call, answer)| tally.add(call, answer)),
            Err(faulty) => return Ok(Err((index, faulty))),
        }
    }
    Ok(Ok(()))
}
