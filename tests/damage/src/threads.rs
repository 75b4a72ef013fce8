//! Four threads at once against the answers of one, bit by bit: first all on the same sheets in the same order, then
//! each on copies of its own from another place of the list.

use crate::answer::{Answer, Call};
use crate::tally::Tally;
use crate::{put, Faulty, Outcome, Subject};
use std::sync::Barrier;
use std::thread;

const THREADS: usize = 4;

/// Sheets whose answers are kept at a time.
const BATCH: u64 = 1_000;

/// A sheet with the answers that one thread got.
struct Answered {
    index: u64,
    bytes: Box<[u8]>,
    answers: Vec<(Call, Answer)>,
}

pub fn run(seed: u64, sheets: u64, tally: &mut Tally) -> Outcome {
    let mut from = 0;
    while from < sheets {
        let to = sheets.min(from + BATCH);
        let mut list = Vec::new();
        for index in from..to {
            let subject = Subject::new(seed, index);
            let answers = subject.answers(false).map_err(|faulty| (index, faulty))?;
            answers.iter().for_each(|(call, answer)| tally.add(call, answer));
            list.push(Answered { index, bytes: subject.bytes, answers });
        }
        at_once(&list, false)?;
        at_once(&list, true)?;
        from = to;
    }
    Ok(())
}

/// Four threads over the list, on the sheets themselves or on copies.
fn at_once(list: &[Answered], apart: bool) -> Outcome {
    let barrier = &Barrier::new(THREADS);
    thread::scope(|scope| {
        let threads: Vec<_> = (0..THREADS)
            .map(|thread| {
                scope.spawn(move || {
                    barrier.wait();
                    let first = if apart { thread * list.len() / THREADS } else { 0 };
                    let turned = list[first..].iter().chain(&list[..first]);
                    turned.map(|answered| compare(answered, apart)).collect::<Outcome>()
                })
            })
            .collect();
        threads.into_iter().map(|thread| thread.join().expect("a thread that ends")).collect()
    })
}

/// The same calls on a sheet, or on a copy of it, give the same words. Members that `words` leaves out are 0 and
/// elements of a buffer that it leaves out are unchanged, by `check`.
fn compare(answered: &Answered, copy: bool) -> Outcome {
    let copied = copy.then(|| answered.bytes.clone());
    let sheet = copied.as_ref().unwrap_or(&answered.bytes);
    for (call, expected) in &answered.answers {
        let answer = put(call, sheet, false).map_err(|faulty| (answered.index, faulty))?;
        if answer.words() != expected.words() {
            return Err((answered.index, Faulty { call: *call, fault: "another answer than one thread alone gets" }));
        }
    }
    Ok(())
}
