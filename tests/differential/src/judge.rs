//! Puts a call to every side and says whether they agree.

use crate::answer::{refusal, Answer, Call, Refusal};
use crate::oracle::{self, Outcome, Stores};
use crate::reference::{depth, Game, Walked};
use std::fmt;

/// The Rust, which keeps nothing of what it has solved, is not asked for a walk of more visits.
const MOST_VISITS: u64 = 2_000_000;

/// The greatest number of iterations that is not refused.
const MOST_ITERATIONS: u64 = 1_000_000;

/// A sheet, opened by the reference and by the Rust.
pub struct Subject {
    pub bytes: Vec<u8>,
    pub game: Result<Game, Refusal>,
    pub stores: Result<Stores, Refusal>,
}

impl Subject {
    pub fn new(bytes: Vec<u8>) -> Subject {
        let (game, stores) = (Game::open(&bytes), Stores::open(&bytes));
        Subject { bytes, game, stores }
    }
}

/// Two sides whose answers should be one, with what they say.
pub struct Difference(pub [(&'static str, String); 2]);

impl Difference {
    /// How two answers differ, if they do.
    pub fn between(sides: [&'static str; 2], answers: [&Answer; 2]) -> Option<Difference> {
        let [ours, theirs] = answers;
        if ours == theirs {
            return None;
        }
        let (words, their_words) = (ours.words(), theirs.words());
        let said = match answers {
            _ if words != their_words => {
                let [place, their_place] = first_difference(&words, &their_words);
                [format!("{}; word {place}", show(&words)), format!("{}; word {their_place}", show(&their_words))]
            }
            // the members in use are the same
            [Answer::Written(_, buffer), Answer::Written(_, their_buffer)] => {
                first_difference(buffer, their_buffer).map(|place| format!("buffer element {place}"))
            }
            _ => answers.map(|answer| format!("{answer:?}")),
        };
        let [said, they_said] = said;
        Some(Difference([(sides[0], said), (sides[1], they_said)]))
    }
}

impl fmt::Display for Difference {
    /// A line for each side.
    fn fmt(&self, f: &mut fmt::Formatter) -> fmt::Result {
        let [(side, answer), (other, other_answer)] = &self.0;
        write!(f, "  {side}: {answer}\n  {other}: {other_answer}")
    }
}

/// The first place where two lists differ, and what each has there.
fn first_difference(ours: &[u64], theirs: &[u64]) -> [String; 2] {
    let place = ours.iter().zip(theirs).take_while(|(ours, theirs)| ours == theirs).count();
    [ours, theirs].map(|words| match words.get(place) {
        Some(&word) => format!("{place} is {}", show(&[word])),
        None => format!("{place} is missing"),
    })
}

/// The answer that a call must have.
pub struct Expected {
    pub answer: Answer,
    /// Whether the Rust gave it too.
    pub asked: bool,
    /// Whether the Rust was left out because its walk is too long.
    pub too_long: bool,
}

/// An answer that the Rust has nothing to say about.
fn unasked(answer: Answer) -> Expected {
    Expected { answer, asked: false, too_long: false }
}

/// The answer that the reference and, where it answers, the Rust give.
pub fn expected(subject: &Subject, call: &Call) -> Result<Expected, Difference> {
    if let Some(refusal) = refused_unopened(call) {
        return Ok(unasked(call.refused(refusal)));
    }
    if let Call::Kuhn { variant, iterations } = *call {
        return Ok(Expected { answer: oracle::kuhn(variant, iterations), asked: true, too_long: false });
    }
    match (&subject.game, &subject.stores) {
        (Err(refusal), _) if refusal.number < 6 => Ok(unasked(call.refused(*refusal))),
        (Ok(game), Ok(stores)) => walked(game, stores, call),
        (game, stores) => {
            let ours = call.refused(game.as_ref().err().copied().unwrap_or_default());
            let theirs = call.refused(stores.as_ref().err().copied().unwrap_or_default());
            agreed(ours, Outcome::Answered(theirs))
        }
    }
}

/// What is refused before the sheet is looked at: 27 or 28.
fn refused_unopened(call: &Call) -> Option<Refusal> {
    match *call {
        Call::Solve { limit, .. } | Call::SolvePlain { limit, .. } | Call::Paths { limit, .. } => depth(limit).err(),
        Call::Kuhn { iterations, .. } if iterations > MOST_ITERATIONS => Some(refusal(28, [iterations])),
        Call::Sets { .. } | Call::Topology | Call::Kuhn { .. } => None,
    }
}

/// The answer to a call on a sheet that opens. The Rust, which has no limit, is not asked where the answer is 24.
fn walked(game: &Game, stores: &Stores, call: &Call) -> Result<Expected, Difference> {
    let Walked { answer, visits } = game.answer(call);
    if answer.refusal().number == 24 {
        return Ok(unasked(answer));
    }
    if visits > MOST_VISITS {
        return Ok(Expected { answer, asked: false, too_long: true });
    }
    agreed(answer, stores.answer(call))
}

/// The reference's answer, if the Rust gave it too; its panic stands for 25.
fn agreed(answer: Answer, theirs: Outcome) -> Result<Expected, Difference> {
    let sides = ["the reference", "the Rust"];
    let difference = match theirs {
        Outcome::Answered(theirs) => Difference::between(sides, [&answer, &theirs]),
        Outcome::OutOfRange if answer.refusal().number == 25 => None,
        Outcome::OutOfRange => {
            let panic = "a panic, out of range".to_owned();
            Some(Difference([(sides[0], show(&answer.words())), (sides[1], panic)]))
        }
    };
    match difference {
        Some(difference) => Err(difference),
        None => Ok(Expected { answer, asked: true, too_long: false }),
    }
}

/// The answer that a call must have, if the library gave it too.
pub fn verdict(subject: &Subject, call: &Call) -> Result<Expected, Difference> {
    let expected = expected(subject, call)?;
    compare_library(subject, call, &expected.answer)?;
    Ok(expected)
}

/// At most 100 words of an answer, small ones in decimal, the others in hexadecimal.
pub fn show(words: &[u64]) -> String {
    let shown: Vec<String> = words
        .iter()
        .take(100)
        .map(|word| if *word < 1_000_000 { format!("{word}") } else { format!("{word:#x}") })
        .collect();
    let more = if words.len() > 100 { " .." } else { "" };
    format!("{}{more}", shown.join(" "))
}

#[cfg(library)]
fn compare_library(subject: &Subject, call: &Call, answer: &Answer) -> Result<(), Difference> {
    let theirs = crate::library::answer(call, &subject.bytes);
    match Difference::between(["expected", "the library"], [answer, &theirs]) {
        Some(difference) => Err(difference),
        None => Ok(()),
    }
}

#[cfg(not(library))]
fn compare_library(_: &Subject, _: &Call, _: &Answer) -> Result<(), Difference> {
    Ok(())
}
