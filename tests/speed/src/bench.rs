//! A call on a sheet, its answer compared and then timed on one side or on both.

use crate::answer::{Call, KINDS};
use crate::clock::{in_turn, Times};
use crate::draft::{field, Draft};
use crate::judge::{self, Difference, Subject};
use crate::oracle::{Outcome, Stores};
use crate::report::{grouped, number, row, time, Report};
use crate::sheet::{Sheet, TRANSITIONS};
use crate::worst::AMPLE;
use crate::{library, ours, rust};
use std::error::Error;
use std::path::PathBuf;
use std::time::{Duration, Instant};

/// A result that ends the run if it is an error.
pub type Done<T> = Result<T, Box<dyn Error>>;

/// A Rust call of this length is timed once, when its answer is compared.
const LONG: Duration = Duration::from_millis(500);

/// A sheet by its name.
pub struct Named {
    pub name: String,
    /// The rows of transitions: each edge has one.
    pub edges: usize,
    pub subject: Subject,
}

impl Named {
    pub fn new(name: impl Into<String>, bytes: Vec<u8>) -> Named {
        let edges = Sheet::lay_out(&bytes).map_or(0, |sheet| sheet.rows(TRANSITIONS));
        Named { name: name.into(), edges, subject: Subject::new(bytes) }
    }

    pub fn of(name: impl Into<String>, draft: Draft) -> Named {
        Named::new(name, draft.encode())
    }

    pub fn bytes(&self) -> &[u8] {
        &self.subject.bytes
    }

    pub fn root(&self) -> u32 {
        field(&self.subject.bytes, 8)
    }

    /// What the library answers, in a word.
    pub fn answer(&self, call: &Call) -> String {
        match (library::answer(call, self.bytes()).refusal().number, call) {
            (0, Call::Solve { .. } | Call::SolvePlain { .. }) => "solution".to_owned(),
            (0, Call::Paths { .. } | Call::Sets { .. }) => "listing".to_owned(),
            (0, _) => "passed".to_owned(),
            (number, _) => number.to_string(),
        }
    }
}

pub struct Bench {
    pub folder: PathBuf,
    pub report: Report,
    /// How long a measurement takes.
    pub budget: Duration,
    /// How long slow sheets are searched.
    pub search: Duration,
    /// The levels of the longest chain that the Rust is given.
    pub longest_chain: u32,
    /// Lent to every call.
    buffer: Vec<u64>,
}

impl Bench {
    pub fn new(folder: PathBuf, quick: bool) -> Bench {
        let millis = |full, less| Duration::from_millis(if quick { less } else { full });
        Bench {
            folder,
            report: Report::default(),
            budget: millis(200, 40),
            search: millis(8_000, 2_000),
            longest_chain: if quick { 18 } else { 24 },
            buffer: vec![0; AMPLE],
        }
    }

    /// Fails unless the library's answer is the reference's and, where the Rust ends soon, the Rust's; whether it does.
    pub fn check(&self, named: &Named, call: &Call) -> Done<bool> {
        let said = |Difference([(side, said), (other, they_said)]): Difference| {
            format!("{}, {call:?}: {side}: {said}; {other}: {they_said}", named.name)
        };
        let expected = judge::expected(&named.subject, call).map_err(said)?;
        let ours = library::answer(call, named.bytes());
        match Difference::between(["expected", "the library"], [&expected.answer, &ours]) {
            Some(difference) => Err(said(difference).into()),
            None => Ok(expected.asked),
        }
    }

    /// One call's time.
    pub fn once(&mut self, call: &Call, bytes: &[u8]) -> Duration {
        let start = Instant::now();
        ours::run(call, bytes, &mut self.buffer);
        start.elapsed()
    }

    /// The library's median time.
    pub fn alone(&mut self, named: &Named, call: &Call) -> Done<f64> {
        Ok(self.times(named, call)?.median())
    }

    /// The library's times.
    fn times(&mut self, named: &Named, call: &Call) -> Done<Times> {
        self.check(named, call)?;
        let buffer = &mut self.buffer;
        let mut ours = || {
            ours::run(call, named.bytes(), buffer);
        };
        let times = in_turn([&mut ours], self.budget);
        self.report.note(&times);
        let [times] = times;
        Ok(times)
    }

    /// The library's times on each of some sheets, taken in turn, of a call that is lent nothing.
    pub fn each<const N: usize>(&mut self, sheets: &[Named; N], call: &Call) -> Done<[Times; N]> {
        for named in sheets {
            self.check(named, call)?;
        }
        let mut runs = sheets.each_ref().map(|named| {
            move || {
                ours::run(call, named.bytes(), &mut []);
            }
        });
        let times = in_turn(runs.each_mut().map(|run| run as &mut dyn FnMut()), self.budget * N as u32);
        self.report.note(&times);
        Ok(times)
    }

    /// The library's times and the Rust's.
    pub fn both(&mut self, named: &Named, call: &Call) -> Done<[Times; 2]> {
        self.check(named, call)?;
        let none = Stores::default();
        let stores = match (&named.subject.stores, call) {
            (_, Call::Kuhn { .. }) => &none,
            (Ok(stores), _) => stores,
            (Err(refusal), _) => return Err(format!("{}: refused by {}", named.name, refusal.number).into()),
        };
        if let Some(long) = compare(named, stores, call)? {
            return Ok([self.times(named, call)?, long]);
        }
        let buffer = &mut self.buffer;
        let mut ours = || {
            ours::run(call, named.bytes(), buffer);
        };
        let times = in_turn([&mut ours, &mut || rust::run(stores, call)], self.budget);
        self.report.note(&times);
        Ok(times)
    }

    /// A row with both times; the ratio is held to a goal.
    pub fn ratio(&mut self, named: &Named, call: &Call, most: f64) -> Done<()> {
        let what = format!("{}, {}, ratio", KINDS[call.kind()], named.name);
        self.row(named, call, |report, ratio| format!("{most:.1}: {}", report.goal(&what, ratio, most)))
    }

    /// A row with both times that no goal holds.
    pub fn no_goal(&mut self, named: &Named, call: &Call) -> Done<()> {
        self.row(named, call, |_, _| "none".to_owned())
    }

    /// A row with both times and why the ratio is not reached; where it is, the row says that too.
    pub fn not_reached(&mut self, named: &Named, call: &Call, most: f64, why: &str) -> Done<()> {
        self.row(named, call, |_, ratio| format!("{}{why}", if ratio <= most { "**Reached here.** " } else { "" }))
    }

    fn row(&mut self, named: &Named, call: &Call, last: impl FnOnce(&mut Report, f64) -> String) -> Done<()> {
        let [ours, theirs] = self.both(named, call)?;
        let ratio = ours.over(&theirs);
        row([
            named.name.clone(),
            KINDS[call.kind()].to_owned(),
            grouped(named.edges as u64),
            grouped(named.bytes().len() as u64),
            time(&ours),
            time(&theirs),
            number(ratio),
            last(&mut self.report, ratio),
        ]);
        Ok(())
    }
}

/// Fails unless the Rust answers as the library does; its time if that was long. Kuhn, which has no sheet, is compared
/// by `check` already.
fn compare(named: &Named, stores: &Stores, call: &Call) -> Done<Option<Times>> {
    if let Call::Kuhn { .. } = call {
        return Ok(None);
    }
    let start = Instant::now();
    let theirs = stores.answer(call);
    let took = start.elapsed();
    match theirs {
        Outcome::Answered(theirs) if theirs == library::answer(call, named.bytes()) => {
            Ok((took > LONG).then(|| Times(vec![took.as_secs_f64() * 1e6])))
        }
        _ => Err(format!("{}, {call:?}: the Rust answers otherwise", named.name).into()),
    }
}
