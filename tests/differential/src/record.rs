//! Puts calls to every side, counts what they had, and keeps the sheets on which the sides differ.

use crate::answer::Call;
use crate::judge::{verdict, Difference, Expected, Subject};
use crate::last::Last;
use crate::tally::Tally;
use std::fs;
use std::io;
use std::path::PathBuf;

pub struct Record {
    folder: PathBuf,
    last: Last,
    pub tally: Tally,
    /// Calls in which the Rust was asked.
    asked: u64,
    /// Calls in which it was not because its walk is too long.
    too_long: u64,
    pub differences: u64,
}

impl Record {
    /// A record that keeps sheets in this folder.
    pub fn new(folder: PathBuf) -> io::Result<Record> {
        let last = Last::new(&folder)?;
        Ok(Record { folder, last, tally: Tally::default(), asked: 0, too_long: 0, differences: 0 })
    }

    /// Opens a sheet, which stays behind if a side does not come back.
    pub fn open(&self, bytes: Vec<u8>) -> io::Result<Subject> {
        self.last.keep(&bytes)?;
        Ok(Subject::new(bytes))
    }

    /// Puts the call to every side. The answer is `None` where they differ.
    pub fn put(&mut self, subject: &Subject, call: &Call, name: &str) -> io::Result<Option<Expected>> {
        match verdict(subject, call) {
            Ok(expected) => {
                self.tally.add(call, &expected.answer);
                self.asked += u64::from(expected.asked);
                self.too_long += u64::from(expected.too_long);
                Ok(Some(expected))
            }
            Err(difference) => {
                self.differ(subject, call, name, difference)?;
                Ok(None)
            }
        }
    }

    /// Reports a difference and keeps its sheet.
    pub fn differ(&mut self, subject: &Subject, call: &Call, name: &str, difference: Difference) -> io::Result<()> {
        self.differences += 1;
        let kept = self.folder.join(format!("difference-{}.kgs", self.differences));
        fs::write(&kept, &subject.bytes)?;
        println!("difference {}: {name}, {call:?}, sheet {}\n{difference}", self.differences, kept.display());
        Ok(())
    }

    /// Prints how many calls had each refusal number, and in how many the Rust was asked.
    pub fn print(&self) {
        print!("{}", self.tally);
        let (calls, asked, too_long) = (self.tally.calls(), self.asked, self.too_long);
        println!(
            "{calls} calls agree; the Rust was asked in {asked}; {too_long} went unasked since its walk is too long"
        );
    }
}
