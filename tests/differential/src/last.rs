//! The sheet that is next, kept as last.kgs for the case that a call on it does not come back.

use std::fs::File;
use std::io;
use std::os::unix::fs::FileExt;
use std::path::Path;

pub struct Last(File);

impl Last {
    pub fn new(folder: &Path) -> io::Result<Last> {
        File::create(folder.join("last.kgs")).map(Last)
    }

    /// The file is written over and not made anew, which is cheap.
    pub fn keep(&self, sheet: &[u8]) -> io::Result<()> {
        self.0.write_all_at(sheet, 0)?;
        self.0.set_len(sheet.len() as u64)
    }
}
