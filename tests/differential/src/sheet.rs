//! A sheet's layout and rows, read as docs/SHEET.md says: refusals 1 to 5, and the order in which 1 to 10 are looked
//! for. What 6 to 10 are is left to the two sides that use this: the reference says it by docs/REFUSALS.md, the Rust by
//! its constructors.

use crate::answer::{refusal, Refusal};
use std::collections::HashSet;

pub const NODES: usize = 0;
pub const CHILDREN: usize = 1;
pub const ACTIONS: usize = 2;
pub const CHANCES: usize = 3;
pub const TRANSITIONS: usize = 4;
pub const TERMINALS: usize = 5;
pub const PAYOFFS: usize = 6;
pub const SETS: usize = 7;
pub const LABELS: usize = 8;
pub const TEXT: usize = 9;

pub const HEADER: usize = 92;
pub const LONGEST: usize = 65_536;
pub const MARK: [u8; 4] = [0x4B, 0x47, 0x53, 0x31];

/// Bytes in a row, by section.
pub const WIDTHS: [usize; 10] = [12, 8, 12, 20, 8, 8, 8, 16, 8, 1];

/// Rows that a section has at most.
pub const LIMITS: [usize; 10] = [1024, 1024, 1024, 1024, 1024, 1024, 4096, 1024, 256, 4096];

/// The order in which sections' rows are checked.
pub const CHECKED: [usize; 10] = [8, 9, 0, 1, 2, 3, 4, 5, 6, 7];

/// Sections whose rows start with an entity that no other row of the section may have.
const KEYED: [usize; 7] = [0, 1, 2, 3, 4, 5, 7];

/// A sheet without a fault of 1 to 4.
pub struct Sheet<'a> {
    bytes: &'a [u8],
    starts: [usize; 10],
    rows: [usize; 10],
}

impl<'a> Sheet<'a> {
    /// Refusals 1 to 4.
    pub fn lay_out(bytes: &'a [u8]) -> Result<Self, Refusal> {
        if bytes.len() < HEADER || bytes.len() > LONGEST {
            return Err(refusal(1, [bytes.len() as u64]));
        }
        if bytes[..4] != MARK {
            return Err(refusal(2, []));
        }
        let edition = u16::from_le_bytes([bytes[4], bytes[5]]);
        if edition != 1 {
            return Err(refusal(3, [edition.into()]));
        }
        if bytes[6..8] != [0, 0] {
            return Err(refusal(4, [10]));
        }
        let mut sheet = Sheet { bytes, starts: [0; 10], rows: [0; 10] };
        let mut start = HEADER as u64;
        for section in 0..10 {
            let pair = 12 + 8 * section;
            let offset = u64::from(sheet.u32_at(pair));
            let length = u64::from(sheet.u32_at(pair + 4));
            let width = WIDTHS[section] as u64;
            let end = offset + length;
            if offset != start
                || length % width != 0
                || length / width > LIMITS[section] as u64
                || (section == TEXT && end != bytes.len() as u64)
            {
                return Err(refusal(4, [section as u64]));
            }
            sheet.starts[section] = offset as usize;
            sheet.rows[section] = (length / width) as usize;
            start = end;
        }
        Ok(sheet)
    }

    /// The first fault of a row, in the order of docs/REFUSALS.md. The faults of 5 are found here; `construct` is then
    /// given the section and the row's number, and refuses the row by 6 to 10.
    pub fn check_rows(&self, mut construct: impl FnMut(usize, usize) -> Result<(), Refusal>) -> Result<(), Refusal> {
        for section in CHECKED {
            let mut entities = HashSet::new();
            for row in 0..self.rows(section) {
                let repeated = KEYED.contains(&section) && !entities.insert(self.u32(section, row, 0));
                if repeated || self.is_bad_row(section, row) {
                    return Err(refusal(5, [section as u64, row as u64]));
                }
                construct(section, row)?;
            }
            if section == TERMINALS {
                let terminals = self.rows(TERMINALS);
                let counts: u64 = (0..terminals).map(|row| u64::from(self.u32(TERMINALS, row, 4))).sum();
                if counts != self.rows(PAYOFFS) as u64 {
                    return Err(refusal(5, [TERMINALS as u64, terminals as u64]));
                }
            }
        }
        Ok(())
    }

    /// The faults of 5 that one row shows by itself.
    fn is_bad_row(&self, section: usize, row: usize) -> bool {
        let field = |at| self.u32(section, row, at);
        match section {
            NODES => field(4) > 2 || (field(4) > 0 && field(8) != 0),
            ACTIONS | CHANCES => field(4) as usize >= self.rows(LABELS),
            TERMINALS => field(4) > 8,
            LABELS => {
                let end = |row| u64::from(self.u32(LABELS, row, 0)) + u64::from(self.u32(LABELS, row, 4));
                let previous_end = if row == 0 { 0 } else { end(row - 1) };
                u64::from(field(0)) < previous_end || end(row) > self.rows(TEXT) as u64
            }
            TEXT => !(0x20..=0x7E).contains(&self.bytes[self.starts[TEXT] + row]),
            _ => false,
        }
    }

    pub fn root(&self) -> u32 {
        self.u32_at(8)
    }

    /// How many rows the section has.
    pub fn rows(&self, section: usize) -> usize {
        self.rows[section]
    }

    /// The u32 at byte `at` of a row.
    pub fn u32(&self, section: usize, row: usize, at: usize) -> u32 {
        self.u32_at(self.starts[section] + row * WIDTHS[section] + at)
    }

    /// The u64 at byte `at` of a row.
    pub fn u64(&self, section: usize, row: usize, at: usize) -> u64 {
        u64::from(self.u32(section, row, at)) | u64::from(self.u32(section, row, at + 4)) << 32
    }

    /// A label's text, once the rows of sections 8 and 9 are known to be fit.
    pub fn label(&self, number: u32) -> &'a str {
        let start = self.starts[TEXT] + self.u32(LABELS, number as usize, 0) as usize;
        let end = start + self.u32(LABELS, number as usize, 4) as usize;
        std::str::from_utf8(&self.bytes[start..end]).expect("the text is ASCII")
    }

    fn u32_at(&self, at: usize) -> u32 {
        u32::from_le_bytes(self.bytes[at..at + 4].try_into().expect("four bytes"))
    }
}
