//! A sheet in the making: its rows, fit or not, and their bytes.

use crate::sheet::*;

/// A row as the bytes that it has in the sheet.
pub type Row = Vec<u8>;

#[derive(Clone, Default)]
pub struct Draft {
    pub root: u32,
    /// The rows of sections 0 to 9; a text row is one byte.
    pub sections: [Vec<Row>; 10],
}

/// A row of u32s.
pub fn row<const N: usize>(fields: [u32; N]) -> Row {
    fields.iter().flat_map(|field| field.to_le_bytes()).collect()
}

/// The u32 at byte `at` of a row.
pub fn field(row: &Row, at: usize) -> u32 {
    u32::from_le_bytes(row[at..at + 4].try_into().expect("four bytes"))
}

/// Sets the u32 at byte `at` of a row.
pub fn set_field(row: &mut Row, at: usize, value: u32) {
    row[at..at + 4].copy_from_slice(&value.to_le_bytes());
}

impl Draft {
    pub fn decision(&mut self, entity: u32, player: u32) {
        self.sections[NODES].push(row([entity, 0, player]));
    }

    pub fn chance(&mut self, entity: u32) {
        self.sections[NODES].push(row([entity, 1, 0]));
    }

    /// A terminal node with its payoffs, which stand below those of the terminals so far.
    pub fn terminal(&mut self, entity: u32, payoffs: &[f64]) {
        self.sections[NODES].push(row([entity, 2, 0]));
        self.payoffs(entity, payoffs);
    }

    /// A terminal row and its payoffs.
    pub fn payoffs(&mut self, entity: u32, payoffs: &[f64]) {
        self.sections[TERMINALS].push(row([entity, payoffs.len() as u32]));
        self.sections[PAYOFFS].extend(payoffs.iter().map(|payoff| payoff.to_le_bytes().to_vec()));
    }

    /// A new label with this text at the text's end.
    pub fn label(&mut self, text: &str) -> u32 {
        let start = self.sections[TEXT].len() as u32;
        self.sections[TEXT].extend(text.bytes().map(|byte| vec![byte]));
        self.sections[LABELS].push(row([start, text.len() as u32]));
        self.sections[LABELS].len() as u32 - 1
    }

    /// Child and transition rows of an edge.
    pub fn edge(&mut self, edge: u32, parent: u32, target: u32) {
        self.sections[CHILDREN].push(row([edge, parent]));
        self.sections[TRANSITIONS].push(row([edge, target]));
    }

    pub fn action_row(&mut self, edge: u32, label: u32, target: u32) {
        self.sections[ACTIONS].push(row([edge, label, target]));
    }

    pub fn chance_row(&mut self, edge: u32, label: u32, target: u32, probability: f64) {
        let mut bytes = row([edge, label, target]);
        bytes.extend(probability.to_le_bytes());
        self.sections[CHANCES].push(bytes);
    }

    /// An action edge with all of its rows.
    pub fn action(&mut self, edge: u32, parent: u32, label: u32, target: u32) {
        self.edge(edge, parent, target);
        self.action_row(edge, label, target);
    }

    /// A chance outcome with all of its rows.
    pub fn outcome(&mut self, edge: u32, parent: u32, label: u32, target: u32, probability: f64) {
        self.edge(edge, parent, target);
        self.chance_row(edge, label, target, probability);
    }

    pub fn set(&mut self, entity: u32, player: u32, id: u64) {
        let mut bytes = row([entity, player]);
        bytes.extend(id.to_le_bytes());
        self.sections[SETS].push(bytes);
    }

    /// Puts a section's rows into another order, a terminal's payoffs with it.
    pub fn arrange(&mut self, section: usize, order: impl FnOnce(&mut [(Row, Vec<Row>)])) {
        let mut payoffs = match section {
            TERMINALS => std::mem::take(&mut self.sections[PAYOFFS]),
            _ => Vec::new(),
        };
        let mut rows: Vec<(Row, Vec<Row>)> = Vec::new();
        for row in std::mem::take(&mut self.sections[section]) {
            let count = if section == TERMINALS { field(&row, 4) as usize } else { 0 };
            let rest = payoffs.split_off(count.min(payoffs.len()));
            rows.push((row, std::mem::replace(&mut payoffs, rest)));
        }
        order(&mut rows);
        for (row, payoffs) in rows {
            self.sections[section].push(row);
            self.sections[PAYOFFS].extend(payoffs);
        }
    }

    /// Gives terminal `number`, in row order, these payoffs.
    pub fn set_payoffs(&mut self, number: usize, payoffs: &[f64]) {
        let count = |row: &Row| field(row, 4) as usize;
        let most = self.sections[PAYOFFS].len();
        let start = most.min(self.sections[TERMINALS][..number].iter().map(count).sum());
        let end = most.min(start + count(&self.sections[TERMINALS][number]));
        set_field(&mut self.sections[TERMINALS][number], 4, payoffs.len() as u32);
        let rows = payoffs.iter().map(|payoff| payoff.to_le_bytes().to_vec());
        self.sections[PAYOFFS].splice(start..end, rows);
    }

    /// How many bytes the sheet has.
    pub fn size(&self) -> usize {
        HEADER + self.sections.iter().zip(WIDTHS).map(|(rows, width)| rows.len() * width).sum::<usize>()
    }

    /// The sheet.
    pub fn encode(&self) -> Vec<u8> {
        let mut bytes = MARK.to_vec();
        bytes.extend(1u16.to_le_bytes());
        bytes.extend(0u16.to_le_bytes());
        bytes.extend(self.root.to_le_bytes());
        let mut start = HEADER;
        for (rows, width) in self.sections.iter().zip(WIDTHS) {
            let length = rows.len() * width;
            bytes.extend((start as u32).to_le_bytes());
            bytes.extend((length as u32).to_le_bytes());
            start += length;
        }
        bytes.extend(self.sections.iter().flatten().flatten());
        bytes
    }
}
