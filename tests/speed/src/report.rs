//! What is printed: tables, goals met or missed, and the machine's noise.

use crate::clock::{in_turn, Times};
use std::hint::black_box;
use std::time::Duration;

/// The title of the table to which the last lines point.
pub const NOT_REACHED: &str = "Where the ratio is not reached";

#[derive(Default)]
pub struct Report {
    goals: usize,
    missed: Vec<String>,
    spreads: Vec<f64>,
    baselines: Vec<f64>,
}

impl Report {
    /// Holds a figure to a goal: what a table says of it.
    pub fn goal(&mut self, what: &str, figure: f64, most: f64) -> &'static str {
        self.goals += 1;
        if figure <= most {
            return "yes";
        }
        self.missed.push(format!("{what}: {} in the place of at most {}", number(figure), number(most)));
        "**no**"
    }

    /// Notes how far a measurement's quartiles lie apart.
    pub fn note(&mut self, times: &[Times]) {
        self.spreads.extend(times.iter().map(Times::spread));
    }

    /// Measures work that never changes, a scan of rows that misses, to be compared over the whole run.
    pub fn baseline(&mut self, budget: Duration) {
        let rows: Vec<[u32; 3]> = (0..1_024).map(|entity| [entity; 3]).collect();
        let mut scans = || {
            for entity in 2_000..2_020 {
                black_box(black_box(&rows).iter().position(|row| row[0] == entity));
            }
        };
        let times = in_turn([&mut scans], budget);
        self.note(&times);
        self.baselines.push(times[0].median());
    }

    pub fn print_noise(&mut self) {
        self.spreads.sort_by(f64::total_cmp);
        let percent = |part: f64| format!("{:.0} %", 100.0 * part);
        let at = |tenths: usize| percent(self.spreads[(self.spreads.len() - 1) * tenths / 10]);
        let baselines: Vec<String> = self.baselines.iter().map(|&median| number(median)).collect();
        println!("\n## Noise\n");
        println!(
            "Over {} measurements the quartiles of a call's time lie apart by {} of the median in the middle case and \
             by {} in the worst tenth. The same scans of rows, timed between the parts of the run, took (medians, µs): \
             {}.",
            self.spreads.len(),
            at(5),
            at(9),
            baselines.join(", ")
        );
    }

    /// Prints which goals were missed; whether none was.
    pub fn print_goals(&self) -> bool {
        println!("\n## Goals\n");
        println!(
            "{} of {} goals met among the shapes that are held to them. The table '{NOT_REACHED}' has shapes that are not \
             held to a ratio, and why.",
            self.goals - self.missed.len(),
            self.goals
        );
        for missed in &self.missed {
            println!("- missed: {missed}");
        }
        self.missed.is_empty()
    }
}

/// A table's head.
pub fn table<const N: usize>(title: &str, columns: [&str; N]) {
    println!("\n## {title}\n");
    row(columns.map(str::to_owned));
    row([(); N].map(|()| "---".to_owned()));
}

pub fn row<const N: usize>(cells: [String; N]) {
    println!("| {} |", cells.join(" | "));
}

/// The median, or the only call that was timed.
pub fn time(times: &Times) -> String {
    let one_call = if times.0.len() == 1 { ", one call" } else { "" };
    format!("{}{one_call}", number(times.median()))
}

/// Three digits or all of a whole number.
pub fn number(figure: f64) -> String {
    match figure {
        _ if figure >= 100.0 => grouped(figure.round() as u64),
        _ if figure >= 10.0 => format!("{figure:.1}"),
        _ if figure >= 0.01 => format!("{figure:.2}"),
        _ => format!("{figure:.1e}"),
    }
}

/// A whole number with a comma before every three digits.
pub fn grouped(number: u64) -> String {
    match number {
        0..=999 => number.to_string(),
        _ => format!("{},{:03}", grouped(number / 1_000), number % 1_000),
    }
}
