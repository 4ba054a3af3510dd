//! Numbers and tables as the document shows them.

use std::fmt::Write;

use crate::clock::Stat;

/// Three digits that count.
pub fn short(x: f64) -> String {
    match x.abs() {
        y if y >= 99.95 => format!("{x:.0}"),
        y if y >= 9.995 => format!("{x:.1}"),
        y if y >= 0.0995 => format!("{x:.2}"),
        _ => format!("{x:.3}"),
    }
}

/// The median, and half the distance of the quartiles in percent of it.
pub fn spread(s: Stat) -> String {
    let percent = (s.high - s.low) / 2.0 / s.median.abs().max(1e-9) * 100.0;
    format!("{} ±{percent:.0}%", short(s.median))
}

pub struct Table<'a>(pub &'a mut String);

impl Table<'_> {
    pub fn head(&mut self, cells: &[&str]) {
        self.line(cells.iter().map(|cell| cell.to_string()));
        self.line(cells.iter().map(|_| "---".to_string()));
    }

    pub fn line(&mut self, cells: impl Iterator<Item = String>) {
        let cells: Vec<String> = cells.collect();
        writeln!(self.0, "| {} |", cells.join(" | ")).expect("a string takes any text");
    }
}
