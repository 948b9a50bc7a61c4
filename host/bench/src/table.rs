//! A table of text, as in a Markdown page.

use crate::keep::Row;
use crate::say::say;

pub struct Table {
    rows: Vec<Vec<String>>,
}

impl Table {
    pub fn new(head: &[&str]) -> Table {
        let head = head.iter().map(|name| name.to_string()).collect();
        Table { rows: vec![head] }
    }

    pub fn row(&mut self, cells: Vec<String>) {
        self.rows.push(cells);
    }

    /// The first column to the left, the others to the right.
    pub fn print(&self) {
        let widths: Vec<usize> = (0..self.rows[0].len())
            .map(|column| self.rows.iter().map(|row| row[column].len()).max())
            .map(|most| most.unwrap_or(0))
            .collect();
        for (i, row) in self.rows.iter().enumerate() {
            say(&line(row, &widths));
            if i == 0 {
                say(&rule(&widths));
            }
        }
        say("");
    }
}

fn line(cells: &[String], widths: &[usize]) -> String {
    let mut line = format!("| {:<1$} |", cells[0], widths[0]);
    for (cell, width) in cells.iter().zip(widths).skip(1) {
        line.push_str(&format!(" {cell:>width$} |"));
    }
    line
}

fn rule(widths: &[usize]) -> String {
    let mut line = format!("|{}|", "-".repeat(widths[0] + 2));
    for width in &widths[1..] {
        line.push_str(&format!("{}:|", "-".repeat(width + 1)));
    }
    line
}

/// A time in nanoseconds.
pub fn ns(time: f64) -> String {
    match time {
        t if t < 100.0 => format!("{t:.1}"),
        t => format!("{t:.0}"),
    }
}

pub fn ratio(of: f64, to: f64) -> String {
    match of / to {
        r if r < 10.0 => format!("{r:.2}"),
        r => format!("{r:.0}"),
    }
}

/// Library/plain, and what single runs showed if there were several.
pub fn to_plain(row: &Row) -> String {
    let best = ratio(row.times[0], row.times[1]);
    match row.least < row.most {
        true => format!("{best} ({:.2}..{:.2})", row.least, row.most),
        false => best,
    }
}
