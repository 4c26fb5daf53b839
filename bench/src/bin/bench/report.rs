//! What is printed, and the same rows for machines.

use crate::case::Case;
use crate::timing::Times;
use std::fs;
use std::path::Path;

#[derive(Default)]
pub struct Report {
    rows: String,
}

pub const HEAD: &str = "\
Times in microseconds for each call or sheet; ratio = product / yardstick, below 1 the product is the faster.
Both sides gave the same answers before they were timed. They take turns, the order swapped every round; the first
rounds don't count. The host's call and the import: the median of the rounds, each some milliseconds of repetitions
over sheets or lists of a kind. The desk program: the lower quartile of the runs (steadier than their median and than
the shortest), less that of an empty sheet, which is run in the same rounds. Sheet and frames are files in memory; the
frames are written over those of the run before. ~ marks a ratio with a time below a thirtieth of the program's start,
which is hardly more than the noise.";

impl Report {
    pub fn title(&self, title: &str) {
        println!("\n{title:<52}{:>12}{:>12}{:>9}", "product", "yardstick", "ratio");
    }

    /// A row, with the time below which a figure is mostly noise.
    pub fn row(&mut self, case: &Case, times: Times, noise: f64) {
        let Times { ours, theirs } = times;
        let ratio = ours / theirs;
        let x = case.x.map_or(String::new(), |x| x.to_string());
        let name = if x.is_empty() { case.name.clone() } else { format!("{}: {x}", case.name) };
        let mark = if ours.min(theirs) < noise { " ~" } else { "" };
        println!("{name:<52}{ours:>12.3}{theirs:>12.3}{ratio:>9.2}{mark}");
        self.rows += &format!("{}\t{}\t{x}\t{ours:.4}\t{theirs:.4}\t{ratio:.4}\n", case.section.word(), case.name);
    }

    pub fn is_empty(&self) -> bool {
        self.rows.is_empty()
    }

    pub fn save(&self, path: &Path) -> Result<(), String> {
        let text = format!("section\tcase\tx\tours\ttheirs\tratio\n{}", self.rows);
        fs::write(path, text).map_err(|error| format!("{}: {error}", path.display()))
    }
}
