//! What is found on a platform, by total utilisation: the table that is printed, and the lines of the TSV.

use crate::platforms::Platform;
use crate::tasks::PERIOD;
use std::iter::Sum;

/// The power that each algorithm finds for one set.
#[derive(Debug)]
pub struct Powers {
    pub dif: u64,
    pub exhaustive: u64,
    pub gmf: u64,
    pub optimal: u64,
}

/// GMF against another algorithm.
#[derive(Clone, Copy, Default)]
struct Against {
    power: u64,
    /// The sets on which GMF is strictly cheaper.
    cheaper: usize,
    /// The largest saving on a single set, as a part of the other's power.
    largest: f64,
}

/// Sums over some sets.
#[derive(Clone, Copy, Default)]
pub struct Sums {
    sets: usize,
    gmf: u64,
    optimal: u64,
    dif: Against,
    exhaustive: Against,
}

impl Against {
    fn one(power: u64, gmf: u64) -> Self {
        Against { power, cheaper: usize::from(gmf < power), largest: saving(power, gmf) }
    }

    fn plus(self, other: Self) -> Self {
        Against {
            power: self.power + other.power,
            cheaper: self.cheaper + other.cheaper,
            largest: self.largest.max(other.largest),
        }
    }
}

impl From<&Powers> for Sums {
    fn from(powers: &Powers) -> Self {
        Sums {
            sets: 1,
            gmf: powers.gmf,
            optimal: powers.optimal,
            dif: Against::one(powers.dif, powers.gmf),
            exhaustive: Against::one(powers.exhaustive, powers.gmf),
        }
    }
}

impl Sum for Sums {
    fn sum<I: Iterator<Item = Self>>(iter: I) -> Self {
        iter.fold(Sums::default(), |sums, other| Sums {
            sets: sums.sets + other.sets,
            gmf: sums.gmf + other.gmf,
            optimal: sums.optimal + other.optimal,
            dif: sums.dif.plus(other.dif),
            exhaustive: sums.exhaustive.plus(other.exhaustive),
        })
    }
}

fn saving(power: u64, gmf: u64) -> f64 {
    1.0 - gmf as f64 / power as f64
}

/// A platform's results: for each total utilisation its sums.
pub struct Report<'a> {
    pub platform: &'a Platform,
    pub rows: Vec<(u64, Sums)>,
}

impl Report<'_> {
    /// The table as docs/EVALUATION.md has it.
    pub fn table(&self) -> String {
        let mut table = format!("### {}\n\n", self.platform.name);
        table += "| utilisation | DIF | Exhaustive | GMF | Optimal | saved on DIF | on Exhaustive ";
        table += "| sets cheaper than DIF | than Exhaustive | most on DIF | on Exhaustive |\n";
        table += "|---|---|---|---|---|---|---|---|---|---|---|\n";
        for (total, sums) in &self.rows {
            table += &self.table_row(&format!("{:.2}", utilisation(*total)), sums);
        }
        table + &self.table_row("all", &self.rows.iter().map(|(_, sums)| *sums).sum())
    }

    fn table_row(&self, name: &str, sums: &Sums) -> String {
        let per_cent = |part: f64| format!("{:.1} %", 100.0 * part);
        let cells = [
            name.to_string(),
            format!("{:.4}", self.normalised(sums.dif.power, sums)),
            format!("{:.4}", self.normalised(sums.exhaustive.power, sums)),
            format!("{:.4}", self.normalised(sums.gmf, sums)),
            format!("{:.4}", self.normalised(sums.optimal, sums)),
            per_cent(saving(sums.dif.power, sums.gmf)),
            per_cent(saving(sums.exhaustive.power, sums.gmf)),
            sums.dif.cheaper.to_string(),
            sums.exhaustive.cheaper.to_string(),
            per_cent(sums.dif.largest),
            per_cent(sums.exhaustive.largest),
        ];
        format!("| {} |\n", cells.join(" | "))
    }

    /// A line for each total utilisation: the platform's number, the utilisation, and the mean powers for the plot.
    pub fn lines(&self, number: usize) -> String {
        let line = |(total, sums): &(u64, Sums)| {
            let powers = [sums.dif.power, sums.exhaustive.power, sums.gmf, sums.optimal];
            let means = powers.map(|power| format!("{:.6}", self.normalised(power, sums))).join("\t");
            format!("{number}\t{:.2}\t{means}\n", utilisation(*total))
        };
        self.rows.iter().map(line).collect()
    }

    /// The mean of some sets, as a part of all processors at the top.
    fn normalised(&self, power: u64, sums: &Sums) -> f64 {
        power as f64 / (sums.sets as u64 * self.platform.full_power()) as f64
    }
}

fn utilisation(total: u64) -> f64 {
    total as f64 / PERIOD as f64
}
