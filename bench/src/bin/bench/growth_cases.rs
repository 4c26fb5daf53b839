//! Series: what grows is the number of jobs, of processors, of levels, or the length of the sheet.

use crate::case::{Case, Section};
use crate::draft::{Job, Machine, LARGE};
use crate::random::Random;
use crate::rosters::{jobs, Spread};
use crate::sheets::{churn, plans, roster};

const UP_TO_32: [usize; 6] = [1, 2, 4, 8, 16, 32];
const UP_TO_64: [usize; 7] = [1, 2, 4, 8, 16, 32, 64];

struct Series<'a> {
    section: Section,
    length: usize,
    random: &'a mut Random,
    cases: Vec<Case>,
}

pub fn all(section: Section, length: usize, random: &mut Random) -> Vec<Case> {
    let mut series = Series { section, length, random, cases: Vec::new() };
    series.jobs();
    series.processors();
    series.levels();
    series.lengths();
    series.cases
}

impl Series<'_> {
    fn add(&mut self, name: &str, x: usize, sheets: Vec<Vec<u8>>) {
        self.cases.push(Case { section: self.section, name: name.into(), x: Some(x), sheets });
    }

    /// For the host's call some sheets that end in a plan; for the desk one with plans wanted in a quarter of its
    /// length.
    fn add_plan(&mut self, name: &str, x: usize, machine: Machine, draw: impl Fn(&mut Random) -> Vec<Job>) {
        let sheets = if self.section.is_call() {
            (0..8).map(|_| roster(machine, &draw(self.random))).collect()
        } else {
            vec![plans(machine, &draw(self.random), self.length / 4)]
        };
        self.add(name, x, sheets);
    }

    fn jobs(&mut self) {
        for n in UP_TO_64 {
            self.add_plan("plan, n jobs on 32 processors", n, LARGE, |random| jobs(n, 33, Spread::Different, random));
        }
        for n in UP_TO_64 {
            let sheet = churn(LARGE, n, self.length, self.random);
            self.add("churn, n jobs held", n, vec![sheet]);
        }
    }

    // Half of each machine is used, so that all sizes have work to do.
    fn processors(&mut self) {
        for m in UP_TO_32 {
            let machine = Machine { processors: m as u32, ..LARGE };
            let draw = |random: &mut Random| jobs(64, m as u32, Spread::Different, random);
            self.add_plan("plan, 64 jobs on m processors", m, machine, draw);
        }
    }

    fn levels(&mut self) {
        for l in UP_TO_32 {
            let step = if l == 1 { 1 } else { 248 / (l as u32 - 1) };
            let machine = Machine { levels: l as u32, step, ..LARGE };
            let draw = |random: &mut Random| jobs(64, 33, Spread::Different, random);
            self.add_plan("plan, 64 jobs, L levels", l, machine, draw);
        }
    }

    fn lengths(&mut self) {
        for kib in UP_TO_64 {
            let sheet = churn(LARGE, 5, kib * 1024, self.random);
            self.add("churn, 5 held, sheet of x KiB", kib, vec![sheet]);
        }
    }
}
