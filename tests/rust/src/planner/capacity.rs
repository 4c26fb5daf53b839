//! The cycle, the works and the capacity tests (document 004, equation 1), in whole numbers.

use super::astray::Astray;
use super::machine::Machine;
use crate::facts::{Facts, Mark};
use std::cmp::Ordering;

#[derive(Clone, Copy)]
pub struct Job {
    pub id: u32,
    pub cost: u32,
    pub period: u32,
    /// In ticks from the period's beginning. The period's length has no effect beside it (request 2026-04).
    pub deadline: u32,
    /// Whether frame 06 stated the deadline. Only the facts and the wrong planners look at it.
    pub by_06: bool,
}

impl Job {
    /// Whether the deadline lies before the period's end.
    pub fn is_early(&self) -> bool {
        self.deadline < self.period
    }

    /// The same job with the period's end as its deadline.
    pub fn with_whole_period(self) -> Self {
        Job { deadline: self.period, ..self }
    }
}

fn greatest_common_divisor(a: u128, b: u128) -> u128 {
    if b == 0 {
        a
    } else {
        greatest_common_divisor(b, a % b)
    }
}

pub fn least_common_multiple(a: u128, b: u128) -> u128 {
    a / greatest_common_divisor(a, b) * b
}

/// H: the least common multiple of the deadlines, 1 without a job.
pub fn hyperperiod(jobs: &[Job]) -> u128 {
    jobs.iter().fold(1, |cycle, job| least_common_multiple(cycle, u128::from(job.deadline)))
}

/// A cycle that is not kept within its limit is followed no further than this.
pub const LONGEST_FOLLOWED: u128 = 1 << 40;

/// The least common multiple of the periods, on which there is no limit.
pub fn cycle_of_periods(jobs: &[Job]) -> u128 {
    let next = |cycle: u128, job: &Job| match cycle {
        0..LONGEST_FOLLOWED => least_common_multiple(cycle, u128::from(job.period)),
        _ => cycle,
    };
    jobs.iter().fold(1, next)
}

/// One side of the tests: the jobs' needs from the largest, each Q x C x (H / D), and H.
pub struct Needs {
    pub cycle: u128,
    pub sorted: Vec<u128>,
    /// Whether a job has a deadline before its period's end, for the facts.
    pub early: bool,
}

impl Needs {
    pub fn new(machine: &Machine, jobs: &[Job], cycle: u128, astray: Option<Astray>, facts: &mut Facts) -> Self {
        let mut sorted = jobs.to_vec();
        match astray {
            Some(Astray::OrderByCost) => sorted.sort_by_key(|job| std::cmp::Reverse(job.cost)),
            Some(Astray::OrderByPeriod) => {
                sorted.sort_by(|a, b| heavier_first(&a.with_whole_period(), &b.with_whole_period()))
            }
            _ => sorted.sort_by(heavier_first),
        }
        note_order(&sorted, facts);
        let need = |job: &Job| {
            let need = u128::from(machine.top()) * work(job, cycle, astray);
            match astray {
                Some(Astray::RoundedUp) => rounded_up(machine, cycle, need),
                _ => need,
            }
        };
        Needs { cycle, sorted: sorted.iter().map(need).collect(), early: jobs.iter().any(Job::is_early) }
    }

    /// The left side of test i: the min(i, n) largest for i below m, all of them for i = m.
    pub fn of_test(&self, i: usize, processors: usize, astray: Option<Astray>) -> u128 {
        let all = i == processors && astray != Some(Astray::BeyondLeftOut);
        let counted = if all { self.sorted.len() } else { self.sorted.len().min(i) };
        self.sorted[..counted].iter().sum()
    }
}

/// C x (H / D). Only a wrong planner comes here with a deadline of 0, or with one that does not divide the cycle.
fn work(job: &Job, cycle: u128, astray: Option<Astray>) -> u128 {
    let (cost, period) = (u128::from(job.cost), u128::from(job.period.max(1)));
    match astray {
        Some(Astray::WorkByPeriod) => cost * (cycle / period),
        Some(Astray::GapAddedToCost) => (cost + u128::from(job.period.saturating_sub(job.deadline))) * (cycle / period),
        _ => cost * (cycle / u128::from(job.deadline.max(1))),
    }
}

/// C over D, compared exactly by cross multiplication.
pub fn compare_density(a: &Job, b: &Job) -> Ordering {
    let left = u128::from(a.cost) * u128::from(b.deadline);
    let right = u128::from(b.cost) * u128::from(a.deadline);
    left.cmp(&right)
}

/// C over T, which decides nothing any more.
pub fn compare_by_period(a: &Job, b: &Job) -> Ordering {
    compare_density(&a.with_whole_period(), &b.with_whole_period())
}

// The facts of jobs in the order of their works.
fn note_order(sorted: &[Job], facts: &mut Facts) {
    for pair in sorted.windows(2) {
        let equal = compare_density(&pair[0], &pair[1]) == Ordering::Equal;
        let by_period = compare_by_period(&pair[0], &pair[1]);
        let other_cost = pair[0].cost != pair[1].cost;
        facts.mark_if(equal && other_cost, Mark::EqualWorks);
        facts.mark_if(equal && other_cost && by_period != Ordering::Equal, Mark::EqualByDeadline);
        facts.mark_if(!equal && by_period == Ordering::Equal, Mark::EqualByPeriod);
        facts.mark_if(!equal && by_period == Ordering::Less, Mark::OrderNotByPeriod);
    }
}

// Ties: the lower id first. Equal works may stand in either order; a fixed one keeps runs alike.
fn heavier_first(a: &Job, b: &Job) -> Ordering {
    compare_density(b, a).then(a.id.cmp(&b.id))
}

fn rounded_up(machine: &Machine, cycle: u128, need: u128) -> u128 {
    (0..machine.levels)
        .map(|level| cycle * u128::from(machine.speed(level)))
        .find(|&offered| offered >= need)
        .unwrap_or(need)
}

/// The right side of a test: H x the sum of these processors' speeds.
pub fn offered(machine: &Machine, levels: &[u32], cycle: u128) -> u128 {
    let speeds: u32 = levels.iter().map(|&level| machine.speed(level)).sum();
    cycle * u128::from(speeds)
}
