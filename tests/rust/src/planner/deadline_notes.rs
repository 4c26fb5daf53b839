//! What the jobs of frames 03 and 06 really met where a deadline lies before its period's end, or might (request 2026-04).

use super::book::{LONGEST_CYCLE, MOST_JOBS};
use super::capacity::{cycle_of_periods, hyperperiod, Job};
use super::conditions::Condition;
use crate::facts::{Facts, Mark};

/// A job that goes in, what its id last stood for, and the jobs with it.
pub fn note_admitted(job: &Job, before: Option<&Job>, jobs: &[Job], facts: &mut Facts) {
    let early = job.is_early();
    if job.by_06 {
        facts.mark_if(!early, Mark::DeadlineIsPeriod);
        facts.mark_if(early, Mark::DeadlineEarly);
        facts.mark_if(job.deadline + 1 == job.period, Mark::DeadlineNext);
        facts.mark_if(early && job.deadline == 1, Mark::DeadlineOne);
        facts.mark_if(job.deadline == 65_535, Mark::DeadlineMost);
        facts.mark_if(early && job.deadline >= 32_768, Mark::DeadlineHigh);
        facts.mark_if(job.period % job.deadline != 0, Mark::DeadlineNoDivisor);
        facts.mark_if(early && job.cost == job.deadline, Mark::CostIsDeadline);
    }
    if let Some(before) = before {
        facts.mark_if(before.is_early() && !job.by_06, Mark::ReadmittedBy03);
        facts.mark_if(!before.by_06 && early, Mark::ReadmittedBy06);
    }
    facts.mark_if(jobs.iter().any(Job::is_early) && cycle_of_periods(jobs) > LONGEST_CYCLE, Mark::PeriodsBeyond);
}

/// A job that is turned down, the one that holds its id, and the jobs with it.
pub fn note_refused(first: Condition, job: &Job, held: Option<&Job>, jobs: &[Job], facts: &mut Facts) {
    let heavy = job.deadline < job.cost && job.cost <= job.period;
    match first {
        Condition::Numbers if job.by_06 => note_numbers(job, facts),
        Condition::Deadline => {
            facts.mark_if(job.deadline == 0, Mark::DeadlineNone);
            facts.mark_if(job.deadline == job.period + 1, Mark::DeadlineBeyond);
            facts.mark_if(job.deadline == 65_535 && job.period < 65_534, Mark::DeadlineFarBeyond);
        }
        Condition::Held => {
            let by_06 = held.is_some_and(|held| held.by_06);
            facts.mark_if(by_06 && !job.by_06, Mark::HeldBy06);
            facts.mark_if(!by_06 && job.by_06, Mark::HeldBy03);
            facts.mark_if(by_06 && job.by_06, Mark::HeldTwice06);
        }
        Condition::Cycle => {
            let (cycle, of_periods) = (hyperperiod(jobs), cycle_of_periods(jobs));
            facts.mark_if(of_periods <= LONGEST_CYCLE, Mark::DeadlinesBeyond);
            facts.mark_if(cycle == LONGEST_CYCLE + 1 && of_periods != cycle, Mark::EarlyCycleBeyond);
            facts.mark_if(heavy, Mark::CycleBeforeEarly);
        }
        Condition::NoPlan => facts.mark_if(heavy && job.cost == job.deadline + 1, Mark::CostAboveDeadline),
        _ => (),
    }
}

/// Numbers of frame 06 that are 0, each alone: a period of 0 leaves no deadline in its range.
fn note_numbers(job: &Job, facts: &mut Facts) {
    let Job { id, cost, period, deadline, .. } = *job;
    let deadline_fits = (1..=period).contains(&deadline);
    facts.mark_if(id == 0 && cost > 0 && deadline_fits, Mark::IdNone06);
    facts.mark_if(id > 0 && cost == 0 && deadline_fits, Mark::CostNone06);
    facts.mark_if(id > 0 && cost > 0 && period == 0 && deadline > 0, Mark::PeriodNone06);
    facts.mark_if(id > 0 && cost > 0 && period == 0 && deadline == 0, Mark::PeriodAndDeadlineNone);
}

/// The jobs of a plan and their cycle.
pub fn note_planned(jobs: &[Job], cycle: u128, facts: &mut Facts) {
    let by_06 = jobs.iter().filter(|job| job.by_06).count();
    let full = jobs.len() == MOST_JOBS;
    facts.mark_if(full && by_06 == MOST_JOBS, Mark::Held64By06);
    facts.mark_if(full && 0 < by_06 && by_06 < MOST_JOBS, Mark::Held64ByBoth);
    facts.mark_if(cycle == LONGEST_CYCLE - 1 && cycle_of_periods(jobs) != cycle, Mark::EarlyLongestCycle);
}
