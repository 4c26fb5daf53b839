//! What the rosters whose jobs are taken in turn really met.

use super::book::{LONGEST_CYCLE, MOST_JOBS};
use super::capacity::{compare_by_period, hyperperiod, Job};
use super::orders::{in_turn, worked, Worked};
use crate::facts::{Facts, Mark};
use std::cmp::Ordering;
use std::collections::BTreeSet;

/// The jobs held at the end of a sheet, in the order of their admission.
pub fn note_held(jobs: &[Job], facts: &mut Facts) {
    let cycle = hyperperiod(jobs);
    let list = in_turn(jobs);
    let ties: Vec<&[Worked]> = list.chunk_by(|one, next| one.work == next.work).filter(|tie| tie.len() > 1).collect();
    facts.mark_if(jobs.len() == 1, Mark::TurnsOne);
    facts.mark_if(jobs.len() == MOST_JOBS, Mark::Turns64);
    facts.mark_if(cycle == LONGEST_CYCLE - 1, Mark::TurnsLongestCycle);
    facts.mark_if(ties.len() > 1, Mark::TieTwice);
    facts.mark_if(jobs.len() == MOST_JOBS && ties.is_empty(), Mark::TieNone64);
    let next = list.windows(2).any(|pair| pair[0].work == pair[1].work + 1);
    facts.mark_if(cycle > 65_535 && next, Mark::WorksNext);
    for tie in ties {
        note_tie(tie, &list, facts);
    }
    facts.mark_if(lower_id_later(&worked(jobs)), Mark::TieLowerIdLater);
    note_larger_costs(&list, facts);
    note_periods(&list, facts);
}

// Where the order, or a tie, would be another one by the periods.
fn note_periods(list: &[Worked], facts: &mut Facts) {
    for pair in list.windows(2) {
        let tie = pair[0].work == pair[1].work;
        let (one, next) = (&pair[0].job, &pair[1].job);
        let by_period = compare_by_period(one, next);
        facts.mark_if(tie && by_period != Ordering::Equal, Mark::TieByDeadline);
        facts.mark_if(!tie && by_period == Ordering::Equal, Mark::TieByPeriod);
        facts.mark_if(!tie && by_period == Ordering::Less, Mark::TurnsNotByPeriod);
        facts.mark_if(tie && one.deadline > next.deadline, Mark::TieLaterFirst);
        facts.mark_if(tie && one.deadline < next.deadline, Mark::TieEarlierFirst);
        facts.mark_if(tie && one.period > next.period, Mark::TieLongerFirst);
        facts.mark_if(tie && one.period < next.period, Mark::TieShorterFirst);
        facts.mark_if(tie && !one.by_06 && next.by_06, Mark::TieBy03First);
        facts.mark_if(tie && one.by_06 && !next.by_06, Mark::TieBy06First);
    }
}

fn note_tie(tie: &[Worked], list: &[Worked], facts: &mut Facts) {
    let costs: BTreeSet<u32> = tie.iter().map(|one| one.job.cost).collect();
    let (lowest, highest) = (tie[0].job.id, tie[tie.len() - 1].job.id);
    facts.mark_if(tie.len() == 2 && costs.len() == 2, Mark::TieOfTwo);
    facts.mark_if(tie.len() > 2, Mark::TieOfMore);
    facts.mark_if(tie.len() > 2 && costs.len() == tie.len(), Mark::TieOfMoreCosts);
    facts.mark_if(tie.len() < list.len() && tie[0].work == list[0].work, Mark::TieFirst);
    facts.mark_if(tie.len() < list.len() && tie[0].work == list[list.len() - 1].work, Mark::TieLast);
    facts.mark_if(costs.len() > 1 && tie[0].job.cost == tie[0].job.deadline, Mark::TieFull);
    facts.mark_if(tie.len() == MOST_JOBS, Mark::TieAll64);
    facts.mark_if(tie.len() == MOST_JOBS && costs.len() > 1, Mark::TieAll64Costs);
    let between = |one: &Worked| one.work > tie[0].work && lowest < one.job.id && one.job.id < highest;
    facts.mark_if(list.iter().any(between), Mark::TieAroundLargerWork);
    facts.mark_if(highest == 65_535, Mark::TieLargestId);
    facts.mark_if(lowest < 256 && 256 <= highest, Mark::TieAcross256);
    facts.mark_if(lowest < 32_768 && 32_768 <= highest, Mark::TieAcross32768);
}

/// Whether a job has a lower id than one of equal work that was admitted before it.
fn lower_id_later(by_admission: &[Worked]) -> bool {
    by_admission.iter().enumerate().any(|(place, one)| {
        by_admission[place + 1..].iter().any(|later| later.work == one.work && later.job.id < one.job.id)
    })
}

// The roster holds its jobs by rising id, so that the two meet either way round.
fn note_larger_costs(list: &[Worked], facts: &mut Facts) {
    let pairs = || list.iter().enumerate().flat_map(|(place, one)| list[place..].iter().map(move |after| (one, after)));
    let larger = |one: &Worked, after: &Worked| after.work < one.work && after.job.cost > one.job.cost;
    let before = pairs().any(|(one, after)| larger(one, after) && after.job.id < one.job.id);
    let after = pairs().any(|(one, after)| larger(one, after) && after.job.id > one.job.id);
    facts.mark_if(before, Mark::CostLargerBefore);
    facts.mark_if(after, Mark::CostLargerAfter);
}

/// A job that is retired, with the jobs held until then.
pub fn note_retired(held: &[Job], id: u32, facts: &mut Facts) {
    let list = in_turn(held);
    let ties = list.chunk_by(|one, next| one.work == next.work);
    for tie in ties.filter(|tie| tie.len() > 1) {
        let place = tie.iter().position(|one| one.job.id == id);
        facts.mark_if(place.is_some(), Mark::TieLeft);
        facts.mark_if(place == Some(0) && tie.len() > 2, Mark::TieLeftFirst);
        facts.mark_if(place.is_some_and(|place| 0 < place && place + 1 < tie.len()), Mark::TieLeftBetween);
    }
}
