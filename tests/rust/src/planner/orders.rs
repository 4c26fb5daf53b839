//! The order in which the jobs held are taken (request 2026-03), and the wrong orders. Each makes a list of ids from the jobs,
//! which are given in the order of their admission.

use super::astray::Astray;
use super::capacity::{hyperperiod, Job};
use std::cmp::Reverse;

/// A job with its work C x (H / D), where H is the least common multiple of the deadlines of all jobs held.
#[derive(Clone, Copy)]
pub struct Worked {
    pub work: u64,
    pub job: Job,
}

pub fn worked(jobs: &[Job]) -> Vec<Worked> {
    let cycle = hyperperiod(jobs) as u64;
    let work = |job: &Job| u64::from(job.cost) * (cycle / u64::from(job.deadline));
    jobs.iter().map(|&job| Worked { work: work(&job), job }).collect()
}

/// The jobs from the largest work, the lower id first among equals.
pub fn in_turn(jobs: &[Job]) -> Vec<Worked> {
    let mut list = worked(jobs);
    list.sort_by_key(|one| (Reverse(one.work), one.job.id));
    list
}

/// The ids of the jobs as they are taken, right or astray. A planner that is wrong elsewhere has the right order.
pub fn ids(jobs: &[Job], astray: Option<Astray>) -> Vec<u32> {
    let wrong = astray.and_then(|astray| wrong_key(jobs, astray).or_else(|| wrong_list(jobs, astray)));
    wrong.unwrap_or_else(|| ids_of(&in_turn(jobs)))
}

fn ids_of(list: &[Worked]) -> Vec<u32> {
    list.iter().map(|one| one.job.id).collect()
}

/// The orders that sort by something else: by a first number from the smallest, and among equals by a second one.
fn wrong_key(jobs: &[Job], astray: Astray) -> Option<Vec<u32>> {
    let longest = jobs.iter().map(|job| i64::from(job.deadline)).max().unwrap_or(1);
    let key = |one: &Worked| {
        let work = one.work as i64;
        let (id, cost) = (i64::from(one.job.id), i64::from(one.job.cost));
        let (period, deadline) = (i64::from(one.job.period), i64::from(one.job.deadline));
        let by_06 = i64::from(one.job.by_06);
        let key = match astray {
            Astray::TurnsHigherIdFirst => (-work, -id),
            Astray::TurnsByCost => (-cost, id),
            Astray::TurnsByPeriod => (period, id),
            Astray::TurnsRising => (work, id),
            Astray::TurnsById => (id, 0),
            // The sort leaves jobs with the same key as they stand.
            Astray::TurnsByAdmission => (-work, 0),
            Astray::TurnsByProduct => (-(cost * period), id),
            Astray::TurnsByPercent => (-((cost * 100 + deadline / 2) / deadline), id),
            Astray::TurnsBy65536ths => (-(cost * 65_536 / deadline), id),
            Astray::TurnsByWholes => (-(cost / deadline), id),
            Astray::TurnsWorkCut => (-(work % 65_536), id),
            Astray::TurnsOtherCycle => (-(cost * (longest / deadline)), id),
            Astray::TurnsLowerCostFirst => (-work, cost * 65_536 + id),
            Astray::TurnsHigherCostFirst => (-work, id - cost * 65_536),
            Astray::TurnsSignedIds => (-work, i64::from(id as i16)),
            Astray::TurnsLowByteFirst => (-work, i64::from((id as u16).swap_bytes())),
            // Two ratios of numbers of 16 bits that differ at all do so in their first 40 bits.
            Astray::TurnsByPeriodShare => (-((cost << 40) / period), id),
            Astray::TurnsByDeadline => (deadline, id),
            Astray::TurnsByDeadlineProduct => (-(cost * deadline), id),
            Astray::TurnsEarlierFirst => (-work, deadline * 65_536 + id),
            Astray::TurnsLaterFirst => (-work, id - deadline * 65_536),
            Astray::TurnsShorterFirst => (-work, period * 65_536 + id),
            Astray::TurnsLongerFirst => (-work, id - period * 65_536),
            Astray::TurnsBy03First => (-work, by_06 * 65_536 + id),
            Astray::TurnsBy06First => (-work, id - by_06 * 65_536),
            Astray::TurnsBy06Last => (by_06 * (1 << 50) - work, id),
            _ => return None,
        };
        Some(key)
    };
    let mut list = worked(jobs);
    list.iter().all(|one| key(one).is_some()).then(|| {
        list.sort_by_key(key);
        ids_of(&list)
    })
}

/// The orders that take a job too few or too many.
fn wrong_list(jobs: &[Job], astray: Astray) -> Option<Vec<u32>> {
    let mut list = in_turn(jobs);
    match astray {
        Astray::TurnsTieOnce => list.dedup_by_key(|one| one.work),
        Astray::TurnsTieEnds => list = ends_of_ties(&list),
        Astray::TurnsTieRepeated => list = firsts_of_ties(&list),
        Astray::TurnsLastLeftOut => drop(list.pop()),
        Astray::TurnsFirstAgain => list.extend(list.first().copied()),
        Astray::TurnsLastAgain => list.extend(list.last().copied()),
        Astray::TurnsRisingIds => list = with_rising_ids(&list),
        Astray::TurnsFullLeftOut => list.retain(|one| one.job.cost != one.job.deadline),
        Astray::TurnsBy06LeftOut => list.retain(|one| !one.job.by_06),
        Astray::TurnsSixtyThree => list.truncate(63),
        _ => return None,
    }
    Some(ids_of(&list))
}

/// The first and the last job of each tie.
fn ends_of_ties(list: &[Worked]) -> Vec<Worked> {
    let ties = list.chunk_by(|one, next| one.work == next.work);
    ties.flat_map(|tie| if tie.len() > 2 { vec![tie[0], tie[tie.len() - 1]] } else { tie.to_vec() }).collect()
}

/// Each tie's first job, as often as the tie has jobs.
fn firsts_of_ties(list: &[Worked]) -> Vec<Worked> {
    let ties = list.chunk_by(|one, next| one.work == next.work);
    ties.flat_map(|tie| vec![tie[0]; tie.len()]).collect()
}

/// The jobs whose id is above that of the job taken before.
fn with_rising_ids(list: &[Worked]) -> Vec<Worked> {
    let mut taken: Vec<Worked> = Vec::new();
    for one in list {
        let below = taken.last().is_some_and(|last| one.job.id < last.job.id);
        if !below {
            taken.push(*one);
        }
    }
    taken
}
