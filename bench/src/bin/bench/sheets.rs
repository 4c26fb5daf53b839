//! Whole sheets that several cases share.

use crate::draft::{Draft, Job, Machine};
use crate::random::Random;
use crate::rosters::{ids, small_job};

/// A machine, its jobs, and as many plans wanted as the length has room for.
pub fn plans(machine: Machine, jobs: &[Job], length: usize) -> Vec<u8> {
    filled(machine, jobs, length, Draft::plan)
}

/// The same with the slack of the plan wanted in place of the plan.
pub fn slacks(machine: Machine, jobs: &[Job], length: usize) -> Vec<u8> {
    filled(machine, jobs, length, Draft::slack)
}

/// A machine and its jobs.
pub fn roster(machine: Machine, jobs: &[Job]) -> Vec<u8> {
    let mut draft = Draft::on(machine);
    draft.admit_all(jobs);
    draft.bytes()
}

/// So many small jobs; then one is retired and another admitted, again and again, and at the end a plan is wanted.
pub fn churn(machine: Machine, held: usize, length: usize, random: &mut Random) -> Vec<u8> {
    churn_of(small_job, machine, held, length, random)
}

/// The same with jobs that are due before their periods end.
pub fn early_churn(machine: Machine, held: usize, length: usize, random: &mut Random) -> Vec<u8> {
    churn_of(|id, random| small_job(id, random).due_early(), machine, held, length, random)
}

fn churn_of(
    job: impl Fn(u32, &mut Random) -> Job,
    machine: Machine,
    held: usize,
    length: usize,
    random: &mut Random,
) -> Vec<u8> {
    let mut draft = Draft::on(machine);
    let mut held = ids(held, random);
    for &id in &held {
        draft.admit(job(id, random));
    }
    let plan = "05\n".len();
    draft.fill(length - plan, |draft| {
        let place = random.index(held.len());
        draft.retire(held[place]);
        held[place] = loop {
            let id = random.between(1, 65_535);
            if !held.contains(&id) {
                break id;
            }
        };
        draft.admit(job(held[place], random));
    });
    draft.plan();
    draft.bytes()
}

/// A machine and its jobs, and after them lines that leave the roster as it is.
pub fn filled(machine: Machine, jobs: &[Job], length: usize, line: impl FnMut(&mut Draft)) -> Vec<u8> {
    let mut draft = Draft::on(machine);
    draft.admit_all(jobs);
    draft.fill(length, line);
    draft.bytes()
}
