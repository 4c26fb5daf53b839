//! The cases of the desk program.

use crate::case::Case;
use crate::draft::{Draft, Job, LARGE, QUARTERS};
use crate::host_cases::{example, RAISES};
use crate::lines::{convex_table, refused_table, Sort};
use crate::random::Random;
use crate::rosters::{jobs, Spread};
use crate::sheets::{churn, early_churn, filled, plans, slacks};
use crate::turned_down::Reason;

/// The sheet whose time is taken off the others': the start of a program.
pub const EMPTY: &str = "an empty sheet: the start";

pub fn all(length: usize, random: &mut Random) -> Vec<Case> {
    let mut cases = Vec::new();
    for (in_128, raises) in RAISES {
        for (spread, word) in [(Spread::Equal, "equal"), (Spread::Different, "different")] {
            let held = jobs(64, in_128, spread, random);
            let roster = format!("64 jobs on 32, {raises} raises, {word}");
            cases.push(Case::desk(format!("plans: {roster}"), plans(LARGE, &held, length)));
            if let (500, Spread::Different) = (raises, spread) {
                cases.push(Case::desk(format!("slack: {roster}"), slacks(LARGE, &held, length)));
            }
        }
    }
    let mut small = example();
    small.fill(length, Draft::plan);
    cases.push(Case::desk("plans: 5 jobs on 4", small.bytes()));
    cases.push(Case::desk("plans: no job on 4", plans(QUARTERS, &[], length)));
    for held in [5, 64] {
        cases.push(Case::desk(format!("churn around {held} held"), churn(LARGE, held, length, random)));
    }
    cases.extend(jobs_turned_down(length, random));
    cases.extend(malformed(length, random));
    cases.extend(tables(length, random));
    cases.extend(deadlines(length, random));
    cases
}

fn jobs_turned_down(length: usize, random: &mut Random) -> Vec<Case> {
    let mut cases = Vec::new();
    for reason in Reason::ALL {
        let name = format!("jobs turned down by {}", reason.number());
        cases.push(Case::desk(name, reason.sheet(length, random)));
    }
    let held = jobs(32, 40, Spread::Different, random);
    let sheet = filled(LARGE, &held, length, |draft| draft.machine(LARGE));
    cases.push(Case::desk("machines refused by 12, 32 held", sheet));
    let sheet = filled(LARGE, &held, length, |draft| loop {
        let id = random.between(1, 65_535);
        if held.iter().all(|job| job.id != id) {
            return draft.retire(id);
        }
    });
    cases.push(Case::desk("retirements refused by 14, 32 held", sheet));
    let mut none = Draft::default();
    let job = held[0];
    none.fill(length, |draft| draft.admit(job));
    cases.push(Case::desk("jobs refused by 11", none.bytes()));
    cases
}

/// Jobs that frame 06 admits or that it turns down, all due before their periods end.
fn deadlines(length: usize, random: &mut Random) -> Vec<Case> {
    let mut cases = Vec::new();
    for held in [5, 64] {
        let sheet = early_churn(LARGE, held, length, random);
        cases.push(Case::desk(format!("churn around {held} held, deadlines"), sheet));
    }
    let held: Vec<Job> = Reason::NoPlan.held(random).into_iter().map(Job::due_early).collect();
    let sheet = filled(LARGE, &held, length, |draft| draft.admit(Reason::NoPlan.draw(&held, random).due_early()));
    cases.push(Case::desk("jobs turned down by 17, deadlines", sheet));
    cases
}

fn malformed(length: usize, random: &mut Random) -> Vec<Case> {
    let held = jobs(5, 40, Spread::Different, random);
    let mut cases = Vec::new();
    for sort in Sort::ALL {
        let sheet = filled(LARGE, &held, length, |draft| draft.line(&sort.line(random)));
        cases.push(Case::desk(format!("malformed: {}", sort.name()), sheet));
    }
    cases.push(Case::desk("malformed: one line", vec![b'0'; length]));
    cases
}

fn tables(length: usize, random: &mut Random) -> Vec<Case> {
    let held = jobs(5, 40, Spread::Different, random);
    let accepted = filled(LARGE, &held, length, |draft| draft.power(&convex_table(32, random)));
    let turned_down = filled(LARGE, &held, length, |draft| draft.power(&refused_table(32, random)));
    vec![Case::desk("power tables of 32 accepted", accepted), Case::desk("power tables refused by 3", turned_down)]
}
