//! The cases of the host's call.

use crate::case::Case;
use crate::draft::{Draft, Job, Machine, LARGE, QUARTERS};
use crate::lines::Sort;
use crate::random::Random;
use crate::rosters::{jobs, small_job, Spread};
use crate::sheets::{churn, roster};
use crate::turned_down::Reason;

/// So many sheets of a kind for a case.
const VARIANTS: usize = 8;

fn several(random: &mut Random, mut sheet: impl FnMut(&mut Random) -> Vec<u8>) -> Vec<Vec<u8>> {
    (0..VARIANTS).map(|_| sheet(random)).collect()
}

/// The mean utilisation, in 128ths, of 64 jobs on the large machine, and the raises that it leads to.
pub const RAISES: [(u32, u32); 4] = [(2, 0), (5, 50), (33, 500), (64, 992)];

pub fn all(length: usize, random: &mut Random) -> Vec<Case> {
    let mut cases = plans(random);
    cases.extend(small_plans(random));
    cases.extend(refused(random));
    for held in [5, 64] {
        let sheet = churn(LARGE, held, length, random);
        cases.push(Case::host(format!("churn around {held} held, a full sheet"), vec![sheet]));
    }
    cases.push(deadlines(random));
    cases
}

fn plans(random: &mut Random) -> Vec<Case> {
    let mut cases = Vec::new();
    for (in_128, raises) in RAISES {
        for (spread, word) in [(Spread::Equal, "equal"), (Spread::Different, "different")] {
            let sheets = several(random, |random| roster(LARGE, &jobs(64, in_128, spread, random)));
            cases.push(Case::host(format!("64 jobs on 32, {raises} raises, {word}"), sheets));
        }
    }
    cases
}

/// As the row with these raises, but for the frames that admit the jobs.
fn deadlines(random: &mut Random) -> Case {
    let sheets = several(random, |random| {
        let jobs: Vec<Job> = jobs(64, 33, Spread::Different, random).into_iter().map(Job::due_early).collect();
        roster(LARGE, &jobs)
    });
    Case::host("64 jobs on 32, 500 raises, different, deadlines", sheets)
}

/// The specification's example without the job that it turns down.
pub fn example() -> Draft {
    let mut draft = Draft::on(QUARTERS);
    for (id, cost) in (1..).zip([10, 9, 6, 5, 1]) {
        draft.line(&format!("03{id:04X}{cost:04X}000A"));
    }
    draft
}

fn small_plans(random: &mut Random) -> Vec<Case> {
    let eight = Machine { processors: 8, ..LARGE };
    vec![
        Case::host("16 jobs on 8", several(random, |random| roster(eight, &jobs(16, 40, Spread::Different, random)))),
        Case::host("the example: 5 jobs on 4", vec![example().bytes()]),
        Case::host("one job on 4", several(random, |random| roster(QUARTERS, &[small_job(1, random)]))),
        Case::host("no job on 4", vec![roster(QUARTERS, &[])]),
    ]
}

fn refused(random: &mut Random) -> Vec<Case> {
    let mut cases = Vec::new();
    let first = several(random, |random| {
        let mut draft = Draft::default();
        draft.line(&Sort::WrongDigit.line(random));
        [draft.bytes(), roster(LARGE, &jobs(64, 33, Spread::Different, random))].concat()
    });
    cases.push(Case::host("malformed in the first line", first));
    for reason in [Reason::PlacesFull, Reason::Hyperperiod, Reason::NoPlan] {
        let sheets = several(random, |random| reason.at_the_end(LARGE, random));
        let name = format!("{} in the last line, {} before", reason.number(), reason.count());
        cases.push(Case::host(name, sheets));
    }
    for sort in Sort::ALL {
        let sheets = several(random, |random| {
            let mut draft = Draft::on(LARGE);
            draft.admit_all(&jobs(64, 33, Spread::Different, random));
            draft.line(&sort.line(random));
            draft.bytes()
        });
        cases.push(Case::host(format!("{} at the end, 64 before", sort.name()), sheets));
    }
    cases
}
