//! Jobs that are turned down, each sort with the jobs held before it.

use crate::draft::{Draft, Job, Machine, LARGE};
use crate::random::Random;
use crate::rosters::{ids, jobs, Spread, PERIODS};

#[derive(Clone, Copy)]
pub enum Reason {
    Numbers,
    IdHeld,
    PlacesFull,
    Hyperperiod,
    NoPlan,
}

impl Reason {
    pub const ALL: [Reason; 5] =
        [Reason::Numbers, Reason::IdHeld, Reason::PlacesFull, Reason::Hyperperiod, Reason::NoPlan];

    pub fn number(self) -> u32 {
        match self {
            Reason::Numbers => 4,
            Reason::IdHeld => 13,
            Reason::PlacesFull => 15,
            Reason::Hyperperiod => 16,
            Reason::NoPlan => 17,
        }
    }

    /// How many jobs are held: 64 where that is the reason, or one fewer.
    pub fn count(self) -> usize {
        if matches!(self, Reason::PlacesFull) {
            64
        } else {
            63
        }
    }

    /// The jobs held.
    pub fn held(self, random: &mut Random) -> Vec<Job> {
        match self {
            Reason::Hyperperiod => powers_of_two(self.count(), random),
            // 63 jobs of 1/2 leave half a processor.
            Reason::NoPlan => jobs(self.count(), 64, Spread::Equal, random),
            _ => jobs(self.count(), 33, Spread::Different, random),
        }
    }

    /// A job that is turned down for this reason after those held.
    pub fn draw(self, held: &[Job], random: &mut Random) -> Job {
        let mut id = random.between(1, 65_535);
        while held.iter().any(|job| job.id == id) {
            id = random.between(1, 65_535);
        }
        let period = random.choose(&PERIODS);
        let cost = random.between(1, period / 2);
        let job = Job { id, cost, period, deadline: None };
        match self {
            Reason::Numbers => random.choose(&[Job { id: 0, ..job }, Job { cost: 0, ..job }, Job { period: 0, ..job }]),
            Reason::IdHeld => Job { id: random.choose(held).id, ..job },
            Reason::PlacesFull => job,
            Reason::Hyperperiod => Job { period: 2 * random.between(2049, 32_767) + 1, ..job },
            // Half of them have a cost above their period.
            Reason::NoPlan if random.one_in(2) => Job { cost: period + cost, ..job },
            Reason::NoPlan => Job { cost: period / 2 + cost, ..job },
        }
    }

    /// A sheet of such jobs.
    pub fn sheet(self, length: usize, random: &mut Random) -> Vec<u8> {
        let held = self.held(random);
        crate::sheets::filled(LARGE, &held, length, |draft| draft.admit(self.draw(&held, random)))
    }

    /// A sheet that ends with one such job.
    pub fn at_the_end(self, machine: Machine, random: &mut Random) -> Vec<u8> {
        let held = self.held(random);
        let mut draft = Draft::on(machine);
        draft.admit_all(&held);
        draft.admit(self.draw(&held, random));
        draft.bytes()
    }
}

/// Jobs with the hyperperiod 4096: no odd period above 4096 goes with it.
fn powers_of_two(count: usize, random: &mut Random) -> Vec<Job> {
    let mut jobs: Vec<Job> = Vec::new();
    for id in ids(count, random) {
        let period = 1 << random.between(6, 12);
        jobs.push(Job { id, cost: random.between(1, period / 4), period, deadline: None });
    }
    jobs[0].period = 4096;
    jobs
}
