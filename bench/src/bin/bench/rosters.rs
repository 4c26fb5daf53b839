//! The jobs of the cases.

use crate::draft::Job;
use crate::random::Random;

/// All periods divide 46,080, the hyperperiod of 1152, 1024 and 960 samples, and are multiples of 128.
pub const PERIODS: [u32; 12] = [1024, 1152, 1280, 1920, 2304, 3840, 4608, 5760, 7680, 11520, 15360, 23040];
/// Long enough that 64 utilisations may differ by little.
const LONG_PERIODS: [u32; 4] = [11520, 15360, 23040, 46080];

/// Whether the utilisations of a roster are equal or all different.
#[derive(Clone, Copy)]
pub enum Spread {
    Equal,
    Different,
}

/// Different ids in random order.
pub fn ids(count: usize, random: &mut Random) -> Vec<u32> {
    let mut ids = Vec::new();
    while ids.len() < count {
        let id = random.between(1, 65_535);
        if !ids.contains(&id) {
            ids.push(id);
        }
    }
    ids
}

/// Jobs whose mean utilisation is a number of 128ths, at most 64. Where they are to differ, they lie in pairs around
/// the mean, up to four fifths of it away, and their sum is the same.
pub fn jobs(count: usize, in_128: u32, spread: Spread, random: &mut Random) -> Vec<Job> {
    let mut jobs = Vec::new();
    for (place, id) in ids(count, random).into_iter().enumerate() {
        let period = match spread {
            Spread::Equal => random.choose(&PERIODS),
            Spread::Different => LONG_PERIODS[place / 2 % 4],
        };
        let mean = period / 128 * in_128;
        let away = mean * (place as u32 / 2 + 1) / 40;
        let cost = match spread {
            Spread::Equal => mean,
            Spread::Different if place + 1 == count && count % 2 == 1 => mean,
            Spread::Different if place % 2 == 0 => mean + away,
            Spread::Different => mean - away,
        };
        jobs.push(Job { id, cost, period, deadline: None });
    }
    random.shuffle(&mut jobs);
    jobs
}

/// A small job, of which any 64 fit on one processor.
pub fn small_job(id: u32, random: &mut Random) -> Job {
    let period = random.choose(&PERIODS);
    Job { id, cost: random.between(1, period / 64), period, deadline: None }
}
