//! Hyperperiods at the limit 16,777,216 and near it, from both sides.

use super::draft::Draft;
use super::machines;
use super::refused;
use crate::planner::frames::Frame;
use crate::random::Random;

/// The prime factors of a number, from the smallest, each as often as it divides.
pub fn prime_factors(number: u64) -> Vec<u64> {
    let mut rest = number;
    let mut primes = Vec::new();
    let mut divisor = 2;
    while divisor * divisor <= rest {
        while rest % divisor == 0 {
            primes.push(divisor);
            rest /= divisor;
        }
        divisor += 1;
    }
    if rest > 1 {
        primes.push(rest);
    }
    primes
}

/// Deadlines whose least common multiple is this number; nothing where a prime power in it is no deadline.
fn deadlines_of(random: &mut Random, number: u64) -> Option<Vec<u64>> {
    let mut powers: Vec<(u64, u64)> = Vec::new();
    for prime in prime_factors(number) {
        match powers.last_mut() {
            Some((last, power)) if *last == prime => *power *= prime,
            _ => powers.push((prime, prime)),
        }
    }
    let mut deadlines: Vec<u64> = Vec::new();
    for (_, power) in powers {
        if power > 65_535 {
            return None;
        }
        let joined = deadlines.iter().position(|deadline| deadline * power <= 65_535);
        match joined {
            Some(place) if !random.one_in(4) => deadlines[place] *= power,
            _ => deadlines.push(power),
        }
    }
    random.shuffle(&mut deadlines);
    Some(deadlines)
}

/// The goals of the family: both ends of the limit, 01's own trials, and numbers around them.
pub fn goal(random: &mut Random) -> Vec<u64> {
    loop {
        let number = match random.below(8) {
            0 => 16_777_215,
            1 => 16_777_217,
            2 => 16_773_120,
            3 => 16_781_312,
            4 => random.between(16_777_217, 16_777_400),
            _ => random.between(16_774_000, 16_780_000),
        };
        match random.below(6) {
            0 => return vec![4_095, 4_097],
            1 => return vec![24_929, 673],
            2 => return vec![97, 257, 673],
            3 => return vec![1_152, 1_024, 960],
            _ => (),
        }
        if let Some(deadlines) = deadlines_of(random, number) {
            return deadlines;
        }
    }
}

/// Family e.
pub fn cycles(draft: &mut Draft) {
    draft.unsettle();
    let machine = machines::valid(&mut draft.random);
    draft.put(&machine);
    let deadlines = goal(&mut draft.random);
    let jobs: Vec<Frame> = deadlines.iter().map(|&deadline| job(draft, deadline)).collect();
    reach(draft, &jobs);
    draft.finish();
}

/// Jobs under different ids, the last of them perhaps refused by 16, accepted once another has gone.
pub fn reach(draft: &mut Draft, jobs: &[Frame]) {
    let (last, first) = jobs.split_last().expect("a goal has a job");
    for job in first {
        draft.offer(job);
    }
    let held = draft.book.jobs();
    if draft.goes_on() || draft.random.one_in(3) {
        draft.put(last);
        draft.unsettle();
    } else {
        draft.offer(last);
    }
    if !held.is_empty() && draft.random.one_in(2) {
        let gone = draft.random.pick(&held);
        draft.put(&Frame::Retire { id: gone.id });
        draft.unsettle();
        draft.offer(last);
    }
}

fn job(draft: &mut Draft, deadline: u64) -> Frame {
    let id = refused::new_id(draft);
    let cost = cost(draft, deadline);
    draft.job(id, cost, deadline)
}

/// Any cost, or one at an end of what fits a processor.
pub fn cost(draft: &mut Draft, deadline: u64) -> u64 {
    match draft.random.below(5) {
        0 => 1,
        1 => deadline,
        2 => (deadline + 1).min(65_535),
        3 => draft.random.between(1, 65_535),
        _ => draft.random.between(1, deadline),
    }
}
