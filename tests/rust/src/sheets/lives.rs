//! Lives of a roster: jobs admitted, retired and admitted again, on machines of every size.

use super::cycles;
use super::draft::Draft;
use super::machines;
use super::refused;
use super::tables;
use crate::planner::frames::Frame;
use crate::random::Random;

/// Cycles with many divisors, and the longest one that deadlines can reach.
const CYCLES: [u64; 16] = [
    10, 60, 128, 720, 5_040, 27_720, 32_768, 46_080, 55_440, 65_520, 65_535, 720_720, 1_441_440, 14_414_400,
    16_773_120, 16_777_215,
];

/// The deadlines from which a sheet draws: divisors of one cycle, so that the limit on H is kept.
pub struct Deadlines {
    primes: Vec<u64>,
}

impl Deadlines {
    pub fn any(random: &mut Random) -> Self {
        Deadlines { primes: cycles::prime_factors(random.pick(&CYCLES)) }
    }

    pub fn one(&mut self, random: &mut Random) -> u64 {
        random.shuffle(&mut self.primes);
        let mut deadline = 1;
        for prime in &self.primes {
            if deadline * prime <= 65_535 && !random.one_in(3) {
                deadline *= prime;
            }
        }
        deadline
    }
}

/// A job that asks for at most this many hundredths of a processor.
pub fn job(draft: &mut Draft, id: u64, deadlines: &mut Deadlines, hundredths: u64) -> Frame {
    let deadline = deadlines.one(&mut draft.random);
    let most = (deadline * hundredths / 100).clamp(1, deadline);
    let cost = if draft.random.one_in(6) { most } else { draft.random.between(1, most) };
    draft.job(id, cost, deadline)
}

/// Admits up to so many jobs of any weight.
pub fn admit_some(draft: &mut Draft, count: u64) {
    let mut deadlines = Deadlines::any(&mut draft.random);
    let weight = draft.random.pick(&[5, 30, 100, 100]);
    for _ in 0..count {
        let id = refused::new_id(draft);
        let frame = job(draft, id, &mut deadlines, weight);
        draft.offer(&frame);
    }
}

pub fn fill(draft: &mut Draft, ids: &mut Vec<u64>, deadlines: &mut Deadlines, target: usize) {
    let m = u64::from(draft.machine().processors);
    let mut weight = (draft.random.between(1, 3) * m * 100 / 64).clamp(1, 100);
    let mut tries = 0;
    while draft.book.jobs().len() < target && tries < 3 * target {
        tries += 1;
        let id = match ids.pop() {
            Some(id) if !draft.book.holds(id as u32) => id,
            _ => refused::new_id(draft),
        };
        let frame = job(draft, id, deadlines, weight);
        if !draft.offer(&frame) {
            weight = (weight / 2).max(1);
        }
        if draft.goes_on() && draft.random.one_in(12) {
            draft.unsettle();
        }
    }
}

/// Retires some jobs and remembers their ids, to be admitted again with other numbers.
pub fn retire_some(draft: &mut Draft, ids: &mut Vec<u64>) {
    let mut jobs = draft.book.jobs();
    draft.random.shuffle(&mut jobs);
    let count = match draft.random.below(8) {
        0 => jobs.len(),
        1 => jobs.len() / 2,
        _ => draft.random.between(1, 6) as usize,
    };
    for job in jobs.iter().take(count) {
        draft.put(&Frame::Retire { id: job.id });
        if draft.random.one_in(2) {
            ids.push(u64::from(job.id));
        }
    }
}

/// Family a.
pub fn lives(draft: &mut Draft) {
    draft.unsettle();
    let machine = machines::valid(&mut draft.random);
    draft.put(&machine);
    let mut deadlines = Deadlines::any(&mut draft.random);
    let mut ids = Vec::new();
    let target = if draft.random.one_in(2) { 64 } else { draft.random.between(4, 40) as usize };
    fill(draft, &mut ids, &mut deadlines, target);
    draft.unsettle();
    for _ in 0..draft.random.between(1, 2) {
        retire_some(draft, &mut ids);
        draft.unsettle();
        if draft.random.one_in(3) {
            let levels = draft.machine().levels as usize;
            let table = tables::convex(&mut draft.random, levels);
            draft.put(&Frame::Power(table));
        }
        if draft.random.one_in(3) && draft.book.jobs().is_empty() {
            deadlines = Deadlines::any(&mut draft.random);
        }
        if !draft.random.one_in(4) {
            fill(draft, &mut ids, &mut deadlines, target);
            draft.unsettle();
        }
    }
    full_roster(draft);
    draft.finish();
}

// With 64 jobs held, 15 meets its neighbours in the order: 13 before it, 16 and 17 after it.
fn full_roster(draft: &mut Draft) {
    if draft.book.jobs().len() == 64 && (draft.goes_on() || draft.random.one_in(4)) {
        let number = draft.random.pick(&[13, 15]);
        refused::of_number(draft, number);
    }
}

/// Family i: small machines and few jobs, of which many are refused by 17.
pub fn small(draft: &mut Draft) {
    let machine = machines::small(&mut draft.random);
    draft.put(&machine);
    let deadline = draft.random.between(1, 24);
    for id in 1..=draft.random.between(1, 6) {
        let deadline = draft.random.pick(&[deadline, deadline, 2 * deadline, 12]);
        let cost = draft.random.between(1, deadline);
        draft.admit(id, cost, deadline);
    }
    draft.unsettle();
    draft.finish();
}

/// Family j: any line after any other.
pub fn mixtures(draft: &mut Draft) {
    let mut deadlines = Deadlines::any(&mut draft.random);
    if !draft.random.one_in(10) {
        let machine = machines::valid(&mut draft.random);
        draft.unsettle();
        draft.put(&machine);
    }
    for _ in 0..draft.random.between(1, 16) {
        mixed_line(draft, &mut deadlines);
    }
    draft.finish();
}

fn mixed_line(draft: &mut Draft, deadlines: &mut Deadlines) {
    let jobs = draft.book.jobs();
    let machine = draft.book.machine();
    match draft.random.below(10) {
        0 if !jobs.is_empty() => {
            let id = draft.random.pick(&jobs).id;
            draft.put(&Frame::Retire { id });
        }
        1 => draft.want(),
        2 if machine.is_some() => {
            let levels = draft.machine().levels as usize;
            let table = tables::convex(&mut draft.random, levels);
            draft.put(&Frame::Power(table));
        }
        3 if draft.goes_on() => refused::any(draft),
        4 if draft.goes_on() => {
            let bytes: Vec<u8> = (0..draft.random.below(9)).map(|_| draft.random.next() as u8).collect();
            let text = draft.digits(&bytes);
            draft.line(&text);
        }
        _ => {
            let id = refused::new_id(draft);
            let weight = draft.random.pick(&[10, 50, 100, 100]);
            let frame = job(draft, id, deadlines, weight);
            draft.offer(&frame);
        }
    }
}
