//! Random sheets for the comparison: mixtures of all sorts of lines.

use crate::draft::{Draft, Job, Machine, FULL};
use crate::lines::{convex_table, frame, refused_table, Sort};
use crate::random::Random;
use crate::rosters::PERIODS;

/// The character of a sheet: each has its own, so that rosters fill, overflow, and come and go.
struct Mixture {
    machine: Machine,
    /// Ids are drawn up to this one.
    largest_id: u32,
    periods: Vec<u32>,
    /// Costs are drawn up to the period divided by this.
    divisor: u32,
    /// One job in so many has a deadline of its own.
    with_deadline: u32,
    /// One line in so many is malformed, a retirement, a plan wanted, its slack wanted, a table, a machine.
    rates: [u32; 6],
}

impl Mixture {
    fn any(random: &mut Random) -> Self {
        let rare = [3, 10, 50, 1_000_000];
        let wanted = [2, 5, 20, 100];
        let rates = [rare, [3, 5, 10, 40], wanted, wanted, rare, rare].map(|of| random.choose(&of));
        Mixture {
            machine: machine(random),
            largest_id: random.choose(&[5, 40, 80, 300, 65_535]),
            periods: periods(random),
            divisor: random.choose(&[1, 1, 2, 4, 16, 64, 500]),
            with_deadline: random.choose(&[1, 2, 10, 1_000_000]),
            rates,
        }
    }

    fn draw(&self, draft: &mut Draft, random: &mut Random) {
        let [malformed, retirement, plan, slack, table, machine] = self.rates;
        if random.one_in(malformed) {
            draft.line(&random.choose(&Sort::ALL).line(random));
        } else if random.one_in(retirement) {
            let id = if random.one_in(40) { 0 } else { random.between(1, self.largest_id) };
            draft.retire(id);
        } else if random.one_in(plan) {
            draft.plan();
        } else if random.one_in(slack) {
            draft.slack();
        } else if random.one_in(table) {
            self.draw_table(draft, random);
        } else if random.one_in(machine) {
            draft.machine(any_machine(random));
        } else {
            draft.admit(self.job(random));
        }
    }

    fn draw_table(&self, draft: &mut Draft, random: &mut Random) {
        let levels = if self.machine.levels == 0 { 1 } else { self.machine.levels.min(32) as usize };
        let levels = if random.one_in(6) { random.between(1, 32) as usize } else { levels };
        match random.between(1, 4) {
            1 => draft.power(&refused_table(levels, random)),
            2 => draft.line(&frame(2, 4 * levels, random)),
            _ => draft.power(&convex_table(levels, random)),
        }
    }

    fn job(&self, random: &mut Random) -> Job {
        let period = random.choose(&self.periods);
        let mut job = Job { id: random.between(1, self.largest_id), cost: 0, period, deadline: None };
        job.cost = match random.between(1, 40) {
            1 => period.max(1),
            2 => (period + 1).min(65_535),
            3 => random.between(1, 65_535),
            4 if random.one_in(4) => 0,
            _ => random.between(1, (period / self.divisor).max(1)),
        };
        if random.one_in(self.with_deadline) {
            job = with_deadline(job, random);
        }
        match random.between(1, 400) {
            1 => job.id = 0,
            2 => job.period = 0,
            3..=6 => job.period = random.between(1, 65_535),
            _ => {}
        }
        job
    }
}

/// The job with a deadline. Mostly it stands where the period ended, so that the cost is one drawn for it and the
/// hyperperiod is no longer; the period ends there too or goes on. Now and then it is anywhere in the period, or out of
/// its range: 0, or one beyond the period.
fn with_deadline(job: Job, random: &mut Random) -> Job {
    let end = job.period;
    let (period, deadline) = match random.between(1, 20) {
        1 => (end, 0),
        2 => (end - 1, end),
        3 => (end, random.between(1, end)),
        4..=9 => (end, end),
        _ => (random.between(end, 65_535), end),
    };
    Job { period, deadline: Some(deadline), ..job }
}

fn periods(random: &mut Random) -> Vec<u32> {
    match random.between(1, 6) {
        1 => PERIODS.to_vec(),
        2 => (0..=15).map(|power| 1 << power).collect(),
        3 => vec![random.between(1, 65_535)],
        4 => (1..=16).collect(),
        5 => vec![4095, 4096, 4097, 1, 273, 65_535, 255, 256],
        _ => (0..5).map(|_| random.between(1, 2000)).collect(),
    }
}

/// A machine in its ranges.
fn machine(random: &mut Random) -> Machine {
    let processors = random.choose(&[1, 2, 3, 4, 8, 31, 32]);
    let levels = random.choose(&[1, 2, 3, 4, 9, 31, 32]);
    let step = random.between(1, 255 / (levels - 1).max(1));
    let highest = 256 - (levels - 1) * step;
    let lowest = if random.one_in(3) { random.choose(&[1, highest]) } else { random.between(1, highest) };
    Machine { processors, levels, lowest, step }
}

/// A machine in its ranges or a little beyond.
fn any_machine(random: &mut Random) -> Machine {
    let mut any = machine(random);
    match random.between(1, 6) {
        1 => any.processors = random.choose(&[0, 33, 255]),
        2 => any.levels = random.choose(&[0, 33, 255]),
        3 => any.lowest = random.choose(&[0, 256, 257, 65_535]),
        4 => any.step = random.choose(&[0, 255, 256, 65_535]),
        5 => any.lowest = 257 - (any.levels - 1) * any.step,
        _ => {}
    }
    any
}

/// A sheet of up to so many bytes, seldom one byte too long.
pub fn sheet(length: usize, random: &mut Random) -> Vec<u8> {
    let mixture = Mixture::any(random);
    let mut draft = Draft::default();
    while random.one_in(6) {
        mixture.draw(&mut draft, random);
        draft.machine(any_machine(random));
    }
    draft.machine(mixture.machine);
    draft.fill(length, |draft| mixture.draw(draft, random));
    let mut bytes = draft.bytes();
    damage(&mut bytes, random);
    bytes
}

/// Now and then other letters, a wrong byte, a last line without its 0A, or a sheet of exactly the longest length or
/// one more.
fn damage(bytes: &mut Vec<u8>, random: &mut Random) {
    if random.one_in(5) {
        bytes.make_ascii_lowercase();
    }
    if random.one_in(20) {
        let place = random.index(bytes.len());
        bytes[place] = random.between(0, 255) as u8;
    }
    if random.one_in(40) {
        bytes.truncate(random.index(bytes.len() + 1));
    }
    if random.one_in(200) {
        bytes.resize(FULL + random.index(2), b'\n');
    }
}
