//! Rosters for the order in which jobs are taken: ties from different costs and deadlines, works that hardly differ, and few jobs
//! or none. Refused lines and retirements stand between the admissions.

use super::draft::Draft;
use super::machines;
use super::refused;
use crate::planner::frames::Frame;
use crate::random::Random;

/// Short cycles, longer ones with many divisors, and the longest that deadlines can reach.
const CYCLES: [u64; 18] = [
    1, 2, 6, 12, 24, 64, 120, 360, 720, 5_040, 27_720, 46_080, 55_440, 65_520, 65_535, 720_720, 16_773_120, 16_777_215,
];

/// A cost and its deadline.
type Pair = (u64, u64);

/// A cycle and the deadlines that divide it.
struct Cycle {
    ticks: u64,
    deadlines: Vec<u64>,
}

impl Cycle {
    fn new(ticks: u64) -> Self {
        let smaller = (1..=4_096).filter(|divisor| ticks % divisor == 0);
        let deadlines = smaller.flat_map(|divisor| [divisor, ticks / divisor]).filter(|&deadline| deadline <= 65_535);
        Cycle { ticks, deadlines: deadlines.collect() }
    }

    /// A cycle in which a machine with m processors has room for so many jobs of different works.
    fn with_room(random: &mut Random, m: u64, jobs: u64) -> Self {
        loop {
            let ticks = random.pick(&CYCLES);
            if ticks >= jobs && m * ticks >= jobs * (jobs + 1) {
                return Cycle::new(ticks);
            }
        }
    }

    /// A work of at most so many ticks where some deadline has one; most often several deadlines have it.
    fn work(&self, random: &mut Random, most: u64) -> u64 {
        let light: Vec<u64> = self.deadlines.iter().copied().filter(|deadline| self.ticks / deadline <= most).collect();
        let deadline = random.pick(if light.is_empty() { &self.deadlines } else { &light });
        let least = self.ticks / deadline;
        least * random.between(1, (most.min(self.ticks) / least).max(1))
    }

    /// Any of the pairs that have this work in the cycle.
    fn pair(&self, random: &mut Random, work: u64) -> Pair {
        let whole = |deadline: &u64| work % (self.ticks / deadline) == 0;
        let deadlines: Vec<u64> = self.deadlines.iter().copied().filter(whole).collect();
        let deadline = random.pick(&deadlines);
        (work / (self.ticks / deadline), deadline)
    }
}

/// Different ids in a row or far apart, to be taken from the end: rising, falling or in any order.
fn ids(random: &mut Random) -> Vec<u64> {
    let start = random.pick(&[1, 1, 200, 32_700, 65_535 - 99]);
    let mut ids: Vec<u64> = match random.below(3) {
        0 => (0..100).map(|_| random.between(1, 65_535)).collect(),
        _ => (start..start + 100).collect(),
    };
    match random.below(4) {
        0 => ids.sort_unstable(),
        1 => ids.sort_unstable_by(|one, other| other.cmp(one)),
        _ => random.shuffle(&mut ids),
    }
    ids
}

fn open(draft: &mut Draft) {
    if draft.random.one_in(4) {
        draft.unsettle();
    }
    let machine = machines::valid(&mut draft.random);
    draft.put(&machine);
}

/// The jobs that a sheet aims at: 64 often.
fn target(random: &mut Random) -> u64 {
    match random.below(3) {
        0 => 64,
        1 => random.between(13, 63),
        _ => random.between(2, 12),
    }
}

/// Admits the pairs until so many jobs are held, with other lines between. Some pairs may be too much for the machine.
fn admit_pairs(draft: &mut Draft, ids: &mut Vec<u64>, pairs: &[Pair], target: u64) {
    for &(cost, deadline) in pairs {
        if draft.book.jobs().len() as u64 == target {
            return;
        }
        let id = match ids.pop() {
            Some(id) if !draft.book.holds(id as u32) => id,
            _ => refused::new_id(draft),
        };
        let frame = draft.job(id, cost, deadline);
        draft.put(&frame);
        if draft.random.one_in(12) {
            let number = draft.random.pick(&[4, 5, 5, 12, 13, 13, 14, 16, 16, 17, 17]);
            refused::of_number(draft, number);
        }
        if draft.random.one_in(14) {
            retire_one(draft, ids);
        }
        if draft.random.one_in(40) {
            draft.want();
        }
    }
}

/// Retires a job, whose id may come again.
fn retire_one(draft: &mut Draft, ids: &mut Vec<u64>) {
    let jobs = draft.book.jobs();
    if jobs.is_empty() {
        return;
    }
    let id = draft.random.pick(&jobs).id;
    draft.put(&Frame::Retire { id });
    if draft.random.one_in(2) {
        ids.push(u64::from(id));
    }
}

/// The pairs, then refused lines for a full roster, and at times some jobs retired and others in their places.
fn live(draft: &mut Draft, pairs: &[Pair], target: u64) {
    let mut ids = ids(&mut draft.random);
    admit_pairs(draft, &mut ids, pairs, target);
    if draft.book.jobs().len() == 64 {
        let number = draft.random.pick(&[13, 15]);
        refused::of_number(draft, number);
    }
    if draft.random.one_in(2) {
        for _ in 0..draft.random.between(1, 6) {
            retire_one(draft, &mut ids);
        }
        if !draft.random.one_in(3) {
            let mut again = pairs.to_vec();
            draft.random.shuffle(&mut again);
            admit_pairs(draft, &mut ids, &again, target);
        }
    }
    end(draft);
}

/// The last line is refused in most sheets; in some it is a line that only its 0A would make a good one.
fn end(draft: &mut Draft) {
    match draft.random.below(4) {
        0 | 1 => refused::any(draft),
        2 => {
            let jobs = draft.book.jobs();
            let frame = match draft.random.below(2) {
                0 if !jobs.is_empty() => Frame::Retire { id: draft.random.pick(&jobs).id },
                _ => {
                    let id = refused::new_id(draft);
                    draft.job(id, 1, 1)
                }
            };
            let text = draft.text(&frame);
            draft.raw(&text);
        }
        _ => (),
    }
}

/// Family v: a few works, each with several jobs, and some works besides.
pub fn ties(draft: &mut Draft) {
    open(draft);
    let target = target(&mut draft.random);
    let m = u64::from(draft.machine().processors);
    let cycle = Cycle::with_room(&mut draft.random, m, if target == 64 { 8 } else { 1 });
    let most = (2 * m * cycle.ticks / target).clamp(1, cycle.ticks);
    let kinds = draft.random.pick(&[1, 2, 3, 5, 8, 20]);
    let mut works: Vec<u64> = (0..kinds).map(|_| cycle.work(&mut draft.random, most)).collect();
    if draft.random.one_in(4) {
        works.push(cycle.ticks);
    }
    let single = draft.random.pick(&[2, 6, 30]);
    let pairs: Vec<Pair> = (0..target + target / 3 + 2)
        .map(|_| {
            let alone = draft.random.one_in(single);
            let work = if alone { cycle.work(&mut draft.random, most) } else { draft.random.pick(&works) };
            cycle.pair(&mut draft.random, work)
        })
        .collect();
    live(draft, &pairs, target);
}

/// Family w: one work for all.
pub fn all_equal(draft: &mut Draft) {
    open(draft);
    let target = target(&mut draft.random);
    let m = u64::from(draft.machine().processors);
    let cycle = Cycle::with_room(&mut draft.random, m, target.min(8));
    let work = cycle.work(&mut draft.random, (m * cycle.ticks / target).clamp(1, cycle.ticks));
    let pairs: Vec<Pair> = (0..target + 8).map(|_| cycle.pair(&mut draft.random, work)).collect();
    live(draft, &pairs, target);
}

/// Family x: as many works as jobs.
pub fn all_different(draft: &mut Draft) {
    open(draft);
    let target = target(&mut draft.random);
    let m = u64::from(draft.machine().processors);
    let cycle = Cycle::with_room(&mut draft.random, m, target);
    let most = (m * cycle.ticks / target * 3 / 2).clamp(target, cycle.ticks);
    let mut works: Vec<u64> = (0..4 * target).map(|_| cycle.work(&mut draft.random, most)).collect();
    works.sort_unstable();
    works.dedup();
    draft.random.shuffle(&mut works);
    let pairs: Vec<Pair> = works.iter().map(|&work| cycle.pair(&mut draft.random, work)).collect();
    live(draft, &pairs, target);
}

/// Two deadlines without a common divisor, and a number whose divisors may lengthen both.
const NEIGHBOURS: [(u64, u64, u64); 9] = [
    (2, 3, 720_720),
    (15, 16, 5_040),
    (63, 65, 360),
    (181, 191, 360),
    (255, 256, 240),
    (1_000, 1_001, 12),
    (4_093, 4_099, 1),
    (4_095, 4_096, 1),
    (4_095, 4_097, 1),
];

/// Family y: two works that differ by very little in a long cycle, each with several jobs.
pub fn neighbours(draft: &mut Draft) {
    open(draft);
    let (one, other, growth) = draft.random.pick(&NEIGHBOURS);
    let apart = draft.random.pick(&[1, 1, 1, 2, 3, 7]);
    let start = draft.random.between(1, one);
    // The two works in the cycle one x other: cost x other, and that much more or less.
    let near = |cost: u64| [cost * other + apart, (cost * other).saturating_sub(apart)];
    let next = |cost: u64| near(cost).into_iter().find(|&work| work > 0 && work % one == 0 && work <= one * other);
    let costs = (start..=one).chain(1..start).find_map(|cost| next(cost).map(|work| (cost, work / one)));
    // The shortest deadlines have no works that are so far apart.
    let Some((cost, next_cost)) = costs else {
        return;
    };
    let factors: Vec<u64> = (1..=65_535 / other).filter(|factor| growth % factor == 0).collect();
    let target = draft.random.between(2, 16);
    let pairs: Vec<Pair> = (0..target + 3)
        .map(|_| {
            let (cost, deadline) = draft.random.pick(&[(cost, one), (next_cost, other)]);
            let factor = draft.random.pick(&factors);
            (cost * factor, deadline * factor)
        })
        .collect();
    live(draft, &pairs, target);
}

/// Family z: no machine, no job or one.
pub fn few(draft: &mut Draft) {
    match draft.random.below(6) {
        0 => {
            for _ in 0..draft.random.below(4) {
                let number = draft.random.pick(&[1, 2, 5, 11, 11]);
                refused::of_number(draft, number);
            }
        }
        1 => open(draft),
        _ => {
            open(draft);
            let jobs = draft.random.between(1, 4);
            super::lives::admit_some(draft, jobs);
            for _ in draft.random.below(2)..jobs {
                retire_one(draft, &mut Vec::new());
            }
        }
    }
    end(draft);
}
