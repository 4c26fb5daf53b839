//! Deadlines before the period's end (request 2026-04): at the ends of their range, cycles and works that the periods would make
//! others, and frames 06 against which two conditions stand.

use super::cycles;
use super::draft::{admission, due_within, with_deadline, Draft};
use super::lives::retire_some;
use super::machines;
use super::refused;
use crate::planner::frames::Frame;
use crate::planner::refusal::{Refusal, TWO_AT_ONCE};

fn open(draft: &mut Draft) {
    draft.unsettle();
    let machine = machines::valid(&mut draft.random);
    draft.put(&machine);
}

/// Family A: jobs that are accepted, and between them, or at the end, those that are not.
pub fn ends(draft: &mut Draft) {
    open(draft);
    let mut ids = Vec::new();
    for _ in 0..draft.random.between(1, 6) {
        let job = at_an_end(draft, &mut ids);
        draft.offer(&job);
        if draft.goes_on() && draft.random.one_in(2) {
            let job = beyond_an_end(draft);
            draft.put(&job);
            draft.unsettle();
        }
        if draft.random.one_in(5) && !draft.book.jobs().is_empty() {
            retire_some(draft, &mut ids);
        }
    }
    if draft.goes_on() || draft.random.one_in(3) {
        let job = beyond_an_end(draft);
        draft.put(&job);
    }
    draft.finish();
}

/// A job with its deadline at an end of the range, and its cost at an end of what fits. Its id may have been another job's.
fn at_an_end(draft: &mut Draft, ids: &mut Vec<u64>) -> Frame {
    let id = match ids.pop() {
        Some(id) if !draft.book.holds(id as u32) => id,
        _ => refused::new_id(draft),
    };
    let any = draft.random.between(1, 65_535);
    let period = draft.random.pick(&[1, 2, 3, 10, 256, 32_768, 32_769, 65_534, 65_535, 65_535, any]);
    if draft.random.one_in(5) {
        return admission(id, draft.random.between(1, period), period);
    }
    let any = draft.random.between(1, period);
    let deadline = draft.random.pick(&[1, period, period, (period - 1).max(1), (period / 2).max(1), any]);
    let cost = draft.random.pick(&[1, 1, deadline, (deadline - 1).max(1), (deadline / 3).max(1)]);
    with_deadline(id, cost, period, deadline)
}

/// A deadline out of its range, or a cost just beyond the deadline.
fn beyond_an_end(draft: &mut Draft) -> Frame {
    if draft.random.one_in(2) {
        return refused::wrong_deadline(draft);
    }
    let id = refused::new_id(draft);
    let deadline = draft.random.pick(&[1, 2, 9, 255, 256, 32_767, 65_533]);
    let most = draft.random.between(deadline + 1, 65_535);
    with_deadline(id, deadline + 1, draft.random.pick(&[deadline + 1, deadline + 2, 65_535, most]), deadline)
}

/// Periods without a common divisor: two of the longest have a cycle far beyond the limit.
const PRIMES: [u64; 8] = [65_521, 65_519, 65_497, 65_479, 65_449, 32_771, 16_411, 8_209];

/// Family B.
pub fn cycles(draft: &mut Draft) {
    open(draft);
    let jobs = match draft.random.below(3) {
        0 => short_deadlines(draft),
        1 => one_period(draft),
        _ => any_periods(draft),
    };
    cycles::reach(draft, &jobs);
    draft.finish();
}

/// Deadlines with a short cycle, and periods with none within the limit.
fn short_deadlines(draft: &mut Draft) -> Vec<Frame> {
    let mut jobs = Vec::new();
    for _ in 0..draft.random.between(2, 8) {
        let id = refused::new_id(draft);
        let deadline = draft.random.pick(&[1, 2, 12, 60, 360, 720, 5_040]);
        let cost = draft.random.between(1, deadline);
        jobs.push(with_deadline(id, cost, draft.random.pick(&PRIMES), deadline));
    }
    jobs
}

/// One period for all jobs, and deadlines with a cycle at the limit, from both sides.
fn one_period(draft: &mut Draft) -> Vec<Frame> {
    let deadlines = cycles::goal(&mut draft.random);
    let longest = deadlines.iter().copied().max().unwrap_or(1);
    let period = draft.random.pick(&[longest, 65_520, 65_535, 65_535]).max(longest);
    let job = |&deadline: &u64| {
        let id = refused::new_id(draft);
        let cost = cycles::cost(draft, deadline);
        with_deadline(id, cost, period, deadline)
    };
    deadlines.iter().map(job).collect()
}

/// The same deadlines with any periods.
fn any_periods(draft: &mut Draft) -> Vec<Frame> {
    let deadlines = cycles::goal(&mut draft.random);
    let job = |&deadline: &u64| {
        let id = refused::new_id(draft);
        let cost = cycles::cost(draft, deadline);
        due_within(&mut draft.random, id, cost, deadline)
    };
    deadlines.iter().map(job).collect()
}

/// Two deadlines, of which the second makes the first one's cycle too long.
const TOO_LONG: [(u64, u64); 5] = [(4_096, 4_097), (257, 65_281), (24_929, 673), (1_000, 65_521), (65_519, 65_521)];

/// Family C: every two conditions in turn.
pub fn refusals(draft: &mut Draft) {
    let (held, next) = draft.random.pick(&TOO_LONG);
    let (first, later) = TWO_AT_ONCE[draft.index % TWO_AT_ONCE.len()];
    if first == 11 {
        let job = against_both(draft, (first, later), next, next);
        draft.put(&job);
        draft.finish();
        return;
    }
    open(draft);
    let full = first == 15 || later == 15;
    let jobs = if full { 64 } else { draft.random.between(1, 6) };
    while (draft.book.jobs().len() as u64) < jobs {
        let id = refused::new_id(draft);
        draft.admit(id, 1, held);
    }
    let count = if draft.goes_on() { 4 } else { 1 };
    for _ in 0..count {
        let job = against_both(draft, (first, later), held, next);
        draft.put(&job);
    }
    draft.finish();
}

/// Frame 06 against which both conditions stand in a roster whose jobs have the first deadline; the second is too much for it.
fn against_both(draft: &mut Draft, two: (Refusal, Refusal), held: u64, next: u64) -> Frame {
    let holds = |number: Refusal| two.0 == number || two.1 == number;
    let id = match draft.book.jobs().first() {
        Some(job) if holds(13) => u64::from(job.id),
        _ => refused::new_id(draft),
    };
    let deadline = if holds(16) { next } else { held };
    let cost = if holds(17) { (deadline + 1).min(65_535) } else { 1 };
    if !holds(4) {
        return due_within(&mut draft.random, id, cost, deadline);
    }
    // Of 0 it can't be said what its cycle would be.
    if !holds(16) && !holds(17) && draft.random.one_in(2) {
        return with_deadline(id, cost, deadline, 0);
    }
    let shorter = draft.random.between(1, deadline - 1);
    with_deadline(id, cost, draft.random.pick(&[deadline - 1, shorter]), deadline)
}

/// Family D: one cost over period for all jobs and different works, or the other way round.
pub fn parted(draft: &mut Draft) {
    open(draft);
    let unit = draft.random.pick(&[1, 2, 3, 4, 6, 12]);
    let (cost, ticks) = (draft.random.between(1, 4) * unit, draft.random.between(4, 9) * unit);
    let by_period = draft.random.one_in(2);
    for _ in 0..draft.random.between(2, 12) {
        let factor = draft.random.pick(&[1, 2, 3, 4, 6, 12, 24]);
        let id = refused::new_id(draft);
        let job = if by_period {
            let deadline = ticks - draft.random.below(ticks - cost + 1);
            with_deadline(id, cost * factor, ticks * factor, deadline * factor)
        } else {
            due_within(&mut draft.random, id, cost * factor, ticks * factor)
        };
        draft.offer(&job);
        if draft.random.one_in(6) {
            draft.admit(id, cost, ticks);
        }
        if draft.goes_on() && draft.random.one_in(6) {
            draft.unsettle();
        }
    }
    draft.finish();
}
