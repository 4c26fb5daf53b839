//! Lines that are refused by a chosen number in the state of the draft, often with a later condition of the order holding too.

use super::damage;
use super::draft::{admission, with_deadline, Draft};
use super::machines;
use super::tables;
use crate::planner::capacity::least_common_multiple;
use crate::planner::frames::Frame;
use crate::planner::refusal::{Refusal, OF_A_LINE};

/// A refused line of some number that the state permits.
pub fn any(draft: &mut Draft) {
    for _ in 0..8 {
        let number = draft.random.pick(&OF_A_LINE);
        if of_number(draft, number) {
            return;
        }
    }
}

/// Adds a line refused by this number; false where the state does not permit one.
pub fn of_number(draft: &mut Draft, number: Refusal) -> bool {
    let open = draft.book.machine().is_some();
    let frame = match number {
        1 if !open => Some(machines::wrong_processors(&mut draft.random)),
        2 if !open => Some(machines::wrong_speeds(&mut draft.random)),
        3 if open => Some(tables::refused(draft)),
        4 if open => Some(out_of_range(draft)),
        5 => {
            damage::damaged_line(draft);
            return true;
        }
        11 if !open => Some(without_machine(draft)),
        12 if open => Some(machines::at_an_edge(&mut draft.random)),
        13 if open => id_held(draft),
        14 if open => Some(Frame::Retire { id: new_id(draft) as u32 }),
        15 if open && draft.book.jobs().len() == 64 => Some(any_admission(draft)),
        16 if open && draft.book.jobs().len() < 64 => cycle_too_long(draft),
        17 if open && draft.book.jobs().len() < 64 => Some(no_plan(draft)),
        _ => None,
    };
    if let Some(frame) = &frame {
        draft.put(frame);
    }
    frame.is_some()
}

/// An id that is not on the roster, often next to one that is.
pub fn new_id(draft: &mut Draft) -> u64 {
    loop {
        let id = match draft.random.below(4) {
            0 => draft.random.between(1, 70),
            1 => draft.random.pick(&[1, 255, 256, 257, 65_534, 65_535]),
            _ => draft.random.between(1, 65_535),
        };
        if !draft.book.holds(id as u32) {
            return id;
        }
    }
}

fn out_of_range(draft: &mut Draft) -> Frame {
    match draft.random.below(4) {
        0 if draft.has_deadlines() => zeros_of_06(draft),
        1 if draft.has_deadlines() => wrong_deadline(draft),
        _ => zeros(draft),
    }
}

fn zeros(draft: &mut Draft) -> Frame {
    let id = new_id(draft);
    match draft.random.below(5) {
        0 => Frame::Retire { id: 0 },
        1 => admission(0, 1, 10),
        2 => admission(id, 0, 10),
        3 => admission(id, 1, 0),
        _ => admission(0, 0, 0),
    }
}

fn zeros_of_06(draft: &mut Draft) -> Frame {
    let id = new_id(draft);
    let deadline = draft.random.between(1, 10);
    match draft.random.below(5) {
        0 => with_deadline(0, 1, 10, deadline),
        1 => with_deadline(id, 0, 10, deadline),
        2 => with_deadline(id, 1, 0, deadline),
        3 => with_deadline(id, 1, 0, 0),
        _ => with_deadline(0, 0, 0, 0),
    }
}

/// Frame 06 with a deadline of 0 or after the period's end, under a new id or under one that is held. The cost may be beyond the
/// deadline, and the deadline may make the cycle too long.
pub fn wrong_deadline(draft: &mut Draft) -> Frame {
    let jobs = draft.book.jobs();
    let id = match draft.random.below(3) {
        0 if !jobs.is_empty() => u64::from(draft.random.pick(&jobs).id),
        _ => new_id(draft),
    };
    let any = draft.random.between(1, 65_534);
    let period = draft.random.pick(&[1, 2, 10, 255, 996, 4_096, 65_520, 65_534, any]);
    let beyond = draft.random.between(period + 1, 65_535);
    let deadline = draft.random.pick(&[0, 0, period + 1, period + 1, 65_535, beyond]);
    let cost = draft.random.pick(&[1, 1, period, (deadline + 1).min(65_535)]);
    with_deadline(id, cost, period, deadline)
}

fn without_machine(draft: &mut Draft) -> Frame {
    match draft.random.below(if draft.goes_on() { 6 } else { 4 }) {
        0 => Frame::Power(vec![draft.random.below(20) as u32; draft.random.between(1, 32) as usize]),
        1 => any_admission(draft),
        2 => Frame::Retire { id: draft.random.below(3) as u32 },
        3 => out_of_range(draft),
        4 => Frame::Slack,
        _ => Frame::Plan,
    }
}

fn any_admission(draft: &mut Draft) -> Frame {
    let id = new_id(draft);
    let deadline = draft.random.pick(&[1, 10, 48, 997, 65_521, 65_535]);
    let cost = draft.random.between(1, 65_535);
    let cost = if draft.random.one_in(2) { 1 } else { cost };
    draft.job(id, cost, deadline)
}

fn id_held(draft: &mut Draft) -> Option<Frame> {
    let jobs = draft.book.jobs();
    if jobs.is_empty() {
        return None;
    }
    let id = draft.random.pick(&jobs).id;
    let deadline = draft.random.pick(&[1, 10, 65_521, 65_535]);
    let cost = draft.random.pick(&[1, 11, 65_535]);
    Some(draft.job(u64::from(id), cost, deadline))
}

fn cycle_too_long(draft: &mut Draft) -> Option<Frame> {
    let id = new_id(draft);
    let cycle = u128::from(draft.cycle());
    for _ in 0..20 {
        let deadline = match draft.random.below(3) {
            0 => draft.random.pick(&[65_521, 65_519, 65_497, 65_533, 65_535, 4_096, 4_097, 673, 257, 97]),
            1 => draft.random.between(60_000, 65_535),
            _ => draft.random.between(1, 65_535),
        };
        if least_common_multiple(cycle, u128::from(deadline)) > 16_777_216 {
            let cost = match draft.random.below(4) {
                0 | 1 => 1,
                2 => (deadline + 1).min(65_535),
                _ => draft.random.between(1, 65_535),
            };
            return Some(draft.job(id, cost, deadline));
        }
    }
    None
}

/// Too heavy by itself, by one tick or by far; or too much only together with the jobs held, again by one tick where that fits.
fn no_plan(draft: &mut Draft) -> Frame {
    let id = new_id(draft);
    let cycle = draft.cycle();
    let room = free_work(draft);
    if cycle <= 65_535 && room < cycle && !draft.random.one_in(3) {
        let cost = draft.random.pick(&[room + 1, room + 1, cycle]);
        return draft.job(id, cost, cycle);
    }
    let deadline = match draft.book.jobs().first() {
        Some(job) => u64::from(job.deadline),
        None => draft.random.between(1, 65_534),
    };
    let deadline = deadline.min(65_534);
    let deadline = if cycle % deadline == 0 || cycle == 1 { deadline } else { 1 };
    let cost = draft.random.pick(&[deadline + 1, deadline + 1, 65_535]);
    draft.job(id, cost, deadline)
}

/// The work that every processor at top speed would still have free in a cycle.
pub fn free_work(draft: &Draft) -> u64 {
    let cycle = draft.cycle();
    let jobs = draft.book.jobs();
    let used: u64 = jobs.iter().map(|job| u64::from(job.cost) * (cycle / u64::from(job.deadline))).sum();
    u64::from(draft.machine().processors) * cycle - used
}
