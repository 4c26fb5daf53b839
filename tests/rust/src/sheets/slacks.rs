//! The slack wanted again and again: tests met exactly, with a remainder of choice, and while jobs come and go.

use super::draft::Draft;
use super::exact::{admit_all, plan_speeds};
use super::lives::{job, retire_some, Deadlines};
use super::machines;
use super::refused;
use crate::planner::frames::Frame;
use crate::random::Random;

/// Family k.
pub fn slacks(draft: &mut Draft) {
    draft.unsettle();
    let machine = match draft.random.below(3) {
        0 => machines::valid(&mut draft.random),
        _ => fine(&mut draft.random),
    };
    draft.put(&machine);
    if draft.random.one_in(2) {
        with_remainder(draft);
        draft.want();
    } else {
        coming_and_going(draft);
    }
    draft.finish();
}

/// A machine with a top speed of 256 or a little less, so that a remainder may be anything.
fn fine(random: &mut Random) -> Frame {
    let m = random.pick(&[1, 2, 3, 4, 5, 8, 32]);
    let l = random.pick(&[2, 2, 3, 4, 6, 16, 18, 32]);
    let top = random.pick(&[256, 256, 256, 255, 251, 241]);
    let d = random.between(1, (top - 1) / (l - 1));
    machines::frame(m, l, top - (l - 1) * d, d)
}

/// A deadline and costs that leave test k of some plan with no tick and a chosen remainder: none, the largest or any.
fn with_remainder(draft: &mut Draft) {
    let top = u64::from(draft.machine().top());
    for _ in 0..8 {
        let speeds = plan_speeds(draft);
        let k = draft.random.between(1, speeds.len() as u64) as usize;
        let sum: u64 = speeds[..k].iter().sum();
        let any = draft.random.below(top);
        let remainder = draft.random.pick(&[0, top - 1, top - 1, any]);
        let start = draft.random.between(top, 65_535 - top);
        let exact = |deadline: &u64| (deadline * sum - remainder) % top == 0;
        let Some(deadline) = (start..start + top).find(exact) else {
            continue;
        };
        let total = (deadline * sum - remainder) / top;
        let mut costs: Vec<u64> = speeds[..k - 1].iter().map(|speed| deadline * speed / top).collect();
        costs.push(total.saturating_sub(costs.iter().sum()).max(1));
        admit_all(draft, &costs, deadline);
        return;
    }
}

fn coming_and_going(draft: &mut Draft) {
    let mut deadlines = Deadlines::any(&mut draft.random);
    let mut ids = Vec::new();
    let weight = draft.random.pick(&[20, 60, 100]);
    for _ in 0..draft.random.between(3, 12) {
        if draft.random.one_in(4) {
            retire_some(draft, &mut ids);
        } else {
            let id = refused::new_id(draft);
            let frame = job(draft, id, &mut deadlines, weight);
            offer_or_put(draft, &frame);
        }
        if !draft.random.one_in(3) {
            draft.want();
        }
    }
}

// The host's call would end at a job that does not fit.
fn offer_or_put(draft: &mut Draft, frame: &Frame) {
    if draft.goes_on() {
        draft.put(frame);
    } else {
        draft.offer(frame);
    }
}
