//! Tests met exactly and missed by one, and equal works.

use super::draft::Draft;
use super::machines;
use super::refused;
use crate::planner::capacity::least_common_multiple;

/// Family b.
pub fn exact(draft: &mut Draft) {
    draft.unsettle();
    let machine = match draft.random.below(3) {
        0 => machines::small(&mut draft.random),
        _ => machines::valid(&mut draft.random),
    };
    draft.put(&machine);
    match draft.random.below(8) {
        0..=2 => on_levels(draft),
        3..=5 => off_by_one(draft),
        _ => full_load(draft),
    }
    draft.finish();
}

/// The speeds of a never-rising plan.
pub fn plan_speeds(draft: &mut Draft) -> Vec<u64> {
    let machine = draft.machine();
    let levels = u64::from(machine.levels);
    let mut plan: Vec<u32> = (0..machine.processors).map(|_| draft.random.below(levels) as u32).collect();
    plan.sort_unstable_by(|a, b| b.cmp(a));
    plan.iter().map(|&level| u64::from(machine.speed(level))).collect()
}

pub fn admit_all(draft: &mut Draft, costs: &[u64], deadline: u64) {
    let mut order: Vec<u64> = costs.to_vec();
    if draft.random.one_in(2) {
        draft.random.shuffle(&mut order);
    }
    for cost in order {
        let id = refused::new_id(draft);
        draft.admit(id, cost.clamp(1, 65_535), deadline);
    }
}

/// The deadline is a multiple of Q, and each job needs just its processor's speed; one cost may be off by one.
fn on_levels(draft: &mut Draft) {
    let top = u64::from(draft.machine().top());
    let ticks = draft.random.between(1, 65_535 / top);
    let speeds = plan_speeds(draft);
    let count = draft.random.between(1, speeds.len() as u64) as usize;
    let mut costs: Vec<u64> = speeds[..count].iter().map(|speed| speed * ticks).collect();
    let place = draft.random.below(count as u64) as usize;
    costs[place] = costs[place] + draft.random.pick(&[0, 0, 1, 2]) - u64::from(costs[place] > 1);
    if draft.random.one_in(2) {
        split_last(draft, &mut costs);
    }
    admit_all(draft, &costs, top * ticks);
}

/// The last cost becomes several, so that the whole test counts jobs beyond the m-th.
fn split_last(draft: &mut Draft, costs: &mut Vec<u64>) {
    for _ in 0..draft.random.between(1, 3) {
        let last = costs.pop().expect("a cost to split");
        if last < 2 {
            costs.push(last);
            return;
        }
        let part = draft.random.between(1, last - 1);
        costs.push(part.max(last - part));
        costs.push(part.min(last - part));
    }
}

/// A deadline and costs for which the two sides of test k differ by exactly one.
fn off_by_one(draft: &mut Draft) {
    let top = u64::from(draft.machine().top());
    for _ in 0..8 {
        let speeds = plan_speeds(draft);
        let m = speeds.len();
        let k = if draft.random.one_in(2) { m } else { draft.random.between(1, m as u64) as usize };
        let sum: u64 = speeds[..k].iter().sum();
        let start = draft.random.between(1, 65_535 - top);
        let above = draft.random.one_in(2);
        let need = |deadline: u64| if above { deadline * sum + 1 } else { deadline * sum - 1 };
        // Only the deadline's remainder by Q matters, so Q deadlines in a row hold one where any does.
        let Some(deadline) = (start..start + top).find(|&deadline| need(deadline) % top == 0) else {
            continue;
        };
        let total = need(deadline) / top;
        let mut costs: Vec<u64> = speeds[..k - 1].iter().map(|speed| deadline * speed / top).collect();
        let rest = total.saturating_sub(costs.iter().sum());
        costs.push(rest.max(1));
        if k == m && draft.random.one_in(2) {
            split_last(draft, &mut costs);
        }
        admit_all(draft, &costs, deadline);
        return;
    }
}

/// All works together fill every processor at top speed, or one tick more or less.
fn full_load(draft: &mut Draft) {
    let m = u64::from(draft.machine().processors);
    let deadline = draft.random.pick(&[1, 2, 3, 10, 997, 65_534]);
    let mut costs = Vec::new();
    for _ in 0..m {
        let part = draft.random.between(1, deadline);
        if part == deadline || draft.random.one_in(3) {
            costs.push(deadline);
        } else {
            costs.extend([part, deadline - part]);
        }
    }
    let last = costs.pop().expect("a processor has a job");
    admit_all(draft, &costs, deadline);
    let id = refused::new_id(draft);
    let cost = draft.random.pick(&[last, last, last + 1, last + 1, last.max(2) - 1]);
    let frame = draft.job(id, cost, deadline);
    if draft.goes_on() || draft.random.one_in(2) {
        draft.put(&frame);
    } else {
        draft.offer(&frame);
    }
}

/// Family c: equal works from different costs and deadlines, or works that differ by very little.
pub fn equal_works(draft: &mut Draft) {
    draft.unsettle();
    let machine = machines::valid(&mut draft.random);
    draft.put(&machine);
    match draft.random.below(4) {
        0 => nearly_equal(draft),
        _ => one_ratio(draft),
    }
    if draft.random.one_in(3) {
        let extra = draft.random.between(1, 4);
        super::lives::admit_some(draft, extra);
    }
    draft.finish();
}

/// Two jobs in a long cycle whose works lie next to each other on both sides of what one speed offers: the wrong order shows.
fn nearly_equal(draft: &mut Draft) {
    let pairs = [(4_095, 4_097), (4_095, 4_096), (4_093, 4_099), (255, 65_535), (3_000, 5_591), (1, 65_521)];
    let machine = draft.machine();
    let top = u64::from(machine.top());
    let mut best = (u64::MAX, (1, 1), (1, 1));
    for _ in 0..40 {
        let (one, other) = draft.random.pick(&pairs);
        let (one, other) = if draft.random.one_in(2) { (one, other) } else { (other, one) };
        let cycle = least_common_multiple(one, other);
        let speed = u64::from(machine.speed(draft.random.below(u64::from(machine.levels)) as u32));
        let above = cycle as u64 * speed / top / (cycle / one) as u64 + 1;
        let below = cycle as u64 * speed / top / (cycle / other) as u64;
        let gap = above * (cycle / one) as u64 - below * (cycle / other) as u64;
        if gap < best.0 && below > 0 && above <= one as u64 {
            best = (gap, (above, one as u64), (below, other as u64));
        }
    }
    for (cost, deadline) in [best.1, best.2] {
        let id = refused::new_id(draft);
        draft.admit(id, cost, deadline);
    }
}

/// One ratio as several pairs of cost and deadline, some of them off by a little.
fn one_ratio(draft: &mut Draft) {
    let deadline = draft.random.pick(&[1, 2, 3, 4, 5, 7, 10, 16, 100, 1_000]);
    let cost = draft.random.between(1, deadline);
    for _ in 0..draft.random.between(2, 14) {
        let factor = draft.random.pick(&[1, 2, 3, 4, 6, 8, 12, 24, 48, 64]);
        let nudge = draft.random.pick(&[0, 0, 0, 0, 1]);
        let cost = (cost * factor).max(nudge + 1) - nudge;
        let id = refused::new_id(draft);
        draft.admit(id, cost, deadline * factor);
        if draft.goes_on() && draft.random.one_in(5) {
            draft.unsettle();
        }
    }
}
