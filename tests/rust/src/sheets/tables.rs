//! Power tables, and the family with tables at every edge.

use super::draft::Draft;
use super::lives;
use super::machines;
use crate::planner::frames::Frame;
use crate::planner::power::GREATEST_VALUE;
use crate::random::Random;

/// A table that never falls and whose rises never shrink.
pub fn convex(random: &mut Random, levels: usize) -> Vec<u32> {
    let most = GREATEST_VALUE;
    match random.below(8) {
        0 => return vec![0; levels],
        1 => return vec![random.between(1, u64::from(most)) as u32; levels],
        2 => return vec![most; levels],
        _ => (),
    }
    let steps = levels.saturating_sub(1) as u32;
    let greatest_rise = most / steps.max(1);
    let bound = random.pick(&[1, 3, 100, greatest_rise, greatest_rise]).min(greatest_rise);
    let mut rises: Vec<u32> = (0..steps).map(|_| random.between(0, u64::from(bound)) as u32).collect();
    if random.one_in(4) {
        rises.fill(bound);
    }
    rises.sort_unstable();
    let rise: u32 = rises.iter().sum();
    let first = match random.below(4) {
        0 => 0,
        1 => most - rise,
        _ => random.between(0, u64::from(most - rise)) as u32,
    };
    let mut table = vec![first];
    for rise in rises {
        table.push(table[table.len() - 1] + rise);
    }
    table
}

/// A table refused by 3 with one fault, next to one that would be accepted.
pub fn refused(draft: &mut Draft) -> Frame {
    let levels = draft.machine().levels as usize;
    let random = &mut draft.random;
    let length = match random.below(6) {
        0 if levels > 1 => levels - 1,
        1 if levels < 32 => levels + 1,
        2 => random.between(1, 32) as usize,
        _ => levels,
    };
    let mut table = convex(random, length);
    if length == levels {
        spoil(random, &mut table);
    }
    Frame::Power(table)
}

fn spoil(random: &mut Random, table: &mut [u32]) {
    let last = table.len() - 1;
    let place = random.below(table.len() as u64) as usize;
    match random.below(4) {
        0 if last >= 2 => shrink_rise(random, table),
        1 if last >= 1 => {
            let place = place.max(1);
            table[place - 1] = table[place - 1].max(1);
            table[place] = table[place - 1] - 1;
        }
        2 => table[last] = GREATEST_VALUE + 1,
        3 => table[place] = random.pick(&[GREATEST_VALUE + 1, u32::MAX, 1 << 31]),
        _ => table[last] = GREATEST_VALUE + 1,
    }
}

/// All rises equal but one, which is smaller by one.
fn shrink_rise(random: &mut Random, table: &mut [u32]) {
    let rise = random.between(1, 1_000) as u32;
    let place = random.between(2, table.len() as u64 - 1) as usize;
    for level in 1..table.len() {
        table[0] = table[0].min(1_000);
        let short = u32::from(level >= place);
        table[level] = table[level - 1] + rise - short;
    }
}

/// Family f: a few jobs and several tables.
pub fn tables(draft: &mut Draft) {
    let machine = machines::valid(&mut draft.random);
    draft.unsettle();
    draft.put(&machine);
    let jobs = draft.random.between(0, 6);
    lives::admit_some(draft, jobs);
    for _ in 0..draft.random.between(1, 3) {
        let levels = draft.machine().levels as usize;
        let table = convex(&mut draft.random, levels);
        draft.put(&Frame::Power(table));
        draft.unsettle();
        if draft.goes_on() {
            let table = refused(draft);
            draft.put(&table);
            draft.put(&Frame::Plan);
        }
    }
    let more = draft.random.between(0, 2);
    lives::admit_some(draft, more);
    if !draft.goes_on() && draft.random.one_in(3) {
        let table = refused(draft);
        draft.put(&table);
    }
    draft.finish();
}
