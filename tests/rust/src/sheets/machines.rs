//! Machine frames, and the family with m, L, b, d and Q at the ends of their ranges and one beyond.

use super::draft::Draft;
use super::refused;
use crate::planner::frames::Frame;
use crate::random::Random;

/// A valid machine; its ends and its top speed 256 come often.
pub fn valid(random: &mut Random) -> Frame {
    let m = random.pick(&[1, 1, 2, 3, 4, 8, 31, 32, 32]) as u64;
    let m = if random.one_in(3) { random.between(1, 32) } else { m };
    let l = random.pick(&[1, 2, 3, 4, 5, 8, 16, 31, 32, 32]) as u64;
    let l = if random.one_in(3) { random.between(1, 32) } else { l };
    with(random, m, l)
}

/// A valid machine with these processors and levels.
pub fn with(random: &mut Random, m: u64, l: u64) -> Frame {
    if l == 1 {
        let b = random.pick(&[1, 2, 255, 256, 100]);
        let d = random.pick(&[1, 2, 254, 255, 100]);
        return frame(m, l, b, d);
    }
    let most = 255 / (l - 1);
    let d = match random.below(3) {
        0 => 1,
        1 => most,
        _ => random.between(1, most),
    };
    let greatest = 256 - (l - 1) * d;
    let b = match random.below(3) {
        0 => 1,
        1 => greatest,
        _ => random.between(1, greatest),
    };
    frame(m, l, b, d)
}

/// A small machine, within the reach of a brute force.
pub fn small(random: &mut Random) -> Frame {
    let (m, l) = (random.between(1, 4), random.between(1, 5));
    match random.below(3) {
        0 => frame(m, l, random.between(1, 4), random.between(1, 4)),
        _ => with(random, m, l),
    }
}

pub fn frame(m: u64, l: u64, b: u64, d: u64) -> Frame {
    Frame::Machine { m: m as u32, l: l as u32, b: b as u32, d: d as u32 }
}

/// Every number at an end of its range or one beyond, valid or not.
pub fn at_an_edge(random: &mut Random) -> Frame {
    let m = random.pick(&[0, 1, 2, 31, 32, 33, 255, 4]);
    let l = random.pick(&[0, 1, 2, 31, 32, 33, 255, 4]);
    let b = random.pick(&[0, 1, 2, 255, 256, 257, 65_535, 8]);
    let d = random.pick(&[0, 1, 2, 8, 254, 255, 256, 65_535]);
    frame(m, l, b, d)
}

pub fn wrong_processors(random: &mut Random) -> Frame {
    let m = random.pick(&[0, 33, 34, 64, 128, 255]);
    match (random.below(3), valid(random)) {
        (0, Frame::Machine { l, b, d, .. }) => Frame::Machine { m: m as u32, l, b, d },
        (1, _) => frame(m, random.pick(&[0, 33]), 1, 1),
        _ => frame(m, 4, random.pick(&[0, 1, 257]), random.pick(&[0, 1, 256])),
    }
}

pub fn wrong_speeds(random: &mut Random) -> Frame {
    let m = random.pick(&[1, 4, 32]);
    let l = random.between(1, 32);
    match random.below(7) {
        0 => frame(m, random.pick(&[0, 33, 34, 255]), 1, 1),
        1 => frame(m, l, random.pick(&[0, 257, 258, 512, 65_535]), 1),
        2 => frame(m, l, 1, random.pick(&[0, 256, 257, 65_535])),
        3 => frame(m, 1, random.between(1, 256), random.pick(&[0, 256, 65_535])),
        4 => frame(m, 2, random.between(2, 256), 255),
        5 => frame(m, 32, random.between(9, 256), 8),
        _ => top_speed_beyond(random, m),
    }
}

/// Q is 257 and all else in range.
fn top_speed_beyond(random: &mut Random, m: u64) -> Frame {
    let l = random.between(2, 32);
    let d = random.between(1, 255 / (l - 1));
    frame(m, l, 257 - (l - 1) * d, d)
}

/// Family d.
pub fn machines(draft: &mut Draft) {
    if draft.goes_on() {
        for _ in 0..draft.random.between(2, 5) {
            let number = draft.random.pick(&[1, 2, 2, 5, 11]);
            refused::of_number(draft, number);
        }
    } else if draft.random.one_in(4) {
        refused_machine(draft);
        return;
    }
    let m = draft.random.pick(&[1, 32]);
    let l = draft.random.pick(&[1, 32, 32]);
    let opened = match draft.random.below(4) {
        0 => at_an_edge(&mut draft.random),
        1 => valid(&mut draft.random),
        _ => with(&mut draft.random, m, l),
    };
    if !draft.offer(&opened) {
        let machine = with(&mut draft.random, m, l);
        draft.offer(&machine);
    }
    jobs_at_the_ends(draft);
    draft.finish();
}

fn refused_machine(draft: &mut Draft) {
    match draft.random.below(3) {
        0 => {
            let machine = wrong_processors(&mut draft.random);
            draft.put(&machine);
        }
        1 => {
            let machine = wrong_speeds(&mut draft.random);
            draft.put(&machine);
        }
        _ => refused::any(draft),
    }
    draft.put(&frame(4, 4, 1, 1));
}

/// Loads from nothing to every processor at the top.
fn jobs_at_the_ends(draft: &mut Draft) {
    let m = u64::from(draft.machine().processors);
    let deadline: u64 = draft.random.pick(&[1, 2, 10, 100, 4_096, 65_535]);
    let (count, cost) = match draft.random.below(6) {
        0 => (0, 1),
        1 => (m, deadline),
        2 => (2 * m, deadline / 2),
        3 => (m - 1, deadline),
        4 => (m, deadline.saturating_sub(1)),
        _ => (draft.random.between(1, m), draft.random.between(1, deadline)),
    };
    for id in 1..=count {
        draft.admit(id, cost.max(1), deadline);
        if draft.goes_on() && draft.random.one_in(8) {
            draft.unsettle();
        }
    }
}
