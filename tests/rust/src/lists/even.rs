//! Lists with even gaps.

use super::{listed, LARGEST};
use crate::planner::frames::Frame;
use crate::random::Random;
use crate::sheets::machines;

pub fn have_common_divisor(a: u64, b: u64) -> bool {
    (2..=a.min(b)).any(|divisor| a % divisor == 0 && b % divisor == 0)
}

/// So many numbers with even gaps, none above the top, which leaves room for them.
pub fn up_to(random: &mut Random, count: u64, top: u64) -> Vec<u64> {
    if count == 1 {
        return vec![random.between(1, top)];
    }
    let widest = (top - 1) / (count - 1);
    let step = match random.below(3) {
        0 => 1,
        1 => widest,
        _ => random.between(1, widest),
    };
    let greatest = top - (count - 1) * step;
    let lowest = match random.below(4) {
        0 => 1,
        1 => greatest,
        2 => step.min(greatest),
        _ => random.between(1, greatest),
    };
    (0..count).map(|level| lowest + level * step).collect()
}

/// The same numbers in another unit: in kHz as boxes have them, or as large as they go.
pub fn scaled(random: &mut Random, numbers: &[u64]) -> Vec<u64> {
    let most = LARGEST / numbers.iter().max().expect("a list has a number");
    let unit = match random.below(6) {
        0 => 1,
        1 => random.pick(&[1_000, 50_000, 100_000]).min(most),
        2 => most,
        3 => random.between(1, most.min(1_000)),
        _ => random.between(1, most),
    };
    numbers.iter().map(|number| number * unit).collect()
}

/// A list that is accepted where its processors and its page are.
pub fn accepted(random: &mut Random, count: u64) -> Vec<u64> {
    if count > 1 && random.one_in(8) {
        // The largest number is 3 x 5 x 17 x 257 x 65,537: it ends lists whose top speed divides it.
        let top = random.pick(&[51, 85, 255]);
        return (top - count + 1..=top).map(|speed| speed * (LARGEST / top)).collect();
    }
    let top = random.pick(&[32, 33, 100, 255, 256, 256]);
    let speeds = up_to(random, count, top);
    scaled(random, &speeds)
}

/// Family m: every count in turn.
pub fn even(random: &mut Random, index: usize) -> Vec<u8> {
    let numbers = accepted(random, index as u64 % 32 + 1);
    listed(random, numbers)
}

/// Family n.
pub fn single(random: &mut Random, _: usize) -> Vec<u8> {
    let number = match random.below(3) {
        0 => random.pick(&[1, 2, 9, 10, 255, 256, 257, 65_535, 65_536, LARGEST - 1, LARGEST]),
        1 => random.between(1, 600),
        _ => random.between(1, LARGEST),
    };
    listed(random, vec![number])
}

/// A machine with a lowest speed and a step that have no common divisor, and its speeds as a list in any unit.
pub fn with_machine(random: &mut Random) -> (Frame, Vec<u8>) {
    loop {
        let (m, l) = (random.between(1, 32), random.between(2, 32));
        let frame = machines::with(random, m, l);
        let Frame::Machine { b, d, .. } = frame else {
            continue;
        };
        let (lowest, step) = (u64::from(b), u64::from(d));
        if !have_common_divisor(lowest, step) {
            let speeds: Vec<u64> = (0..l).map(|level| lowest + level * step).collect();
            let numbers = scaled(random, &speeds);
            return (frame, listed(random, numbers));
        }
    }
}
