//! Speeds and numbers at the ends of their ranges and beyond.

use super::even::{accepted, have_common_divisor, scaled, up_to};
use super::{arrange, ending, listed, text, words, LARGEST};
use crate::random::Random;

/// Numbers without a common divisor, the highest of which is this one.
fn with_top(random: &mut Random, count: u64, top: u64) -> Vec<u64> {
    loop {
        let step = random.between(1, (top - 1) / (count - 1));
        let lowest = top - (count - 1) * step;
        if !have_common_divisor(lowest, step) {
            return (0..count).map(|level| lowest + level * step).collect();
        }
    }
}

/// Family o.
pub fn top_speeds(random: &mut Random, _: usize) -> Vec<u8> {
    let count = random.between(2, 32);
    let speeds = match random.below(6) {
        0 | 1 => with_top(random, count, 256),
        2 => with_top(random, count, 257),
        3 => {
            let top = random.pick(&[255, 258, 259, 512, 513]);
            with_top(random, count, top)
        }
        4 => cut_into_range(random, count),
        _ => {
            let top = random.between(300, LARGEST);
            up_to(random, count, top)
        }
    };
    let numbers = scaled(random, &speeds);
    listed(random, numbers)
}

/// Speeds that are in range where their lowest, their step or both lose all but their low 8 or 16 bits.
fn cut_into_range(random: &mut Random, count: u64) -> Vec<u64> {
    let speeds = up_to(random, count, 256);
    let (lowest, step) = (speeds[0], speeds[1] - speeds[0]);
    let more = random.pick(&[1 << 8, 1 << 16, 1 << 16, 1 << 24]);
    let (lowest, step) = match random.below(3) {
        0 => (lowest + more, step),
        1 => (lowest, step + more),
        _ => (lowest + more, step + more),
    };
    (0..count).map(|level| lowest + level * step).collect()
}

/// Family r: a list in which one number is at the limit or beyond it.
pub fn large_numbers(random: &mut Random, _: usize) -> Vec<u8> {
    let count = random.between(1, 32);
    let mut numbers = accepted(random, count);
    arrange(random, &mut numbers);
    let mut words = words(&numbers);
    let place = random.below(count) as usize;
    words[place] = large(random, numbers[place]);
    text(&words, ending(random))
}

/// Many of them are the number again where their high bits or digits are lost.
fn large(random: &mut Random, number: u64) -> String {
    let number = u128::from(number);
    match random.below(11) {
        0 => LARGEST.to_string(),
        1 => "4294967296".into(),
        2 => random.between(LARGEST - 3, LARGEST + 9).to_string(),
        3 | 4 => (number + (u128::from(random.between(1, 5)) << 32)).to_string(),
        5 | 6 => (number + (u128::from(random.between(1, 5)) << 64)).to_string(),
        // 2^128 + 44 to 2^128 + 543.
        7 => format!("340282366920938463463374607431768211{}", random.between(500, 999)),
        8 => format!("{}{number:010}", random.between(1, 99)),
        9 => digits(random),
        _ => random.next().to_string(),
    }
}

fn digits(random: &mut Random) -> String {
    let length = match random.below(8) {
        0 => random.pick(&[1_000, 2_000, 66_000]),
        1 => random.between(39, 300),
        _ => random.between(9, 41),
    };
    let digit = |random: &mut Random| char::from(b'0' + random.below(10) as u8);
    let first = char::from(b'1' + random.below(9) as u8);
    std::iter::once(first).chain((1..length).map(|_| digit(random))).collect()
}
