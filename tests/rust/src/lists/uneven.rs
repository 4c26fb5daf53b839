//! Lists with uneven gaps, with repeated numbers, and with more than 32.

use super::even::{accepted, scaled, up_to};
use super::{arrange, ending, listed, text, words, LARGEST};
use crate::random::Random;
use std::collections::BTreeSet;

/// Family p.
pub fn uneven(random: &mut Random, _: usize) -> Vec<u8> {
    let count = random.between(3, 32);
    let numbers = match random.below(4) {
        0 => gap_left(random, count),
        1 => one_moved(random, count),
        2 => {
            let top = random.pick(&[40, 256, 257, 100_000, LARGEST]);
            any(random, count, top)
        }
        _ => {
            let numbers = gap_left(random, count);
            scaled(random, &numbers)
        }
    };
    listed(random, numbers)
}

/// Even gaps and one number left out, not at an end.
fn gap_left(random: &mut Random, count: u64) -> Vec<u64> {
    let top = random.pick(&[256, 256, 257, 1_000]);
    let mut numbers = up_to(random, count + 1, top);
    numbers.remove(random.between(1, count - 1) as usize);
    numbers
}

/// Even gaps, and one number a little higher or lower.
fn one_moved(random: &mut Random, count: u64) -> Vec<u64> {
    let top = random.pick(&[128, 128, 129, 1_000, LARGEST / 2]);
    // Twice the numbers, so that there is room between two of them.
    let mut numbers: Vec<u64> = up_to(random, count, top).iter().map(|number| number * 2).collect();
    let place = match random.below(3) {
        0 => 0,
        1 => count - 1,
        _ => random.below(count),
    } as usize;
    numbers[place] = if random.one_in(2) { numbers[place] - 1 } else { numbers[place] + 1 };
    numbers
}

/// Different numbers without any order in them.
fn any(random: &mut Random, count: u64, top: u64) -> Vec<u64> {
    let mut numbers = BTreeSet::new();
    while numbers.len() < count as usize {
        numbers.insert(random.between(1, top));
    }
    numbers.into_iter().collect()
}

/// Family q.
pub fn repeated(random: &mut Random, _: usize) -> Vec<u8> {
    let mut numbers = match random.below(6) {
        0 | 1 => {
            let count = random.between(1, 30);
            accepted(random, count)
        }
        2 => accepted(random, 31),
        3 => accepted(random, 32),
        _ => too_many(random),
    };
    arrange(random, &mut numbers);
    // 33 numbers and more are no list without a repeated one.
    if numbers.len() < 33 || random.one_in(3) {
        repeat(random, &mut numbers);
    }
    text(&words(&numbers), ending(random))
}

/// 33 different numbers or more.
fn too_many(random: &mut Random) -> Vec<u64> {
    let numbers = match random.below(3) {
        0 => up_to(random, 33, 256),
        1 => any(random, 33, 1_000),
        _ => {
            let count = random.pick(&[34, 64, 65, 256, 257, 288, 300]);
            up_to(random, count, 100_000)
        }
    };
    scaled(random, &numbers)
}

/// One of the numbers once more, both often at an end of the list.
fn repeat(random: &mut Random, numbers: &mut Vec<u64>) {
    let last = numbers.len() - 1;
    let any = random.below(numbers.len() as u64) as usize;
    let again = numbers[random.pick(&[0, last, any, any])];
    let place = random.pick(&[0, last + 1, last + 1, any]);
    numbers.insert(place, again);
}
