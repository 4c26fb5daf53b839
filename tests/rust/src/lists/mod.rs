//! The makers of frequency lists, one per family, and the rest of an import: processors, a page and a place.

mod beyond;
mod damage;
pub mod even;
mod uneven;

use crate::compare::{Relation, WITHOUT_ROOM, WITH_ROOM};
use crate::random::Random;

/// All that one import is given; the seed draws the page's length and bytes, and the jobs of the plan that follows.
#[derive(Clone)]
pub struct Import {
    pub processors: u64,
    pub list: Vec<u8>,
    pub relation: Relation,
    pub seed: u64,
}

pub struct Family {
    pub letter: char,
    pub name: &'static str,
    /// Divided evenly among the seeds.
    pub count: usize,
    make: fn(&mut Random, usize) -> Vec<u8>,
}

impl Family {
    pub fn import(&self, seed: u64, index: usize) -> Import {
        let mut random = Random::for_sheet(seed, self.letter as usize, index);
        let list = (self.make)(&mut random, index);
        let relation = if random.one_in(4) { random.pick(&WITHOUT_ROOM) } else { random.pick(&WITH_ROOM) };
        Import { processors: processors(&mut random), list, relation, seed: random.next() }
    }
}

const fn family(letter: char, name: &'static str, count: usize, make: fn(&mut Random, usize) -> Vec<u8>) -> Family {
    Family { letter, name, count, make }
}

/// The letters go on from those of the sheets.
pub const FAMILIES: [Family; 9] = [
    family('m', "even gaps, 1 to 32 numbers", 36_000, even::even),
    family('n', "one number", 3_000, even::single),
    family('o', "top speeds at 256 and beyond", 16_000, beyond::top_speeds),
    family('p', "uneven gaps", 16_000, uneven::uneven),
    family('q', "repeated numbers, and 33 or more", 8_000, uneven::repeated),
    family('r', "numbers at 2^32 and beyond", 12_000, beyond::large_numbers),
    family('s', "damaged lists", 36_000, damage::damaged),
    family('t', "every list of up to 6 of the bytes 0, 1, 2, blank and line feed", damage::SHORT_LISTS, damage::short),
    family('u', "free mixtures of the bytes of lists", 6_000, damage::mixtures),
];

/// Mostly 1 to 32. Some counts beyond have low bits that are within.
fn processors(random: &mut Random) -> u64 {
    match random.below(40) {
        0 => random.pick(&[0, 33, 34, 64, 128, 255, 256]),
        1 | 2 => random.between(1, 32) + random.pick(&[1 << 8, 1 << 16, 1 << 32, 1 << 63]),
        3 => u64::MAX - random.pick(&[0, 0, 1, 31, 32]),
        4 => random.next().max(33),
        5..=20 => random.between(1, 32),
        _ => random.pick(&[1, 2, 4, 4, 8, 32]),
    }
}

const LARGEST: u64 = 4_294_967_295;

fn ending(random: &mut Random) -> &'static str {
    random.pick(&["", " ", "\n", " \n"])
}

/// The text of a list, one blank between.
fn text(words: &[String], ending: &str) -> Vec<u8> {
    format!("{}{ending}", words.join(" ")).into_bytes()
}

fn words(numbers: &[u64]) -> Vec<String> {
    numbers.iter().map(u64::to_string).collect()
}

/// These numbers rising, falling or in any order, with any ending.
fn listed(random: &mut Random, mut numbers: Vec<u64>) -> Vec<u8> {
    arrange(random, &mut numbers);
    text(&words(&numbers), ending(random))
}

fn arrange(random: &mut Random, numbers: &mut [u64]) {
    match random.below(4) {
        0 => numbers.sort_unstable(),
        1 => numbers.sort_unstable_by(|a, b| b.cmp(a)),
        _ => random.shuffle(numbers),
    }
}
