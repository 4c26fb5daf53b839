//! The cases of the import.

use crate::case::Case;
use crate::frequencies::{even, printed};
use crate::random::Random;

/// So many lists of a kind for a case.
const VARIANTS: usize = 8;

fn several(random: &mut Random, mut numbers: impl FnMut(&mut Random) -> Vec<u32>) -> Vec<Vec<u8>> {
    (0..VARIANTS).map(|_| printed(&numbers(random))).collect()
}

/// 32 numbers in kHz, in any order.
fn shuffled(random: &mut Random) -> Vec<u32> {
    let mut numbers = even(100_000 * random.between(1, 8), 100_000, 32);
    random.shuffle(&mut numbers);
    numbers
}

pub fn all(random: &mut Random) -> Vec<Case> {
    let falling = several(random, |random| {
        let mut numbers = even(100_000 * random.between(4, 12), 100_000 * random.between(1, 4), 5);
        numbers.reverse();
        numbers
    });
    // The list of a Raspberry Pi 4.
    let rising = vec![printed(&even(600_000, 100_000, 13))];
    let mut cases = vec![
        Case::import("import: 5 numbers falling", falling),
        Case::import("import: 13 numbers rising", rising),
        Case::import("import: 32 numbers in any order", several(random, shuffled)),
        Case::import("import: one number", several(random, |random| vec![100_000 * random.between(4, 40)])),
    ];
    cases.extend(refused(random));
    cases
}

fn refused(random: &mut Random) -> Vec<Case> {
    let uneven = several(random, |random| {
        let mut numbers = even(600_000, 100_000, 13);
        numbers[12] += 1_000 * random.between(1, 90);
        numbers
    });
    let beyond = several(random, |random| even(600_000, 100_000 + random.between(1, 9), 13));
    let mut not_a_list = several(random, shuffled);
    for list in &mut not_a_list {
        let last = list.len() - 1;
        list[last] = random.choose(b"\r\t,");
    }
    vec![
        Case::import("import: 13 numbers, refused by 19", uneven),
        Case::import("import: 13 numbers, refused by 2", beyond),
        Case::import("import: 32 numbers, refused by 18 at the end", not_a_list),
    ]
}
