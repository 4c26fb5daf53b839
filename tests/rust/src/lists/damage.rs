//! Damaged lists.

use super::even::accepted;
use super::{arrange, ending, text, words};
use crate::random::Random;

/// Bytes that a careless reader lets pass.
const STRAY: [u8; 16] = [b'\t', b'\r', 0x0B, 0x0C, 0, 0x1A, 0x7F, 0xA0, 0xFF, b'+', b'-', b',', b'.', b'_', b'/', b':'];

/// Family s.
pub fn damaged(random: &mut Random, index: usize) -> Vec<u8> {
    let count = if random.one_in(2) { random.between(1, 4) } else { random.between(1, 32) };
    let mut numbers = accepted(random, count);
    arrange(random, &mut numbers);
    let mut words = words(&numbers);
    if random.one_in(3) {
        let place = random.below(count) as usize;
        words[place] = damaged_word(random, &words[place]);
        return text(&words, ending(random));
    }
    let mut list = text(&words, ending(random));
    damage(random, &mut list, index as u8);
    list
}

fn damaged_word(random: &mut Random, word: &str) -> String {
    match random.below(8) {
        0 => format!("0{word}"),
        1 => format!("00{word}"),
        2 => format!("+{word}"),
        3 => format!("-{word}"),
        4 => "0".into(),
        5 => String::new(),
        6 => format!("{word}.0"),
        _ => format!("0x{word}"),
    }
}

/// The byte takes every value in turn.
fn damage(random: &mut Random, list: &mut Vec<u8>, byte: u8) {
    let place = random.below(list.len() as u64) as usize;
    let blank = list.iter().position(|byte| *byte == b' ').unwrap_or(0);
    let unended = list.iter().rposition(u8::is_ascii_digit).map_or(0, |last| last + 1);
    match random.below(16) {
        0 => list.insert(place, byte),
        1 => list[place] = byte,
        2 => list.push(byte),
        3 => list.insert(unended, byte),
        4 => list[blank] = byte,
        5 => list.insert(place, random.pick(&STRAY)),
        6 => {
            list.remove(place);
        }
        7 => list.insert(blank, b' '),
        8 => list.insert(0, random.pick(b" \n\t")),
        9 => list[blank] = random.pick(b"\t\n\r,"),
        10 => list.truncate(place),
        11 => list.splice(unended.., b"  \n".iter().copied().take(random.between(2, 3) as usize)).for_each(drop),
        12 => list.splice(unended.., *b"\r\n").for_each(drop),
        13 => list.splice(unended.., *b"\n ").for_each(drop),
        14 => list.splice(unended.., *b"\n\n").for_each(drop),
        _ => list.insert(place, random.pick(b" \n0123456789")),
    }
}

const SHORT_BYTES: [u8; 5] = *b"012 \n";
/// The lists of length 0 to 6 of these bytes: 1 + 5 + 25 + 125 + 625 + 3,125 + 15,625.
pub const SHORT_LISTS: usize = 19_531;

/// Family t: the lists in turn, the short ones first.
pub fn short(_: &mut Random, index: usize) -> Vec<u8> {
    let (mut rest, mut of_length, mut length) = (index % SHORT_LISTS, 1, 0);
    while rest >= of_length {
        rest -= of_length;
        of_length *= SHORT_BYTES.len();
        length += 1;
    }
    let mut list = Vec::with_capacity(length);
    for _ in 0..length {
        list.push(SHORT_BYTES[rest % SHORT_BYTES.len()]);
        rest /= SHORT_BYTES.len();
    }
    list
}

/// Family u.
pub fn mixtures(random: &mut Random, _: usize) -> Vec<u8> {
    let length = random.below(40);
    let drawn = |random: &mut Random| match random.below(30) {
        0 => random.next() as u8,
        1 => random.pick(&STRAY),
        2 => b'\n',
        3..=12 => b' ',
        _ => b'0' + random.below(10) as u8,
    };
    (0..length).map(|_| drawn(random)).collect()
}
