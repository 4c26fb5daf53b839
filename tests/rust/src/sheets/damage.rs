//! Damaged lines of each kind.

use super::draft::{admission, bytes_of, with_deadline, Draft};
use super::lives;
use super::machines;
use crate::facts::{Facts, LENGTHS};
use crate::planner::frames::{frame_of, Frame, Line, KINDS};
use crate::random::Random;

/// The bytes next to the ranges of digits, and others that a careless reader lets pass.
const NEIGHBOURS: [u8; 16] =
    [b'/', b':', b'@', b'G', b'`', b'g', b' ', b'\t', b'\r', 0, 0x7F, 0x80, 0xFF, b'x', b'-', b'+'];

/// Adds one malformed line.
pub fn damaged_line(draft: &mut Draft) {
    loop {
        let text = damaged_text(draft);
        let whole = !text.contains(&b'\n');
        let line = Line { text: &text, closed: true };
        if whole && frame_of(&line, None, &mut Facts::new()).is_none() {
            draft.line(&text);
            return;
        }
    }
}

fn damaged_text(draft: &mut Draft) -> Vec<u8> {
    let frame = any_frame(&mut draft.random);
    let mut text = draft.text(&frame);
    let place = draft.random.below(text.len() as u64) as usize;
    match draft.random.below(13) {
        0..=4 => text[place] = wrong_byte(&mut draft.random),
        5 => text.push(b'\r'),
        6 => text.insert(place, wrong_byte(&mut draft.random)),
        7 => {
            text.remove(place);
        }
        8 => text.push(b'0'),
        9 => text.clear(),
        10 => {
            let bytes = unknown_kind(&mut draft.random);
            text = draft.digits(&bytes);
        }
        11 => {
            let bytes = other_admission(&mut draft.random);
            text = draft.digits(&bytes);
        }
        _ => {
            let bytes = wrong_length(&mut draft.random);
            text = draft.digits(&bytes);
        }
    }
    text
}

fn wrong_byte(random: &mut Random) -> u8 {
    if random.one_in(3) {
        random.pick(&NEIGHBOURS)
    } else {
        random.next() as u8
    }
}

/// A well-formed frame with any numbers.
fn any_frame(random: &mut Random) -> Frame {
    match random.below(7) {
        0 => machines::valid(random),
        1 => Frame::Power((0..random.between(1, 4)).map(|_| random.next() as u32).collect()),
        2 => admission(random.between(1, 9), random.between(1, 9), random.between(9, 99)),
        3 => Frame::Retire { id: random.between(1, 9) as u32 },
        4 => Frame::Slack,
        5 => with_deadline(random.between(1, 9), random.between(1, 9), random.between(18, 99), random.between(9, 18)),
        _ => Frame::Plan,
    }
}

/// A job by frame 03 in 06's length, by 06 in 03's length, or by 06 with bytes too many: the numbers would all do.
fn other_admission(random: &mut Random) -> Vec<u8> {
    let (id, period) = (random.between(1, 65_535), random.between(18, 99));
    let deadline = random.between(9, 18);
    let mut by_03 = bytes_of(&admission(id, 1, period));
    let mut by_06 = bytes_of(&with_deadline(id, 1, period, deadline));
    match random.below(3) {
        0 => {
            by_03[0] = 6;
            by_03
        }
        1 => {
            by_06[0] = 3;
            by_06
        }
        _ => {
            by_06.extend([0, deadline as u8]);
            by_06
        }
    }
}

/// A kind that is not read, with the rest of a frame that is, or with that of a frame that is only written.
fn unknown_kind(random: &mut Random) -> Vec<u8> {
    let mut bytes = bytes_of(&any_frame(random));
    bytes[0] = random.pick(&[0, 8, 9, 0x10, 0x60, 0x70, 0x80, 0x86, 0x81, 0x83, 0x87, 0x8E, 0xFF, 1]);
    if random.one_in(2) || bytes[0] == 1 {
        bytes[0] = random.next() as u8;
    }
    match bytes[0] {
        0x81 if random.one_in(2) => vec![0x81, 0, 0, 0, 0, 1, 0, 0, 0, 1, 0, 0, 0],
        0x83 if random.one_in(2) => vec![0x83, 0, 0, 0, 0, 0, 0, 0, 0, 2],
        0x8E if random.one_in(2) => vec![0x8E, 0, 0, 0, 7, 17],
        _ => bytes,
    }
}

/// The kinds that are not read, in turn, each with nothing or with a byte or two after it.
fn unknown_kind_in_turn(index: usize) -> Vec<u8> {
    let kinds: Vec<u8> = (0..=255).filter(|kind| !KINDS.contains(kind)).collect();
    let kind = kinds[index % kinds.len()];
    [kind, 0, 1][..1 + index % 3].to_vec()
}

/// A kind that is read with any number of bytes after it.
fn wrong_length(random: &mut Random) -> Vec<u8> {
    let kind = random.pick(&KINDS);
    let longest = if random.one_in(4) { 140 } else { 12 };
    let length = random.between(0, longest) as usize;
    let mut bytes = vec![kind];
    bytes.extend((0..length).map(|_| random.below(3) as u8));
    bytes
}

/// Kinds 03 and 06 in turn, each with 0 to 12 bytes after it: those of a job that would do, then more.
fn admission_of_length(index: usize) -> Vec<u8> {
    let job = [0xFE, 0xFE, 0, 1, 0, 99, 0, 98, 0, 97, 0, 96];
    let kind = [3, 6][index % 2];
    [&[kind][..], &job[..index / 2 % 13]].concat()
}

/// Kind 02 with this many bytes after it: values that rise by one, and a last one cut short.
fn power_of_length(length: usize) -> Vec<u8> {
    let mut bytes = vec![2];
    bytes.extend((1u32..).flat_map(|value| value.to_be_bytes()).take(length));
    bytes
}

/// Family g: an undamaged life, then the damage; for the desk damage all over.
pub fn damage(draft: &mut Draft) {
    if draft.goes_on() {
        damaged_line(draft);
    }
    let length = draft.index % LENGTHS;
    let levels = (length as u64 / 4).clamp(1, 32);
    let m = draft.random.between(1, 4);
    let machine = machines::with(&mut draft.random, m, levels);
    draft.put(&machine);
    let jobs = draft.random.between(0, 4);
    lives::admit_some(draft, jobs);
    match draft.random.below(5) {
        0 => whole_line(draft, &power_of_length(length)),
        1 => whole_line(draft, &unknown_kind_in_turn(draft.index)),
        2 => whole_line(draft, &admission_of_length(draft.index)),
        _ => damaged_line(draft),
    }
    for _ in 0..draft.random.below(3) {
        draft.unsettle();
    }
    draft.want();
    if draft.goes_on() {
        whole_line(draft, &power_of_length(length));
        draft.finish();
    }
    if draft.random.one_in(6) {
        let frame = any_frame(&mut draft.random);
        let text = draft.text(&frame);
        draft.raw(&text);
    }
}

fn whole_line(draft: &mut Draft, bytes: &[u8]) {
    let text = draft.digits(bytes);
    draft.line(&text);
}
