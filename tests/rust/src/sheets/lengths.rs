//! Sheets of 65,535, 65,536 and 65,537 bytes, and the shortest ones.

use super::draft::{admission, with_deadline, Draft};
use super::machines;
use crate::planner::frames::Frame;

const LINE_OF_ADMISSION: usize = 15;
const LINE_OF_DEADLINE: usize = 19;
const LINE_OF_RETIREMENT: usize = 7;
/// Of a slack line too.
const LINE_OF_PLAN: usize = 3;

const SHORTEST: &[&[u8]] = &[
    b"\n",
    b"0",
    b"05",
    b"05\n",
    b"07",
    b"07\n",
    b"0700\n",
    b"06",
    b"06\n",
    b"060001000100020001\n",
    b"01040400010001\n060001000100020001\n",
    b"01040400010001\n060001000100020001",
    b"\n\n",
    b"01040400010001",
    b"01040400010001\n",
    b"01040400010001\n07\n",
];

/// Family h.
pub fn lengths(draft: &mut Draft) {
    let length = [65_535, 65_536, 65_537][draft.index % 3];
    match draft.index / 3 % 8 {
        0 | 1 => valid(draft, length),
        2 => draft.raw(&vec![b'\n'; length]),
        3 => one_line(draft, length, true),
        4 => one_line(draft, length, false),
        5 => {
            valid(draft, length - 6);
            draft.raw(b"050G5\n");
        }
        6 => {
            valid(draft, length - 2);
            let text: &[u8] = draft.random.pick(&[b"05", b"07"]);
            draft.raw(text);
        }
        _ => shortest(draft),
    }
}

fn shortest(draft: &mut Draft) {
    let sheet = if draft.index % 3 == 0 { b"" } else { draft.random.pick(SHORTEST) };
    draft.raw(sheet);
}

fn one_line(draft: &mut Draft, length: usize, closed: bool) {
    let digit = draft.random.pick(b"0123456789ABCDEFabcdef");
    let mut text = vec![digit; length - usize::from(closed)];
    if draft.random.one_in(2) {
        text[..2].copy_from_slice(b"02");
    }
    draft.raw(&text);
    if closed {
        draft.raw(b"\n");
    }
}

/// An undamaged sheet of exactly this length: jobs that come and go by one of the two frames, and plan and slack lines for the
/// rest.
fn valid(draft: &mut Draft, length: usize) {
    let m = draft.random.between(1, 4);
    let l = draft.random.between(1, 8);
    let machine = machines::with(&mut draft.random, m, l);
    draft.put(&machine);
    for id in 1..=3 {
        draft.put(&admission(id, 1, 10));
    }
    // A retirement and an admission take 22 or 26 bytes, no multiple of 3; all other lines are multiples of 3.
    let deadlines = draft.random.one_in(2);
    let pair = LINE_OF_RETIREMENT + if deadlines { LINE_OF_DEADLINE } else { LINE_OF_ADMISSION };
    let most = (length - draft.length()) / pair - 3;
    let mut pairs = most - draft.random.below(most as u64 / 4) as usize;
    while (length - draft.length() - pairs * pair) % LINE_OF_PLAN != 0 {
        pairs += 1;
    }
    for _ in 0..pairs {
        let id = draft.random.between(1, 3);
        draft.put(&Frame::Retire { id: id as u32 });
        let cost = draft.random.between(1, 3);
        // Three jobs of 3/9 fit one processor.
        let deadline = draft.random.between(9, 10);
        draft.put(&if deadlines { with_deadline(id, cost, 10, deadline) } else { admission(id, cost, 10) });
    }
    while draft.length() < length {
        let wanted = if draft.random.one_in(2) { Frame::Plan } else { Frame::Slack };
        draft.put(&wanted);
    }
}
