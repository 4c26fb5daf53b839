//! Random sheets and frequency lists on which the two sides must agree.

use crate::draft::{Draft, FULL, LARGE, QUARTERS};
use crate::frequencies;
use crate::measure::{same_call, same_frames, same_import, Desks};
use crate::mixtures::sheet;
use crate::random::Random;
use std::collections::{BTreeMap, BTreeSet};
use yardstick::{desk, LONGEST_FRAME};

const SEED: u64 = 48_000;
/// The desk programs are given so many of the sheets, and longer ones.
const DESK_SHEETS: u64 = 400;

#[derive(Default)]
struct Met {
    calls: u64,
    replies: BTreeMap<u32, u64>,
    frames: BTreeMap<u32, u64>,
    /// What the desk made of lines 06: 0 for a job admitted, or a refusal's number.
    with_deadline: BTreeMap<u32, u64>,
}

pub fn run(sheets: u64, desks: &Desks) -> Result<(), String> {
    let mut random = Random::new(SEED);
    let mut met = Met::default();
    for sheet in edges() {
        met.compare_calls(&sheet, &mut random)?;
        same_frames(desks, &sheet)?;
    }
    for _ in 0..sheets {
        let length = random.choose(&[60, 300, 1000, 3000]);
        let sheet = sheet(length, &mut random);
        met.compare_calls(&sheet, &mut random)?;
        let refused = refused_lines(&sheet);
        met.compare_calls(&without(&sheet, &refused), &mut random)?;
        if !refused.is_empty() {
            let mut all_but_one = refused;
            all_but_one.swap_remove(random.index(all_but_one.len()));
            met.compare_calls(&without(&sheet, &all_but_one), &mut random)?;
        }
    }
    let desk_sheets = sheets.min(DESK_SHEETS);
    for _ in 0..desk_sheets {
        let length = random.between(100, 65_536) as usize;
        let sheet = sheet(length, &mut random);
        same_frames(desks, &sheet)?;
        met.count_frames(&sheet);
        met.count_deadlines(&sheet);
    }
    println!(
        "the host's call: {} calls on {sheets} sheets, whole, without their refused lines, and with one of them, agree",
        met.calls
    );
    println!("  replies: {:?}", met.replies);
    println!("the desk programs: {desk_sheets} sheets agree");
    println!("  frames, a plan as 81, slack as 83, a refusal as its number: {:?}", met.frames);
    println!("  lines 06, a job admitted as 0, a refusal as its number: {:?}", met.with_deadline);
    imports(sheets)
}

/// The import of so many lists, most of them for a page with room.
fn imports(lists: u64) -> Result<(), String> {
    let mut random = Random::new(SEED);
    let mut replies: BTreeMap<u32, u64> = BTreeMap::new();
    for _ in 0..lists {
        let list = frequencies::any(&mut random);
        let processors = match random.between(1, 20) {
            1 => random.choose(&[0, 33, 256, 257, 1 << 32, (1 << 32) + 4, u64::MAX]),
            _ => u64::from(random.between(1, 32)),
        };
        let place = if random.one_in(2) { 0 } else { random.index(20) };
        let length = place + if random.one_in(8) { random.index(15) } else { 15 + random.index(3) };
        *replies.entry(same_import(processors, &list, length, place)?).or_default() += 1;
    }
    println!("the import: {lists} lists agree");
    println!("  replies: {replies:?}");
    Ok(())
}

/// Sheets at the edges: empty, without the last 0A, of the longest length, and too long by one byte and by many; and
/// each of the frames that admit with the length of the other.
fn edges() -> Vec<Vec<u8>> {
    let mut draft = Draft::on(QUARTERS);
    draft.fill(FULL, Draft::plan);
    let mut full = draft.bytes();
    full.resize(FULL, b'\n');
    let longer = [&full[..], b"\n"].concat();
    let long = [&full[..], &full[..]].concat();
    let mut slacks = Draft::on(LARGE);
    slacks.fill(FULL, Draft::slack);
    vec![
        Vec::new(),
        b"\n".to_vec(),
        b"05".to_vec(),
        b"07".to_vec(),
        b"07\n0700\n".to_vec(),
        b"01040400010001\n0300010001000A000A\n05\n".to_vec(),
        b"01040400010001\n0600010001000A\n05\n".to_vec(),
        full[..FULL - 1].to_vec(),
        vec![b'\n'; FULL],
        slacks.bytes(),
        full,
        longer,
        long,
    ]
}

impl Met {
    fn compare_calls(&mut self, sheet: &[u8], random: &mut Random) -> Result<(), String> {
        let place = if random.one_in(2) { 0 } else { random.index(20) };
        let length = match random.between(1, 8) {
            1 => random.index(LONGEST_FRAME + 20),
            _ => place + LONGEST_FRAME + random.index(3),
        };
        let reply = same_call(sheet, length, place)?;
        self.calls += 1;
        *self.replies.entry(reply).or_default() += 1;
        Ok(())
    }

    fn count_frames(&mut self, sheet: &[u8]) {
        for (_, number) in frames(sheet) {
            *self.frames.entry(number).or_default() += 1;
        }
    }

    fn count_deadlines(&mut self, sheet: &[u8]) {
        // No line is read of a sheet that is too long.
        if sheet.len() > FULL {
            return;
        }
        let refused: BTreeMap<usize, u32> = frames(sheet).into_iter().collect();
        for (line, number) in sheet.split_inclusive(|&byte| byte == b'\n').zip(1..) {
            if line.starts_with(b"06") {
                *self.with_deadline.entry(refused.get(&number).copied().unwrap_or(0)).or_default() += 1;
            }
        }
    }
}

/// The line and number of each frame that the desk writes for a sheet; a plan or its slack has no line, and as number
/// the digits of its kind.
fn frames(sheet: &[u8]) -> Vec<(usize, u32)> {
    let mut written = Vec::new();
    // Writing to a vector never fails.
    let _ = desk::run(sheet, &mut written);
    let number = |digits: &str| u32::from_str_radix(digits, 16).unwrap_or(0);
    let frame = |text: &str| match text.strip_prefix("8E") {
        Some(rest) => (number(&rest[..8]) as usize, number(&rest[8..])),
        None => (0, text[..2].parse().unwrap_or(0)),
    };
    String::from_utf8_lossy(&written).lines().map(frame).collect()
}

fn refused_lines(sheet: &[u8]) -> Vec<usize> {
    frames(sheet).into_iter().map(|(line, _)| line).filter(|&line| line > 0).collect()
}

/// The sheet without some lines. Without those that the desk refuses the host's call reaches the end, where the whole
/// sheet stops it early; with one of them it stops there.
fn without(sheet: &[u8], left_out: &[usize]) -> Vec<u8> {
    let left_out: BTreeSet<usize> = left_out.iter().copied().collect();
    let lines = sheet.split_inclusive(|&byte| byte == b'\n').zip(1..);
    lines.filter(|(_, number)| !left_out.contains(number)).flat_map(|(line, _)| line.to_vec()).collect()
}
