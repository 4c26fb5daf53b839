//! The facts of an import: what stood against it, and what else would have.

use super::astray::Astray;
use super::import::{imported, number, numbers, speeds, uneven, words, Imported, LARGEST_NUMBER, TOP_SPEED};
use super::refusal::{Refusal, NOT_A_LIST, NO_ROOM, PROCESSORS, SPEEDS, UNEVEN_GAPS};
use crate::facts::{Facts, Mark};
use std::collections::BTreeSet;

/// The endings of a list; the first one ends every list.
const ENDINGS: [&[u8]; 4] = [b"", b" ", b"\n", b" \n"];

/// Lists with one fault alone: each is read by a reader that is wrong in that point.
const FAULTS: [(Mark, Astray); 15] = [
    (Mark::NumberLow32, Astray::WrapsAt32Bits),
    (Mark::NumberLow64, Astray::WrapsAt64Bits),
    (Mark::NumberBeyond, Astray::NumberBeyondAccepted),
    (Mark::NumberZero, Astray::ZeroAccepted),
    (Mark::NumberLeadingZero, Astray::LeadingZeroAccepted),
    (Mark::NumberSigned, Astray::SignAccepted),
    (Mark::NumberRepeated, Astray::RepeatAccepted),
    (Mark::Numbers33, Astray::ThirtyThreeNumbers),
    (Mark::BlankFirst, Astray::FirstBlankAccepted),
    (Mark::BlankTwice, Astray::TwoBlanksAccepted),
    (Mark::BlankTwiceAtEnd, Astray::SecondBlankAtEnd),
    (Mark::BlankAfterLineFeed, Astray::BlankAfterLineFeed),
    (Mark::LineFeedTwice, Astray::SecondLineFeed),
    (Mark::TabBetween, Astray::TabAccepted),
    (Mark::ReturnAtEnd, Astray::ReturnAccepted),
];

pub fn note(processors: u64, list: &[u8], room: bool, outcome: &Result<Imported, Refusal>, facts: &mut Facts) {
    let reply = match outcome {
        Ok(_) if room => 0,
        Ok(_) => NO_ROOM,
        Err(refusal) => *refusal,
    };
    facts.imported[usize::from(reply)] += 1;
    match outcome {
        Ok(imported) if room => note_accepted(list, imported, facts),
        Ok(_) => (),
        Err(PROCESSORS) => note_processors(processors, list, room, facts),
        Err(NOT_A_LIST) => {
            facts.mark_if(!room, Mark::ListBeforeRoom);
            note_no_list(list, facts);
            note_no_numbers(list, facts);
        }
        Err(UNEVEN_GAPS) => note_uneven(list, room, facts),
        Err(_) => note_speeds(list, room, facts),
    }
}

fn note_processors(processors: u64, list: &[u8], room: bool, facts: &mut Facts) {
    let low = |bits: u32| (1..=32).contains(&(processors % (1 << bits)));
    facts.mark_if(processors == 0, Mark::ProcessorsNone);
    facts.mark_if(processors == 33, Mark::ProcessorsOneMore);
    facts.mark_if(low(8), Mark::ProcessorsLow8);
    facts.mark_if(low(16), Mark::ProcessorsLow16);
    facts.mark_if(low(32), Mark::ProcessorsLow32);
    facts.mark_if(processors == u64::MAX, Mark::ProcessorsMost);
    facts.mark_if(!room, Mark::ProcessorsBeforeRoom);
    match imported(1, list, None) {
        Err(NOT_A_LIST) => facts.mark(Mark::ProcessorsBeforeList),
        Err(UNEVEN_GAPS) => facts.mark(Mark::ProcessorsBeforeGaps),
        Err(SPEEDS) => facts.mark(Mark::ProcessorsBeforeTop),
        _ => facts.mark_if(room, Mark::ProcessorsAlone),
    }
}

/// The faults of the bytes of a list, and what its digits say beside them.
fn note_no_list(list: &[u8], facts: &mut Facts) {
    for (mark, astray) in FAULTS {
        facts.mark_if(numbers(list, Some(astray)).is_ok(), mark);
    }
    facts.mark_if(list.is_empty(), Mark::ListEmpty);
    facts.mark_if(list == b" ", Mark::ListBlank);
    facts.mark_if(list == b"\n", Mark::ListLineFeed);
    facts.mark_if(list == b" \n", Mark::ListBlankAndLineFeed);
    if let Some((last, first)) = list.split_last() {
        let blank = |byte: &u8| if *byte == b'\n' { b' ' } else { *byte };
        let mut joined: Vec<u8> = first.iter().map(blank).collect();
        joined.push(*last);
        let between = last != &b' ' && first.contains(&b'\n') && !first.ends_with(b"\n");
        facts.mark_if(between && numbers(&joined, None).is_ok(), Mark::LineFeedBetween);
    }
    let wrong = |byte: &&u8| !byte.is_ascii_digit() && ![b' ', b'\n'].contains(byte);
    if let [byte] = *list.iter().filter(wrong).copied().collect::<Vec<u8>>() {
        facts.list_bytes[usize::from(byte)] += 1;
    }
    let digits = list.split(|byte| !byte.is_ascii_digit());
    let found: Vec<u128> =
        digits.filter_map(|word| number(word, None)).collect::<BTreeSet<u128>>().into_iter().collect();
    if found.len() > 1 {
        facts.mark_if(uneven(&found, None), Mark::ListBeforeGaps);
        facts.mark_if(speeds(&found, None).last() > Some(&TOP_SPEED), Mark::ListBeforeSpeeds);
    }
}

/// The faults of the numbers of a list whose bytes are right.
fn note_no_numbers(list: &[u8], facts: &mut Facts) {
    let words = words(list, None).unwrap_or_default();
    let digits = |word: &&&[u8]| word.iter().all(u8::is_ascii_digit) && word.first() > Some(&b'0');
    let longest = words.iter().filter(digits).map(|word| word.len()).max().unwrap_or(0);
    facts.mark_if(longest > 39, Mark::NumberBeyond128);
    facts.mark_if(longest >= 1_000, Mark::NumberLong);
    let read: Option<Vec<u128>> = words.iter().map(|word| number(word, None)).collect();
    let Some(read) = read else {
        return;
    };
    let different: Vec<u128> = BTreeSet::from_iter(read.iter().copied()).into_iter().collect();
    let repeated = read.len() - different.len();
    facts.mark_if(repeated == 1 && read.len() <= 32 && !uneven(&different, None), Mark::NumberRepeatedEven);
    facts.mark_if(repeated == 1 && read.len() == 33, Mark::Numbers33Repeated);
    let all = repeated == 1 && read.len() == 32;
    facts.mark_if(all && read[0] == read[1], Mark::NumberRepeatedFirst);
    facts.mark_if(all && read[..31].contains(&read[31]), Mark::NumberRepeatedLast);
    facts.mark_if(repeated == 0 && read.len() >= 64, Mark::NumbersMany);
}

fn note_uneven(list: &[u8], room: bool, facts: &mut Facts) {
    let numbers = numbers(list, None).unwrap_or_default();
    let gaps: Vec<u128> = numbers.windows(2).map(|pair| pair[1] - pair[0]).collect();
    let beyond = speeds(&numbers, None).last() > Some(&TOP_SPEED);
    facts.mark_if(beyond, Mark::GapsBeforeSpeeds);
    facts.mark_if(!room, Mark::GapsBeforeRoom);
    facts.mark_if(!beyond && room, Mark::GapsAlone);
    let (least, most) = (gaps.iter().min(), gaps.iter().max());
    facts.mark_if(least.map(|gap| gap + 1) == most.copied(), Mark::GapsByOne);
    facts.mark_if(gaps.len() > 2 && !uneven(&numbers, Some(Astray::LastGapLeftOut)), Mark::GapsAtEnd);
    facts.mark_if(!uneven(&numbers, Some(Astray::GapsByTheirSum)), Mark::GapsEvenEnds);
}

fn note_speeds(list: &[u8], room: bool, facts: &mut Facts) {
    let speeds = speeds(&numbers(list, None).unwrap_or_default(), None);
    facts.mark_if(!room, Mark::SpeedsBeforeRoom);
    facts.mark_if(speeds.last() == Some(&(TOP_SPEED + 1)), Mark::ListTopBeyond);
    facts.mark_if(imported(1, list, Some(Astray::SpeedsCut16)).is_ok(), Mark::ListTopFar);
}

fn note_accepted(list: &[u8], imported: &Imported, facts: &mut Facts) {
    let words = words(list, None).unwrap_or_default();
    let read: Vec<u128> = words.iter().filter_map(|word| number(word, None)).collect();
    let ending = ENDINGS.iter().rposition(|ending| list.ends_with(ending)).unwrap_or(0);
    let (lowest, step) = (imported.machine.lowest, imported.machine.step);
    let largest = read.iter().max().copied().unwrap_or(0);
    facts.list_counts[read.len()][ending] += 1;
    facts.mark_if(imported.speeds.last() == Some(&TOP_SPEED), Mark::ListTopMost);
    facts.mark_if(largest == LARGEST_NUMBER, Mark::NumberLargest);
    if let [only] = read[..] {
        facts.mark_if(only == 1, Mark::NumberOne);
        facts.mark_if((2..=TOP_SPEED).contains(&only), Mark::ListSingleSmall);
        facts.mark_if(only > TOP_SPEED, Mark::ListSingleLarge);
        return;
    }
    let rising = read.is_sorted();
    let falling = read.iter().rev().is_sorted();
    facts.mark_if(rising, Mark::ListRising);
    facts.mark_if(falling, Mark::ListFalling);
    facts.mark_if(!rising && !falling, Mark::ListUnsorted);
    facts.mark_if(step > lowest, Mark::ListStepAboveLowest);
    facts.mark_if(lowest > step && step > 1, Mark::ListLowestAboveStep);
    let divisor = largest / imported.speeds.last().copied().unwrap_or(1);
    facts.mark_if(divisor == 1, Mark::ListUndivided);
    facts.mark_if(divisor > 65_535, Mark::ListDivided);
}
