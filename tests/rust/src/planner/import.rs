//! The import of a box's frequency list (request 2026-02): numbers in kHz to a machine with their speeds.

use super::astray::Astray;
use super::frames::filed;
use super::host::write;
use super::machine::Machine;
use super::refusal::{Refusal, NOT_A_LIST, NO_ROOM, PROCESSORS, SPEEDS, UNEVEN_GAPS};
use std::collections::BTreeSet;

pub const LARGEST_NUMBER: u128 = 4_294_967_295;
pub const MOST_NUMBERS: usize = 32;
pub const TOP_SPEED: u128 = 256;

/// A machine line with its 0A.
pub const LINE: usize = 15;

/// What an import opens: the machine, and the speed of each of its levels as the list gives them.
pub struct Imported {
    pub machine: Machine,
    pub speeds: Vec<u128>,
}

/// 1, 18, 19, 2, in this order, or the machine. Room is the caller's matter.
pub fn imported(processors: u64, list: &[u8], astray: Option<Astray>) -> Result<Imported, Refusal> {
    let processors = match astray {
        Some(Astray::ProcessorsCut8) => processors % (1 << 8),
        Some(Astray::ProcessorsCut32) => processors % (1 << 32),
        _ => processors,
    };
    let read = numbers(list, astray);
    let list_first = astray == Some(Astray::ListBeforeProcessors) && read.is_err();
    if !(1..=32).contains(&processors) && !list_first {
        return Err(PROCESSORS);
    }
    let numbers = read?;
    let uneven = uneven(&numbers, astray);
    if uneven && astray != Some(Astray::SpeedsBeforeGaps) {
        return Err(UNEVEN_GAPS);
    }
    if astray == Some(Astray::CountAfterGaps) && numbers.len() > MOST_NUMBERS {
        return Err(NOT_A_LIST);
    }
    let speeds = speeds(&numbers, astray);
    let machine = machine(processors, &speeds, astray).ok_or(SPEEDS)?;
    if uneven {
        return Err(UNEVEN_GAPS);
    }
    Ok(Imported { machine, speeds })
}

/// The numbers of a list by rising size; 18 where it is no list.
pub fn numbers(list: &[u8], astray: Option<Astray>) -> Result<Vec<u128>, Refusal> {
    let words = words(list, astray).ok_or(NOT_A_LIST)?;
    let read: Option<Vec<u128>> = words.iter().map(|word| number(word, astray)).collect();
    let in_order = read.ok_or(NOT_A_LIST)?;
    let sorted: BTreeSet<u128> = in_order.iter().copied().collect();
    let most = match astray {
        Some(Astray::ThirtyThreeNumbers) => MOST_NUMBERS + 1,
        Some(Astray::ThirtyTwoRefused) => MOST_NUMBERS - 1,
        Some(Astray::CountAfterGaps) => usize::MAX,
        _ => MOST_NUMBERS,
    };
    let repeated = sorted.len() < in_order.len();
    match astray {
        _ if in_order.len() > most => Err(NOT_A_LIST),
        Some(Astray::RepeatAsGap) if repeated => Err(UNEVEN_GAPS),
        Some(Astray::RepeatAccepted) => Ok(sorted.into_iter().collect()),
        Some(Astray::LastRepeatAccepted) if in_order.len() == 32 && sorted.len() == 31 && last_repeats(&in_order) => {
            Ok(sorted.into_iter().collect())
        }
        _ if repeated => Err(NOT_A_LIST),
        Some(Astray::GapsUnsorted) => Ok(in_order),
        _ => Ok(sorted.into_iter().collect()),
    }
}

fn last_repeats(numbers: &[u128]) -> bool {
    numbers.split_last().is_some_and(|(last, first)| first.contains(last))
}

/// What stands between the blanks of a list, without the one blank and the one line feed that may end it.
pub fn words(list: &[u8], astray: Option<Astray>) -> Option<Vec<&[u8]>> {
    let text = forgiven(list, astray);
    let unended = text.strip_suffix(b"\n").unwrap_or(text);
    if astray == Some(Astray::UnendedRefused) && unended.len() == text.len() {
        return None;
    }
    let bare = match astray {
        Some(Astray::LastBlankRefused) => unended,
        _ => unended.strip_suffix(b" ").unwrap_or(unended),
    };
    let parts = |byte: &u8| *byte == b' ' || (*byte == b'\t' && astray == Some(Astray::TabAccepted));
    let mut words: Vec<&[u8]> = bare.split(parts).collect();
    if astray == Some(Astray::TwoBlanksAccepted) {
        words.retain(|word| !word.is_empty());
    }
    Some(words).filter(|words| !words.is_empty())
}

/// The list without the byte too many that a wrong reader passes over at its ends.
fn forgiven(list: &[u8], astray: Option<Astray>) -> &[u8] {
    let without = |end: &[u8], kept: usize| list.ends_with(end).then(|| &list[..list.len() - end.len() + kept]);
    let shorter = match astray {
        Some(Astray::FirstBlankAccepted) => list.strip_prefix(b" "),
        Some(Astray::SecondBlankAtEnd) => without(b"  ", 1).or_else(|| without(b"  \n", 1)),
        Some(Astray::BlankAfterLineFeed) => without(b"\n ", 1),
        Some(Astray::SecondLineFeed) => without(b"\n\n", 1),
        Some(Astray::ReturnAccepted) => without(b"\r\n", 0),
        Some(Astray::ZeroByteAtEnd) => without(b"\0", 0),
        _ => None,
    };
    shorter.unwrap_or(list)
}

/// The number of a word: decimal digits alone, no leading zero, 1 to 4,294,967,295.
pub fn number(word: &[u8], astray: Option<Astray>) -> Option<u128> {
    let digits = match astray {
        Some(Astray::SignAccepted) => word.strip_prefix(b"+").unwrap_or(word),
        _ => word,
    };
    let zero = astray == Some(Astray::ZeroAccepted) && digits == b"0";
    if digits.first() == Some(&b'0') && astray != Some(Astray::LeadingZeroAccepted) && !zero {
        return None;
    }
    if digits.is_empty() || !digits.iter().all(u8::is_ascii_digit) {
        return None;
    }
    let value = match astray {
        Some(Astray::WrapsAt32Bits) => wrapped(digits, 1 << 32),
        Some(Astray::WrapsAt64Bits) => wrapped(digits, 1 << 64),
        _ => std::str::from_utf8(digits).ok()?.parse().ok()?,
    };
    let largest = match astray {
        Some(Astray::NumberBeyondAccepted) => LARGEST_NUMBER + 1,
        Some(Astray::LargestRefused) => LARGEST_NUMBER - 1,
        _ => LARGEST_NUMBER,
    };
    (zero || (1..=largest).contains(&value)).then_some(value)
}

fn wrapped(digits: &[u8], modulus: u128) -> u128 {
    digits.iter().fold(0, |value, digit| (value * 10 + u128::from(digit - b'0')) % modulus)
}

/// Whether two neighbours lie further apart than two others.
pub fn uneven(numbers: &[u128], astray: Option<Astray>) -> bool {
    let gaps: Vec<u128> = numbers.windows(2).map(|pair| pair[1].abs_diff(pair[0])).collect();
    match (astray, gaps.split_last()) {
        (Some(Astray::LastGapLeftOut), Some((_, first))) => first.iter().any(|gap| gap != &first[0]),
        (Some(Astray::GapsByTheirSum), Some(_)) => gaps.iter().sum::<u128>() != gaps[0] * gaps.len() as u128,
        _ => BTreeSet::from_iter(gaps).len() > 1,
    }
}

/// The numbers divided by their greatest common divisor; one number alone gives 1.
pub fn speeds(numbers: &[u128], astray: Option<Astray>) -> Vec<u128> {
    let divisor = match (astray, numbers) {
        (Some(Astray::Undivided), _) | (Some(Astray::SingleKeepsSpeed), [_]) => 1,
        (Some(Astray::DividedByLowest), [lowest, ..]) => *lowest,
        (Some(Astray::DividedByGap), [lowest, second, ..]) => second - lowest,
        _ => numbers.iter().fold(0, |divisor, number| greatest_common_divisor(divisor, *number)),
    };
    numbers.iter().map(|number| number / divisor.max(1)).collect()
}

// Euclid, by subtraction of whole multiples.
fn greatest_common_divisor(a: u128, b: u128) -> u128 {
    let (mut larger, mut smaller) = (a.max(b), a.min(b));
    while smaller > 0 {
        (larger, smaller) = (smaller, larger - larger / smaller * smaller);
    }
    larger
}

/// The machine with these speeds, lowest first; nothing where the top speed is beyond its range. All else is then within its own:
/// neither the lowest speed nor the step is above the top one.
fn machine(processors: u64, speeds: &[u128], astray: Option<Astray>) -> Option<Machine> {
    let single = u128::from(astray != Some(Astray::SingleStepZero));
    let (mut lowest, mut step) = match *speeds {
        [first, second, ..] => (first, second.abs_diff(first)),
        _ => (*speeds.first()?, single),
    };
    let mut top = *speeds.iter().max()?;
    let most = match astray {
        Some(Astray::TopBeyondImported) => TOP_SPEED + 1,
        Some(Astray::TopMostRefused) => TOP_SPEED - 1,
        _ => TOP_SPEED,
    };
    match astray {
        Some(Astray::SpeedsCut16) => {
            (lowest, step) = (lowest % (1 << 16), step % (1 << 16));
            top = lowest + (speeds.len() as u128 - 1) * step;
        }
        Some(Astray::HighestAsLowest) => lowest = top,
        _ => (),
    }
    let levels = speeds.len() as u32;
    let machine = Machine { processors: processors as u32, levels, lowest: lowest as u32, step: step as u32 };
    (top <= most).then_some(machine)
}

/// The machine line with its 0A.
pub fn line(machine: &Machine) -> Vec<u8> {
    let mut bytes = vec![1, machine.processors as u8, machine.levels as u8];
    bytes.extend((machine.lowest as u16).to_be_bytes());
    bytes.extend((machine.step as u16).to_be_bytes());
    filed(&bytes)
}

pub fn has_room(page: &[u8], place: usize) -> bool {
    page.get(place..).is_some_and(|rest| rest.len() >= LINE)
}

/// The reply of the call, which writes into the page only where it succeeds.
pub fn reply(imported: &Result<Imported, Refusal>, page: &mut [u8], place: usize, astray: Option<Astray>) -> Refusal {
    let machine = match imported {
        Err(SPEEDS) if astray == Some(Astray::RoomBeforeSpeeds) && !has_room(page, place) => return NO_ROOM,
        Err(refusal) => return *refusal,
        Ok(imported) => &imported.machine,
    };
    let line = line(machine);
    let done = match astray {
        Some(Astray::ImportPlaceIgnored) => write(&line, page, 0),
        Some(Astray::ImportNoLineEnd) => write(&line, page, place) || write(&line[..LINE - 1], page, place),
        Some(Astray::ImportLowerCase) => write(&line.to_ascii_lowercase(), page, place),
        _ => write(&line, page, place),
    };
    if done {
        0
    } else {
        NO_ROOM
    }
}
