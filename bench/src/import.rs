//! The import of a box's frequency list.

use crate::hexadecimal;
use crate::load::greatest_common_divisor;
use crate::machine::TOP_SPEED;
use crate::refusal::Refusal;

const MOST_NUMBERS: usize = 32;
/// A machine frame with its 0A.
const LINE: usize = 15;

/// The machine frame of a list, written into the page from the place on; 0, or the number of the first refusal.
pub fn import_list(processors: u64, list: &[u8], page: &mut [u8], place: usize) -> u32 {
    match filed(processors, list, page, place) {
        Ok(()) => 0,
        Err(refusal) => refusal as u32,
    }
}

fn filed(processors: u64, list: &[u8], page: &mut [u8], place: usize) -> Result<(), Refusal> {
    if !(1..=32).contains(&processors) {
        return Err(Refusal::Processors);
    }
    let mut places = [0; MOST_NUMBERS];
    let numbers = read(list, &mut places).ok_or(Refusal::NotAList)?;
    let (lowest, step) = speeds(numbers)?;
    let room = page.get_mut(place..).and_then(|rest| rest.get_mut(..LINE)).ok_or(Refusal::NoRoom)?;
    let ([b, b_low], [d, d_low]) = (lowest.to_be_bytes(), step.to_be_bytes());
    hexadecimal::write(&[1, processors as u8, numbers.len() as u8, b, b_low, d, d_low], room);
    room[LINE - 1] = b'\n';
    Ok(())
}

/// The numbers of a list by rising size, all different, or None where it is no list.
fn read<'a>(list: &[u8], places: &'a mut [u32; MOST_NUMBERS]) -> Option<&'a [u32]> {
    let (mut count, mut rest) = (0, list);
    loop {
        let (number, after) = number(rest)?;
        *places.get_mut(count)? = number;
        count += 1;
        match after {
            [] | [b' '] | [b'\n'] | [b' ', b'\n'] => break,
            [b' ', next @ ..] => rest = next,
            _ => return None,
        }
    }
    let numbers = &mut places[..count];
    numbers.sort_unstable();
    numbers.is_sorted_by(|a, b| a < b).then_some(numbers)
}

/// The number that a text begins with, and what follows it. A value is looked at after each digit, so that it never
/// outgrows 64 bits.
fn number(text: &[u8]) -> Option<(u32, &[u8])> {
    let [first @ b'1'..=b'9', rest @ ..] = text else { return None };
    let (mut value, mut rest) = (u64::from(first - b'0'), rest);
    while let [digit @ b'0'..=b'9', after @ ..] = rest {
        value = 10 * value + u64::from(digit - b'0');
        if value > u64::from(u32::MAX) {
            return None;
        }
        rest = after;
    }
    Some((value as u32, rest))
}

/// The lowest speed and the step. Where the gaps are even, what divides the lowest number and the gap divides them all.
fn speeds(numbers: &[u32]) -> Result<(u16, u16), Refusal> {
    let [lowest, second, ..] = *numbers else { return Ok((1, 1)) };
    let gap = second - lowest;
    if numbers.windows(2).any(|pair| pair[1] - pair[0] != gap) {
        return Err(Refusal::UnevenGaps);
    }
    let divisor = greatest_common_divisor(lowest, gap);
    if numbers[numbers.len() - 1] / divisor > TOP_SPEED {
        return Err(Refusal::Speeds);
    }
    Ok(((lowest / divisor) as u16, (gap / divisor) as u16))
}
