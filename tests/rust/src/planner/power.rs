//! The power table: L whole numbers that never fall and whose rises never shrink.

use super::astray::Astray;
use super::machine::Machine;
use super::refusal::{Refusal, POWER_TABLE};
use crate::facts::{Facts, Mark};

pub const GREATEST_VALUE: u32 = 16_777_216;

/// The cubes of the machine's speeds (document 004's cube law).
pub fn house_table(machine: &Machine, astray: Option<Astray>) -> Vec<u32> {
    let cube = |level: u32| match astray {
        Some(Astray::HouseTableMissing) => 0,
        Some(Astray::HouseTableByLevel) => level.pow(3),
        _ => machine.speed(level).pow(3),
    };
    (0..machine.levels).map(cube).collect()
}

/// Refusal 3: not exactly L values, a value too large, a fall, or a shrinking rise.
pub fn check(values: &[u32], levels: u32, astray: Option<Astray>, facts: &mut Facts) -> Result<(), Refusal> {
    if values.len() != levels as usize {
        facts.mark_if(values.len() as u32 + 1 == levels, Mark::TableShort);
        facts.mark_if(values.len() as u32 == levels + 1, Mark::TableLong);
        return Err(POWER_TABLE);
    }
    let greatest = GREATEST_VALUE + u32::from(astray == Some(Astray::ValueBeyondAccepted));
    if values.iter().any(|&value| value > greatest) {
        facts.mark_if(values.iter().max() == Some(&(GREATEST_VALUE + 1)), Mark::ValueBeyond);
        return Err(POWER_TABLE);
    }
    let rises: Vec<i64> = values.windows(2).map(|pair| i64::from(pair[1]) - i64::from(pair[0])).collect();
    let least_rise = -i64::from(astray == Some(Astray::FallAccepted));
    if rises.iter().any(|&rise| rise < least_rise) {
        facts.mark_if(rises.contains(&-1), Mark::FallByOne);
        return Err(POWER_TABLE);
    }
    let shrinks = rises.windows(2).any(|pair| pair[1] < pair[0]);
    if shrinks && astray != Some(Astray::RisesUnchecked) && astray != Some(Astray::FallAccepted) {
        facts.mark_if(rises.windows(2).any(|pair| pair[1] == pair[0] - 1), Mark::RiseShort);
        return Err(POWER_TABLE);
    }
    note_accepted(values, &rises, facts);
    Ok(())
}

fn note_accepted(values: &[u32], rises: &[i64], facts: &mut Facts) {
    let flat = rises.iter().all(|&rise| rise == 0);
    facts.mark_if(values.contains(&GREATEST_VALUE), Mark::ValueMost);
    facts.mark_if(rises.windows(2).any(|pair| pair[0] == pair[1] && pair[0] > 0), Mark::EqualRises);
    facts.mark_if(flat && rises.len() > 1 && values[0] > 0, Mark::TableFlat);
    facts.mark_if(flat && rises.len() > 1 && values[0] == 0, Mark::TableZero);
}

/// The sum over all processors of the value at each one's level.
pub fn total(levels: &[u32], table: &[u32], astray: Option<Astray>) -> u32 {
    let left_out = |level: u32| level == 0 && astray == Some(Astray::LowestPowerLeftOut);
    levels.iter().filter(|&&level| !left_out(level)).map(|&level| table[level as usize]).sum()
}
