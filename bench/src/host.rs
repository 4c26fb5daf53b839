//! The host's call.

use crate::frames::{lines, read};
use crate::plan::Plan;
use crate::refusal::Refusal;
use crate::roster::Roster;
use crate::LONGEST_SHEET;

/// The plan of the roster that a sheet leaves, written into the page from the place on; 0, or the number of the first
/// refusal.
pub fn plan_sheet(sheet: &[u8], page: &mut [u8], place: usize) -> u32 {
    match filed(sheet, page, place) {
        Ok(()) => 0,
        Err(refusal) => refusal as u32,
    }
}

fn filed(sheet: &[u8], page: &mut [u8], place: usize) -> Result<(), Refusal> {
    if sheet.len() > LONGEST_SHEET {
        return Err(Refusal::Malformed);
    }
    let mut roster = Roster::default();
    for line in lines(sheet) {
        match read(line) {
            None => return Err(Refusal::Malformed),
            Some(frame) => roster.change(frame)?,
        }
    }
    let plan = roster.plan()?;
    let length = Plan::frame_length(plan.processors);
    let room = page.get_mut(place..).and_then(|rest| rest.get_mut(..length)).ok_or(Refusal::NoRoom)?;
    plan.write(room);
    Ok(())
}
