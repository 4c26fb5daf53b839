//! One case: the two sides are compared, then timed.

use crate::archive;
use crate::case::{Case, Section};
use crate::programs::{Files, Input, Program};
use crate::timing::{each, in_turns, lower_quartile, median, repetitions, Effort, Times};
use std::hint::black_box;
use std::io;
use yardstick::{host, import, LONGEST_FRAME};

type Call = fn(&[u8], &mut [u8], usize) -> u32;

/// The processors of the boxes whose lists are timed.
const PROCESSORS: u64 = 4;

pub struct Desks {
    pub files: Files,
    pub ours: Program,
    pub theirs: Program,
}

/// What a call gives: the reply, and the page with every byte that it left alone.
fn answer(call: impl Fn(&mut [u8]) -> u32, length: usize) -> (u32, Vec<u8>) {
    let mut page = vec![b'.'; length];
    let reply = call(&mut page);
    (reply, page)
}

/// The reply, where both sides gave the same answer.
fn same(what: &str, given: &[u8], answers: [(u32, Vec<u8>); 2]) -> Result<u32, String> {
    let [ours, theirs] = &answers;
    if ours == theirs {
        return Ok(ours.0);
    }
    let [ours, theirs] = answers.map(|(reply, page)| format!("{reply} {}", String::from_utf8_lossy(&page)));
    let given = String::from_utf8_lossy(given);
    Err(format!("{what} differs:\n  product   {ours}\n  yardstick {theirs}\n{given}"))
}

pub fn same_call(sheet: &[u8], length: usize, place: usize) -> Result<u32, String> {
    let ours = answer(|page| archive::plan_sheet(sheet, page, place), length);
    let theirs = answer(|page| host::plan_sheet(sheet, page, place), length);
    same("the host's call", sheet, [ours, theirs])
}

pub fn same_import(processors: u64, list: &[u8], length: usize, place: usize) -> Result<u32, String> {
    let ours = answer(|page| archive::import(processors, list, page, place), length);
    let theirs = answer(|page| import::import_list(processors, list, page, place), length);
    same(&format!("the import for {processors} processors"), list, [ours, theirs])
}

fn failed(error: io::Error) -> String {
    format!("a desk program could not be run: {error}")
}

pub fn same_frames(desks: &Desks, sheet: &[u8]) -> Result<(), String> {
    desks.files.put_sheet(sheet).map_err(failed)?;
    let ours = desks.ours.written(&desks.files).map_err(failed)?;
    let theirs = desks.theirs.written(&desks.files).map_err(failed)?;
    if ours == theirs {
        return Ok(());
    }
    let at = ours.iter().zip(&theirs).position(|(a, b)| a != b).unwrap_or(ours.len().min(theirs.len()));
    let lengths = (ours.len(), theirs.len());
    Err(format!("the desk programs differ at byte {at} of {lengths:?}:\n{}", String::from_utf8_lossy(sheet)))
}

fn sides(section: Section) -> [Call; 2] {
    match section {
        Section::Import => [
            |list, page, place| archive::import(PROCESSORS, list, page, place),
            |list, page, place| import::import_list(PROCESSORS, list, page, place),
        ],
        _ => [archive::plan_sheet, host::plan_sheet],
    }
}

/// A case of a call in process.
pub fn call_case(case: &Case, effort: &Effort) -> Result<Times, String> {
    for given in &case.sheets {
        match case.section {
            Section::Import => same_import(PROCESSORS, given, LONGEST_FRAME, 0)?,
            _ => same_call(given, LONGEST_FRAME, 0)?,
        };
    }
    let calls = |call: Call| {
        let mut page = [0; LONGEST_FRAME];
        for sheet in &case.sheets {
            black_box(call(black_box(sheet), black_box(&mut page), black_box(0)));
        }
    };
    let sides = sides(case.section);
    let often = sides.map(|call| repetitions(effort.round, || calls(call)));
    let time = |side: usize| Ok::<f64, String>(each(often[side], || calls(sides[side])));
    let [ours, theirs] = in_turns(effort, time)?.map(|mut times| median(&mut times) / case.sheets.len() as f64);
    Ok(Times { ours, theirs })
}

/// What a case of the desk program took: its sheet without the start of the programs, and the start.
pub struct DeskTimes {
    pub sheet: Times,
    pub start: Times,
}

/// Each round runs both programs on the sheet and on an empty one, so that what slows the machine for a while slows all
/// four.
pub fn desk_case(case: &Case, desks: &Desks, effort: &Effort) -> Result<DeskTimes, String> {
    same_frames(desks, &case.sheets[0])?;
    let Desks { files, ours, theirs } = desks;
    let runs = [(ours, Input::Sheet), (theirs, Input::Sheet), (ours, Input::Empty), (theirs, Input::Empty)];
    let times = in_turns(effort, |run| {
        let (program, input) = runs[run];
        program.time(files, input)
    });
    let [ours, theirs, our_start, their_start] = times.map_err(failed)?.map(|mut times| lower_quartile(&mut times));
    Ok(DeskTimes {
        sheet: Times { ours: ours - our_start, theirs: theirs - their_start },
        start: Times { ours: our_start, theirs: their_start },
    })
}
