//! The second planner's slack by brute force: its frame 83 against the levels that it files and the works as document 01 writes
//! them, and a tick of its library call below zero exactly where every never-rising plan fails.

use crate::brute::{cycle_and_works, second, Filed, Offered, Small};
use crate::facts::Facts;
use crate::planner::astray::Astray;
use crate::planner::desk;
use crate::planner::library;
use crate::random::Random;
use crate::tally::Tally;

/// What the cases met.
#[derive(Default)]
pub struct Met {
    pub planned: u64,
    pub short: u64,
    pub exact: u64,
    pub early: u64,
}

/// One machine with jobs offered one after another; the text says what is wrong and on which sheet.
fn case(random: &mut Random, astray: Option<Astray>, met: &mut Met) -> Result<(), String> {
    let small = Small::any(random);
    let plans = small.never_rising();
    let mut lines = small.line();
    let mut jobs: Vec<Offered> = Vec::new();
    let deadline = random.between(1, 12);
    slack_of_plan(&small, &jobs, &lines, astray, met)?;
    for id in 1..=random.between(1, 6) {
        let job = Offered::any(random, deadline);
        jobs.push(job);
        let offered = format!("{lines}{}", job.line(random, id));
        let (cycle, works) = cycle_and_works(&jobs);
        let passes = plans.iter().any(|plan| small.passes(plan, &works, cycle));
        slack_of_job(&offered, passes, astray, met)?;
        if passes {
            lines = offered;
            slack_of_plan(&small, &jobs, &lines, astray, met)?;
        } else {
            jobs.pop();
        }
    }
    Ok(())
}

fn slack_of_plan(
    small: &Small,
    jobs: &[Offered],
    lines: &str,
    astray: Option<Astray>,
    met: &mut Met,
) -> Result<(), String> {
    let filed = Filed::read(&second(lines.as_bytes(), None).1).ok_or(format!("{lines}no plan"))?;
    let sheet = format!("{lines}07\n");
    let due = frame(small, &filed.levels, jobs);
    let given = desk::printed(sheet.as_bytes(), astray, &mut Facts::new());
    met.planned += 1;
    met.early += u64::from(jobs.iter().any(Offered::is_early));
    if given == due.as_bytes() {
        Ok(())
    } else {
        Err(format!("{sheet}by hand: {due}second planner: {}", String::from_utf8_lossy(&given)))
    }
}

/// Frame 83 of these levels.
fn frame(small: &Small, levels: &[usize], jobs: &[Offered]) -> String {
    let (cycle, works) = cycle_and_works(jobs);
    let top = small.speed(small.l - 1);
    let mut text = String::from("83");
    for i in 1..=small.m {
        let speeds: u64 = levels[..i].iter().map(|&level| small.speed(level)).sum();
        let counted = if i == small.m { works.len() } else { i.min(works.len()) };
        let need = top * works[..counted].iter().sum::<u64>();
        // The plan passes, so nothing is short.
        let left = cycle * speeds - need;
        text.push_str(&format!("{:016X}{:02X}", left / top, left % top));
    }
    text + "\n"
}

/// The last line of the sheet offers the job.
fn slack_of_job(sheet: &str, passes: bool, astray: Option<Astray>, met: &mut Met) -> Result<(), String> {
    let printed = library::printed(sheet.as_bytes(), astray, &mut Facts::new());
    let text = String::from_utf8_lossy(&printed);
    let asked = text.lines().last().unwrap_or_default();
    let short = asked.contains(" -");
    met.short += u64::from(short);
    met.exact += u64::from(asked.starts_with("0 0 0") && !short);
    if short == passes {
        return Err(format!("{sheet}a plan passes: {passes}, second planner: {asked}"));
    }
    Ok(())
}

/// Runs so many cases under a seed and counts them; stops at the first fault.
pub fn run(seed: u64, cases: usize, tally: &mut Tally, met: &mut Met) {
    for index in 0..cases {
        let result = case(&mut Random::for_sheet(seed, 2, index), None, met);
        tally.count(result.is_ok());
        if let Err(fault) = result {
            println!("DIFFERENCE in the slack from the brute force, seed {seed:#x}, case {index}:\n{fault}");
            return;
        }
    }
}

/// Whether the brute force finds this wrong slack within so many cases.
pub fn finds(astray: Astray, seed: u64, cases: usize) -> bool {
    let mut met = Met::default();
    (0..cases).any(|index| case(&mut Random::for_sheet(seed, 2, index), Some(astray), &mut met).is_err())
}
