//! Times the product against the yardstick: the host's call and the import in process, the desk program as a process,
//! and how call and program grow.
//!
//! `bench [--quick] [--only WORD] [--tsv FILE]` times; `bench --check N` compares the answers on N random sheets
//! and lists. The environment names the product's desk program in STUDIO_DESK and the yardstick's in YARDSTICK_DESK.

#![deny(unsafe_code)]

#[allow(unsafe_code)]
mod archive;
mod case;
mod check;
mod desk_cases;
mod draft;
mod frequencies;
mod growth_cases;
mod host_cases;
mod import_cases;
mod lines;
mod measure;
mod mixtures;
mod options;
mod programs;
mod random;
mod report;
mod rosters;
mod sheets;
mod timing;
mod turned_down;

use case::{Case, Section};
use draft::FULL;
use measure::{call_case, desk_case, Desks};
use options::Options;
use programs::{Files, Program};
use random::Random;
use report::{Report, HEAD};
use std::env;
use std::process::ExitCode;
use std::time::Duration;
use timing::{median, Effort, Times};

const SEED: u64 = 20_120_411;

fn main() -> ExitCode {
    match run() {
        Ok(()) => ExitCode::SUCCESS,
        Err(message) => {
            eprintln!("FAILED: {message}");
            ExitCode::FAILURE
        }
    }
}

fn run() -> Result<(), String> {
    let options = Options::read()?;
    let desks = desks()?;
    if let Some(sheets) = options.check {
        return check::run(sheets, &desks);
    }
    println!("{HEAD}");
    let mut report = Report::default();
    for section in Section::ALL {
        time_section(section, &options, &desks, &mut report)?;
    }
    if report.is_empty() {
        return Err("no case has that word in its name".into());
    }
    options.tsv.as_ref().map_or(Ok(()), |path| report.save(path))
}

fn desks() -> Result<Desks, String> {
    let program = |name| env::var(name).map(|path| Program::new(path.into())).map_err(|_| format!("{name} is not set"));
    let files = Files::new().map_err(|error| format!("no folder for the sheets: {error}"))?;
    Ok(Desks { files, ours: program("STUDIO_DESK")?, theirs: program("YARDSTICK_DESK")? })
}

fn effort(quick: bool, section: Section) -> Effort {
    let milliseconds = Duration::from_millis;
    match (quick, section.is_call()) {
        (true, true) => Effort { fewest: 3, most: 5, budget: milliseconds(5), round: milliseconds(0) },
        (true, false) => Effort { fewest: 3, most: 5, budget: milliseconds(10), round: milliseconds(0) },
        (false, true) => Effort { fewest: 31, most: 61, budget: milliseconds(300), round: milliseconds(2) },
        (false, false) => Effort { fewest: 15, most: 301, budget: milliseconds(1200), round: milliseconds(0) },
    }
}

fn cases(section: Section, quick: bool) -> Vec<Case> {
    // A quick run has shorter sheets as well.
    let length = if quick { FULL / 8 } else { FULL };
    let mut random = Random::new(SEED);
    match section {
        Section::Host => host_cases::all(length, &mut random),
        Section::Import => import_cases::all(&mut random),
        Section::Desk => desk_cases::all(length, &mut random),
        Section::HostGrowth | Section::DeskGrowth => growth_cases::all(section, length, &mut random),
    }
}

fn time_section(section: Section, options: &Options, desks: &Desks, report: &mut Report) -> Result<(), String> {
    let effort = effort(options.quick, section);
    let wanted = |case: &Case| options.only.as_ref().is_none_or(|word| case.name.contains(word));
    let cases: Vec<Case> = cases(section, options.quick).into_iter().filter(wanted).collect();
    if cases.is_empty() {
        return Ok(());
    }
    report.title(section.title());
    let mut starts = Vec::new();
    for case in &cases {
        if section.is_call() {
            report.row(case, call_case(case, &effort)?, 0.0);
        } else {
            let times = desk_case(case, desks, &effort)?;
            report.row(case, times.sheet, times.start.ours / 30.0);
            starts.push(times.start);
        }
    }
    if !section.is_call() {
        report.row(&Case::desk(desk_cases::EMPTY, Vec::new()), middle(&starts), 0.0);
    }
    Ok(())
}

/// The medians over all cases of a section.
fn middle(times: &[Times]) -> Times {
    let of = |side: fn(&Times) -> f64| median(&mut times.iter().map(side).collect::<Vec<f64>>());
    Times { ours: of(|times| times.ours), theirs: of(|times| times.theirs) }
}
