//! Document 004's evaluation (section V), repeated with the planner.
//!
//! `evaluation SETS TSV [DOCUMENT]`: so many task sets for each total utilisation; the means go to the TSV. The
//! document, where one is given, must have the tables that are printed. The last line is 'N passed, M failed'. Times go
//! to standard error.

#![deny(unsafe_code)]

#[allow(unsafe_code)]
mod archive;
#[forbid(unsafe_code)]
mod capacity;
#[forbid(unsafe_code)]
mod dif;
#[forbid(unsafe_code)]
mod examples;
#[forbid(unsafe_code)]
mod exhaustive;
#[forbid(unsafe_code)]
mod gmf;
#[forbid(unsafe_code)]
mod optimal;
#[forbid(unsafe_code)]
mod plain;
#[forbid(unsafe_code)]
mod platforms;
#[forbid(unsafe_code)]
mod random;
#[forbid(unsafe_code)]
mod report;
#[forbid(unsafe_code)]
mod sweep;
#[forbid(unsafe_code)]
mod tally;
#[forbid(unsafe_code)]
mod tasks;

use platforms::Platform;
use report::Report;
use std::process::ExitCode;
use std::time::Instant;
use tally::Tally;

struct Options {
    sets: usize,
    tsv: String,
    document: Option<String>,
}

fn main() -> ExitCode {
    let mut tally = Tally::default();
    if let Err(fault) = options().and_then(|options| run(&options, &mut tally)) {
        tally.check(false, || fault);
    }
    ExitCode::from(u8::from(!tally.close()))
}

fn options() -> Result<Options, String> {
    let usage = || "usage: evaluation SETS TSV [DOCUMENT]".to_string();
    let mut arguments = std::env::args().skip(1);
    let sets = arguments.next().and_then(|sets| sets.parse().ok()).filter(|&sets| sets > 0).ok_or_else(usage)?;
    let tsv = arguments.next().ok_or_else(usage)?;
    Ok(Options { sets, tsv, document: arguments.next() })
}

fn run(options: &Options, tally: &mut Tally) -> Result<(), String> {
    let platforms = [Platform::first(), Platform::second()];
    timed("examples", || examples::check(tally));
    timed("exhaustive search against plain enumeration", || plain::check(tally));
    let groups = timed("task sets", || tasks::draw_groups(options.sets));
    let mut reports = Vec::new();
    for platform in &platforms {
        reports.push(sweep::run(platform, &groups, tally)?);
    }
    for report in &reports {
        println!("{}", report.table());
    }
    write_tsv(&options.tsv, &reports)?;
    match &options.document {
        Some(document) => check_document(document, &reports, tally),
        None => Ok(()),
    }
}

fn write_tsv(path: &str, reports: &[Report]) -> Result<(), String> {
    let head = "platform\tutilisation\tDIF\tExhaustive\tGMF\tOptimal\n".to_string();
    let text = (1..).zip(reports).fold(head, |text, (number, report)| text + &report.lines(number));
    std::fs::write(path, text).map_err(|fault| format!("{path}: {fault}"))
}

fn check_document(path: &str, reports: &[Report], tally: &mut Tally) -> Result<(), String> {
    let text = std::fs::read_to_string(path).map_err(|fault| format!("{path}: {fault}"))?;
    for report in reports {
        tally
            .check(text.contains(&report.table()), || format!("{path} has another table for {}", report.platform.name));
    }
    Ok(())
}

/// Says on standard error how long a part took, so that standard output is the same in every run.
fn timed<T>(name: &str, part: impl FnOnce() -> T) -> T {
    let start = Instant::now();
    let result = part();
    eprintln!("-- {name}: {:.2} s", start.elapsed().as_secs_f64());
    result
}
