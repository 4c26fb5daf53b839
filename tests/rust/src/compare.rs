//! The comparison of the second planner with the product: the archive's calls, the desk program, the program that asks the library
//! call before every admission, and the one that takes the jobs held at the end in their order.

use crate::archive;
use crate::facts::Facts;
use crate::planner::astray::Astray;
use crate::planner::desk::printed;
use crate::planner::frames::refusal_frame;
use crate::planner::host::{outcome, reply, write, Outcome};
use crate::planner::library;
use crate::planner::refusal::NO_ROOM;
use crate::planner::turns;
use crate::random::Random;
use crate::sheets::Side;
use crate::shrink::shown;
use std::io::{Read, Write};
use std::path::Path;
use std::process::{Command, Stdio};

/// Where the two differ, in words.
pub struct Difference {
    pub second: String,
    pub product: String,
}

pub fn differ(what: &str, second: impl std::fmt::Debug, product: impl std::fmt::Debug) -> Option<Difference> {
    Some(Difference { second: format!("{what}: {second:?}"), product: format!("{what}: {product:?}") })
}

/// How a page and a place stand to the frame that is to be written.
#[derive(Clone, Copy, Debug, PartialEq, Eq)]
pub enum Relation {
    Exact,
    ExactAtPlace,
    Roomy,
    OneShort,
    OneShortAtPlace,
    PlaceAtEnd,
    PlaceBeyond,
    PlaceFarBeyond,
    PlaceOverflows,
    NoPage,
    NoPageAndPlace,
}

pub const WITH_ROOM: [Relation; 3] = [Relation::Exact, Relation::ExactAtPlace, Relation::Roomy];
pub const WITHOUT_ROOM: [Relation; 8] = [
    Relation::OneShort,
    Relation::OneShortAtPlace,
    Relation::PlaceAtEnd,
    Relation::PlaceBeyond,
    Relation::PlaceFarBeyond,
    Relation::PlaceOverflows,
    Relation::NoPage,
    Relation::NoPageAndPlace,
];

impl Relation {
    /// The page's length and the place for a frame of this length.
    pub fn page(self, frame: usize, random: &mut Random) -> (usize, usize) {
        let some = random.between(1, 60) as usize;
        match self {
            Relation::Exact => (frame, 0),
            Relation::ExactAtPlace => (frame + some, some),
            Relation::Roomy => (frame + 2 * some, random.below(some as u64 + 1) as usize),
            Relation::OneShort => (frame - 1, 0),
            Relation::OneShortAtPlace => (frame - 1 + some, some),
            Relation::PlaceAtEnd => (some, some),
            Relation::PlaceBeyond => (frame + some, frame + some + 1),
            Relation::PlaceFarBeyond => (frame + some, usize::MAX),
            Relation::PlaceOverflows => (frame + some, usize::MAX - random.below(frame as u64 + 1) as usize),
            Relation::NoPage => (0, 0),
            Relation::NoPageAndPlace => (0, random.pick(&[1, some, usize::MAX])),
        }
    }
}

const GUARD: usize = 48;

/// A page with guard bytes around it, all filled with a pattern, so that a stray write shows.
pub struct Lent {
    bytes: Vec<u8>,
    length: usize,
}

impl Lent {
    pub fn new(length: usize, start: u8) -> Self {
        let pattern = |place: usize| (place as u8).wrapping_mul(37).wrapping_add(start);
        Lent { bytes: (0..length + 2 * GUARD).map(pattern).collect(), length }
    }

    pub fn page(&mut self) -> &mut [u8] {
        &mut self.bytes[GUARD..GUARD + self.length]
    }
}

/// One host comparison: the plan call on each relation, the refused line, and the refusal frame where one is to be filed.
pub fn host(
    sheet: &[u8],
    relations: &[Relation],
    seed: u64,
    astray: Option<Astray>,
    facts: &mut Facts,
) -> Option<Difference> {
    let expected = outcome(sheet, astray, facts);
    for &relation in relations {
        let found = plan_call(sheet, &expected, relation, seed, astray, facts);
        if found.is_some() {
            return found;
        }
    }
    let (line, refusal) = match expected {
        Outcome::Refused { line, refusal } => (line, Some(refusal)),
        _ => (0, None),
    };
    let lent = sheet.to_vec();
    let found = archive::refused_line(&lent);
    if found != line {
        return differ("refused line", line, found);
    }
    if lent != sheet {
        return differ("sheet", "unchanged", "changed by planner_refused_line");
    }
    refusal.and_then(|number| refusal_call(line, number, relations[0], seed))
}

fn plan_call(
    sheet: &[u8],
    expected: &Outcome,
    relation: Relation,
    seed: u64,
    astray: Option<Astray>,
    facts: &mut Facts,
) -> Option<Difference> {
    let mut random = Random::new(seed);
    let frame = match expected {
        Outcome::Frame(frame) => frame.len(),
        _ => 89,
    };
    let (length, place) = relation.page(frame, &mut random);
    if let Outcome::Frame(_) = expected {
        facts.relations[relation as usize] += 1;
    }
    let mut second = Lent::new(length, seed as u8);
    let mut product = Lent::new(length, seed as u8);
    let lent = sheet.to_vec();
    let due = u32::from(reply(expected, second.page(), place, astray, facts));
    let given = archive::plan_sheet(&lent, product.page(), place);
    if due != given {
        return differ(&format!("reply, page of {length} bytes, place {place}"), due, given);
    }
    if lent != sheet {
        return differ("sheet", "unchanged", "changed by planner_plan_sheet");
    }
    differ_in_page(&second, &product)
}

/// One comparison of the call that files a refusal.
pub fn refusal_call(line: u32, number: u8, relation: Relation, seed: u64) -> Option<Difference> {
    let mut random = Random::new(seed);
    let frame = refusal_frame(line, number);
    let (length, place) = relation.page(frame.len(), &mut random);
    let mut second = Lent::new(length, seed as u8);
    let mut product = Lent::new(length, seed as u8);
    let due = if write(&frame, second.page(), place) { 0 } else { u32::from(NO_ROOM) };
    let given = archive::write_refusal(line, number, product.page(), place);
    if due != given {
        return differ(&format!("reply for refusal {number} of line {line}"), due, given);
    }
    differ_in_page(&second, &product)
}

// Shown is the page from the first byte that differs; a byte outside the page has been written where none may be.
pub fn differ_in_page(second: &Lent, product: &Lent) -> Option<Difference> {
    let first = (0..second.bytes.len()).find(|&place| second.bytes[place] != product.bytes[place])?;
    let part = |lent: &Lent| shown(&lent.bytes[first..lent.bytes.len().min(first + 89)]);
    let what = format!("page of {} bytes, from byte {}", second.length, first as i64 - GUARD as i64);
    Some(Difference { second: format!("{what}:\n{}", part(second)), product: format!("{what}:\n{}", part(product)) })
}

/// What the second planner prints for a sheet in the place of a side's program; the host's call has none.
pub fn second(side: Side, sheet: &[u8], astray: Option<Astray>) -> Vec<u8> {
    let facts = &mut Facts::new();
    match side {
        Side::Host => Vec::new(),
        Side::Desk => printed(sheet, astray, facts),
        Side::Library => library::printed(sheet, astray, facts),
        Side::Turns => turns::printed(sheet, astray, facts),
    }
}

/// One desk comparison: every byte that the program prints.
pub fn desk(program: &Path, sheet: &[u8], astray: Option<Astray>, facts: &mut Facts) -> Option<Difference> {
    differ_in_run(program, sheet, &printed(sheet, astray, facts))
}

/// One comparison of the library call, by the lines that are printed for the admissions of a sheet.
pub fn library(program: &Path, sheet: &[u8], astray: Option<Astray>, facts: &mut Facts) -> Option<Difference> {
    differ_in_run(program, sheet, &library::printed(sheet, astray, facts))
}

/// One comparison of the order in which the jobs held at the end of a sheet are taken, by their ids.
pub fn turns(program: &Path, sheet: &[u8], astray: Option<Astray>, facts: &mut Facts) -> Option<Difference> {
    differ_in_run(program, sheet, &turns::printed(sheet, astray, facts))
}

fn differ_in_run(program: &Path, sheet: &[u8], due: &[u8]) -> Option<Difference> {
    match run(program, sheet) {
        Ok(given) if given == due => None,
        Ok(given) => differ_in_output(due, &given),
        Err(fault) => differ("program", "ends with exit status 0", fault),
    }
}

// Long outputs are shown from a little before the first byte that differs.
fn differ_in_output(due: &[u8], given: &[u8]) -> Option<Difference> {
    let first = due.iter().zip(given).take_while(|(a, b)| a == b).count();
    let start = due[..first].iter().rposition(|&byte| byte == b'\n').map_or(0, |end| end + 1);
    let part = |bytes: &[u8]| shown(&bytes[start..bytes.len().min(start + 400)]);
    let what = format!("output of {} bytes against {}, from byte {start}", due.len(), given.len());
    Some(Difference { second: format!("{what}:\n{}", part(due)), product: format!("{what}:\n{}", part(given)) })
}

/// Every pipe holds so many bytes before its reader takes any.
const PIPE: usize = 4_096;

/// Runs a program on a sheet. A long sheet is written from a second thread: the output may fill its pipe before the sheet is read.
pub fn run(program: &Path, sheet: &[u8]) -> Result<Vec<u8>, String> {
    let fault = |error: std::io::Error| error.to_string();
    let mut child = Command::new(program).stdin(Stdio::piped()).stdout(Stdio::piped()).spawn().map_err(fault)?;
    let input = child.stdin.take().ok_or("no standard input")?;
    let mut output = child.stdout.take().ok_or("no standard output")?;
    let mut bytes = Vec::new();
    // The pipe ends with the sheet. A program that stops reading a sheet that is too long closes it; its output tells whether that
    // was right.
    let write = move || {
        let mut input = input;
        drop(input.write_all(sheet));
    };
    let read = if sheet.len() <= PIPE {
        write();
        output.read_to_end(&mut bytes)
    } else {
        std::thread::scope(|scope| {
            scope.spawn(write);
            output.read_to_end(&mut bytes)
        })
    };
    read.map_err(fault)?;
    let status = child.wait().map_err(fault)?;
    if status.success() {
        Ok(bytes)
    } else {
        Err(format!("{status}"))
    }
}
