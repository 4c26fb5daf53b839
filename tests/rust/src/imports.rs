//! The import of frequency lists: the second planner's reader compared with the product's call, what is planned on an imported
//! machine, and the search for wrong readers.

use crate::archive;
use crate::brute::{product, Filed};
use crate::compare::{differ, differ_in_page, Difference, Lent, Relation};
use crate::facts::{Due, Facts, Mark};
use crate::lists::even::with_machine;
use crate::lists::{Family, Import, FAMILIES};
use crate::planner::astray::{Astray, ALL};
use crate::planner::book::Book;
use crate::planner::frames::{filed, Frame};
use crate::planner::import::{has_room, imported, line, reply, Imported, LINE};
use crate::planner::import_notes::note;
use crate::planner::refusal::Refusal;
use crate::random::Random;
use crate::sheets::draft::{bytes_of, either};
use crate::shrink::{shown, shrink, NUMBER_END};
use crate::tally::Tally;
use std::time::Instant;

const LEAST: usize = 100_000;
const MACHINES: usize = 8_000;

/// In bytes: three short numbers.
const SMALL_LIST: usize = 12;

/// Wrong readers that the lists made from machines must find without a second reader to compare with.
const FOUND_BY_MACHINES: [Astray; 10] = [
    Astray::ThirtyTwoRefused,
    Astray::LastBlankRefused,
    Astray::UnendedRefused,
    Astray::LargestRefused,
    Astray::GapsUnsorted,
    Astray::Undivided,
    Astray::DividedByGap,
    Astray::DividedByLowest,
    Astray::TopMostRefused,
    Astray::HighestAsLowest,
];

/// What stands before and after a lent list: a reader that goes on there finds more digits.
const BESIDE: [u8; 24] = [b'7'; 24];

/// One comparison: the reply, every byte of the page, and the list as it was; then a plan on the machine.
fn difference(import: &Import, astray: Option<Astray>, facts: &mut Facts) -> Option<Difference> {
    let Import { processors, ref list, relation, seed } = *import;
    let mut random = Random::new(seed);
    let (length, place) = relation.page(LINE, &mut random);
    let mut second = Lent::new(length, seed as u8);
    let mut product = Lent::new(length, seed as u8);
    let lent = [&BESIDE[..], list, &BESIDE].concat();
    let before = lent.clone();

    let expected = imported(processors, list, astray);
    if astray.is_none() {
        note(processors, list, has_room(second.page(), place), &expected, facts);
        facts.relations[relation as usize] += u64::from(expected.is_ok());
    }
    let due = u32::from(reply(&expected, second.page(), place, astray));
    let given = archive::import(processors, &lent[BESIDE.len()..BESIDE.len() + list.len()], product.page(), place);
    if due != given {
        return differ(&format!("reply, page of {length} bytes, place {place}"), due, given);
    }
    if lent != before {
        return differ("list", "unchanged", "changed by planner_import");
    }
    let found = differ_in_page(&second, &product);
    match &expected {
        Ok(expected) if due == 0 && found.is_none() => {
            differ_in_plan(&product.page()[place..place + LINE], expected, &mut random, facts)
        }
        _ => found,
    }
}

/// The product's line and some jobs as a sheet, against the second planner's book on a machine with these speeds.
fn differ_in_plan(written: &[u8], expected: &Imported, random: &mut Random, facts: &mut Facts) -> Option<Difference> {
    let jobs: Vec<Frame> = (0..random.below(4)).map(|id| job(random, id + 1)).collect();
    let lines: Vec<u8> = jobs.iter().flat_map(|job| filed(&bytes_of(job))).collect();
    let due = planned(expected, &jobs, facts);
    let given = product(&[written, &lines].concat());
    let power = Filed::read(&given.1).map(|plan| (plan.power, power(&expected.speeds, &plan.levels)));
    facts.mark_if(given.0 == 17, Mark::ImportHeavy);
    facts.mark_if(given.0 == 0 && !jobs.is_empty(), Mark::ImportPlanned);
    facts.mark_if(given.0 == 0 && jobs.is_empty(), Mark::ImportPlannedEmpty);
    match (due, given) {
        (Err(due), (given, _)) if u32::from(due) == given => None,
        (Ok(frame), (0, given)) if frame == given => match power {
            Some((filed, cubes)) if filed == cubes => None,
            _ => differ(&format!("power and sum of cubes after\n{}", shown(&lines)), "equal", power),
        },
        (due, (number, frame)) => {
            let due = due.map(|frame| shown(&frame));
            differ(&format!("plan after\n{}", shown(&lines)), due, (number, shown(&frame)))
        }
    }
}

/// A cost and a deadline that fill a processor seldom, and seldom more than that.
fn job(random: &mut Random, id: u64) -> Frame {
    let deadline = random.pick(&[1, 2, 3, 10, 64, 480, 1_024]);
    let cost = match random.below(12) {
        0 => deadline + 1,
        1 => deadline,
        _ => random.between(1, deadline),
    };
    either(random, id, cost, deadline)
}

/// The frame of the plan, or the first refusal.
fn planned(imported: &Imported, jobs: &[Frame], facts: &mut Facts) -> Result<Vec<u8>, Refusal> {
    let machine = imported.machine;
    let mut book = Book::new(None);
    let (l, b, d) = (machine.levels, machine.lowest, machine.step);
    book.take(&Frame::Machine { m: machine.processors, l, b, d }, facts)?;
    for job in jobs {
        book.take(job, facts)?;
    }
    book.plan(facts)
}

/// The house table's power of these levels, by the speeds that the list itself gives.
fn power(speeds: &[u128], levels: &[usize]) -> u64 {
    levels.iter().map(|&level| speeds.get(level).map_or(0, |speed| speed.pow(3) as u64)).sum()
}

/// The smallest list found on which the two still differ, with one processor and a page of one line where those do.
fn shrunk(import: &Import, budget: usize, astray: Option<Astray>) -> Import {
    let differs = |import: &Import| difference(import, astray, &mut Facts::new()).is_some();
    let plainer = |simple: Import, best: Import| if differs(&simple) { simple } else { best };
    let best = plainer(Import { processors: 1, ..import.clone() }, import.clone());
    let best = plainer(Import { relation: Relation::Exact, ..best.clone() }, best);
    let with = |list: &[u8]| Import { list: list.to_vec(), ..best.clone() };
    let list = shrink(&best.list, NUMBER_END, budget, &mut |list| differs(&with(list)));
    with(&list)
}

fn report(family: &Family, seed: u64, index: usize, import: &Import) {
    let small = shrunk(import, 200_000, None);
    println!("DIFFERENCE in an import, seed {seed:#x}, family {}, list {index}", family.letter);
    println!("{} processors, page {:?}, shrunk to {} bytes:", small.processors, small.relation, small.list.len());
    println!("{}", shown(&small.list));
    if let Some(difference) = difference(&small, None, &mut Facts::new()) {
        println!("second planner: {}", difference.second);
        println!("product: {}", difference.product);
    }
}

/// All lists of one family; stops at the first difference. Returns the number of lists compared.
fn sweep(family: &Family, seeds: &[(usize, u64)], shares: usize, facts: &mut Facts, tally: &mut Tally) -> usize {
    let share = family.count.div_ceil(shares);
    let mut compared = 0;
    for &(order, seed) in seeds {
        for index in order * share..(order + 1) * share {
            let import = family.import(seed, index);
            let found = difference(&import, None, facts);
            tally.count(found.is_none());
            compared += 1;
            if found.is_some() {
                report(family, seed, index, &import);
                return compared;
            }
        }
    }
    compared
}

pub fn run(seeds: &[(usize, u64)], shares: usize, full: bool, facts: &mut Facts, tally: &mut Tally) {
    let mut sum = 0;
    for family in &FAMILIES {
        let start = Instant::now();
        let compared = sweep(family, seeds, shares, facts, tally);
        let seconds = start.elapsed().as_secs_f64();
        println!("{compared:>9}  {} {} ({seconds:.1} s)", family.letter, family.name);
        sum += compared;
        if full {
            tally.check(&format!("lists of family {}", family.letter), compared >= family.count);
        }
    }
    println!("{sum:>9}  lists");
    if full {
        tally.check("number of lists", sum >= LEAST);
    }
    for &(_, seed) in seeds {
        machines_again(seed, MACHINES / shares, tally);
    }
}

/// The speeds of a machine as a list open that machine again; stops at the first that does not.
fn machines_again(seed: u64, machines: usize, tally: &mut Tally) {
    let mut random = Random::new(seed);
    for index in 0..machines {
        let found = other_machine(&mut random, &of_product);
        tally.count(found.is_none());
        if let Some(fault) = found {
            println!("DIFFERENCE from the machine of a list, seed {seed:#x}, machine {index}:\n{fault}");
            return;
        }
    }
}

/// What is wrong with the import of one machine's list.
fn other_machine(random: &mut Random, reader: Reader) -> Option<String> {
    let (machine, list) = with_machine(random);
    let Frame::Machine { m, .. } = machine else {
        return Some("no machine".into());
    };
    let due = filed(&bytes_of(&machine));
    let (number, line) = reader(u64::from(m), &list);
    let same = number == 0 && line == due;
    (!same).then(|| format!("{}{}reply {number}, {}", shown(&list), shown(&due), shown(&line)))
}

/// Looks for an import that tells a wrong reader from the product; returns its shrunk form.
fn find(astray: Astray, seed: u64) -> Option<Import> {
    for index in 0..2_000 {
        for family in &FAMILIES {
            let import = family.import(seed, index);
            if difference(&import, Some(astray), &mut Facts::new()).is_some() {
                return Some(shrunk(&import, 2_000, Some(astray)));
            }
        }
    }
    None
}

/// Each wrong reader must be found.
pub fn wrong_readers(seed: u64, tally: &mut Tally) {
    let (mut readers, mut small) = (0, 0);
    for &(astray, _, name) in ALL.iter().filter(|(_, due, _)| *due == Due::Import) {
        let found = find(astray, seed);
        tally.check(&format!("a wrong reader is found: {name}"), found.is_some());
        readers += 1;
        match found {
            Some(import) => {
                small += usize::from(import.list.len() <= SMALL_LIST);
                println!("{name}: import {} bytes", import.list.len());
            }
            None => println!("{name}: not found"),
        }
    }
    // Some need 32 or 33 numbers, or a number of many digits.
    tally.check("wrong readers show on small lists", small * 2 > readers);
    for astray in FOUND_BY_MACHINES {
        let mut random = Random::new(seed);
        let reader = |processors: u64, list: &[u8]| of_second(processors, list, Some(astray));
        let found = (0..MACHINES).any(|_| other_machine(&mut random, &reader).is_some());
        tally.check(&format!("the machine of a list finds a wrong reader: {astray:?}"), found);
    }
}

/// A reader under examination: the reply to processors and a list, and the line that it writes.
type Reader<'a> = &'a dyn Fn(u64, &[u8]) -> (u32, Vec<u8>);

/// The reply of the product's import on a page for one line, and the line that it writes.
pub fn of_product(processors: u64, list: &[u8]) -> (u32, Vec<u8>) {
    let mut page = [0; LINE];
    // A copy: a call that writes into its list must not end the run at a constant.
    let lent = list.to_vec();
    let reply = archive::import(processors, &lent, &mut page, 0);
    let written = if reply == 0 { LINE } else { 0 };
    (reply, page[..written].to_vec())
}

/// The same of the second planner's, right or astray.
pub fn of_second(processors: u64, list: &[u8], astray: Option<Astray>) -> (u32, Vec<u8>) {
    match imported(processors, list, astray) {
        Ok(imported) => (0, line(&imported.machine)),
        Err(refusal) => (u32::from(refusal), Vec::new()),
    }
}
