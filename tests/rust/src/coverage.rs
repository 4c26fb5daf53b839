//! The facts that a full run must have met, each one a check.

use crate::brute::Met;
use crate::brute_slack;
use crate::compare::{Relation, WITHOUT_ROOM, WITH_ROOM};
use crate::facts::{Due, Facts, LENGTHS, MARKS};
use crate::planner::frames::KINDS;
use crate::planner::refusal::{OF_AN_IMPORT, OF_A_LINE, OF_THE_CALL, TWO_AT_ONCE};
use crate::sheets::Side;
use crate::tally::Tally;

fn least(counts: &[u64]) -> u64 {
    counts.iter().min().copied().unwrap_or(0)
}

/// A table of names and counts; an empty count fails.
pub struct Table {
    rows: Vec<(String, u64)>,
}

impl Table {
    pub fn new() -> Self {
        Table { rows: Vec::new() }
    }

    fn add(&mut self, name: String, count: u64) {
        self.rows.push((name, count));
    }

    pub fn of_side(&mut self, side: Side, facts: &Facts) {
        self.marks(side, facts);
        if Due::Every.at(side) {
            self.two_of_06(side.name(), facts);
        }
        match side {
            Side::Host | Side::Desk => self.of_lines(side, facts),
            Side::Library => {
                for number in OF_THE_CALL {
                    self.add(format!("library: refusal {number}"), facts.asked[usize::from(number)]);
                }
                self.add("library: no refusal".into(), facts.asked[0]);
            }
            Side::Turns => {
                for number in OF_A_LINE {
                    let met = facts.admitted_after[usize::from(number)];
                    self.add(format!("turns: a job admitted after refusal {number}"), met);
                }
            }
        }
    }

    fn two_of_06(&mut self, name: &str, facts: &Facts) {
        for (first, later) in TWO_AT_ONCE {
            let met = facts.two_of_06[usize::from(first)][usize::from(later)];
            self.add(format!("{name}: {first} in 06 where {later} holds too"), met);
        }
    }

    fn of_lines(&mut self, side: Side, facts: &Facts) {
        let name = side.name();
        for number in OF_A_LINE {
            self.add(format!("{name}: refusal {number}"), facts.refusals[usize::from(number)]);
        }
        if side == Side::Desk {
            for number in OF_A_LINE {
                self.add(format!("desk: plan after refusal {number}"), facts.plans_after[usize::from(number)]);
                self.add(format!("desk: slack after refusal {number}"), facts.slacks_after[usize::from(number)]);
            }
            self.add("desk: least without slack of k = 1 to 31".into(), least(&facts.exact_at[1..32]));
            self.add("desk: least met of the 256 remainders".into(), least(&facts.remainders));
        } else {
            self.add("host: least met exactly of k = 1 to 31".into(), least(&facts.met_at[1..32]));
            self.add("host: least missed by one of k = 1 to 31".into(), least(&facts.missed_at[1..32]));
        }
        self.wrong_bytes(name, facts);
        let kinds = (0..=255u8).filter(|kind| !KINDS.contains(kind));
        let met: Vec<u64> = kinds.map(|kind| facts.unknown_kinds[usize::from(kind)]).collect();
        self.add(format!("{name}: least met of the {} unknown kinds", met.len()), least(&met));
        for (kind, longest) in [(1, 12), (2, LENGTHS - 1), (3, 12), (4, 12), (5, 12), (6, 12), (7, 12)] {
            let met = least(&facts.lengths[kind][..=longest]);
            self.add(format!("{name}: least met of the lengths 0 to {longest} of kind {kind:02}"), met);
        }
    }

    fn marks(&mut self, side: Side, facts: &Facts) {
        for &(mark, due, text) in MARKS {
            if due.at(side) {
                self.add(format!("{}: {text}", side.name()), facts.count(mark));
            }
        }
    }

    fn wrong_bytes(&mut self, name: &str, facts: &Facts) {
        for byte in [b'/', b':', b'@', b'G', b'`', b'g', b'\r', 0] {
            let met = facts.wrong_digits[0][usize::from(byte)].min(facts.wrong_digits[1][usize::from(byte)]);
            self.add(format!("{name}: wrong digit {byte:02X} as first and second of a byte"), met);
        }
        let wrong = |byte: &u8| !byte.is_ascii_hexdigit() && *byte != b'\n';
        let all: Vec<u8> = (0..=255).filter(wrong).collect();
        let met = |byte: &u8| facts.wrong_digits[0][usize::from(*byte)] + facts.wrong_digits[1][usize::from(*byte)];
        let met: Vec<u64> = all.iter().map(met).collect();
        self.add(format!("{name}: least met of all {} wrong digits", met.len()), least(&met));
    }

    pub fn of_pages(&mut self, name: &str, facts: &Facts) {
        let relations: Vec<Relation> = WITH_ROOM.iter().chain(&WITHOUT_ROOM).copied().collect();
        for relation in relations {
            self.add(format!("{name}: page {relation:?}"), facts.relations[relation as usize]);
        }
    }

    pub fn of_imports(&mut self, facts: &Facts) {
        for &(mark, due, text) in MARKS {
            if due == Due::Import {
                self.add(format!("import: {text}"), facts.count(mark));
            }
        }
        for number in OF_AN_IMPORT {
            self.add(format!("import: refusal {number}"), facts.imported[usize::from(number)]);
        }
        self.add("import: no refusal".into(), facts.imported[0]);
        for (ending, name) in ["nothing", "a blank", "a line feed", "a blank and a line feed"].iter().enumerate() {
            let met: Vec<u64> = facts.list_counts[1..].iter().map(|endings| endings[ending]).collect();
            self.add(format!("import: least met of 1 to 32 numbers that end with {name}"), least(&met));
        }
        let wrong = (0..=255u8).filter(|byte| !byte.is_ascii_digit() && ![b' ', b'\n'].contains(byte));
        let met: Vec<u64> = wrong.map(|byte| facts.list_bytes[usize::from(byte)]).collect();
        self.add(format!("import: least met of the {} bytes that no list has", met.len()), least(&met));
    }

    pub fn of_brute_force(&mut self, met: &Met, slack_met: &brute_slack::Met) {
        self.add("brute: jobs with a plan".into(), met.accepted);
        self.add("brute: no job".into(), met.no_job);
        self.add("brute: jobs without a plan".into(), met.refused);
        self.add("brute: several plans pass".into(), met.several_plans);
        self.add("brute: a cheaper plan fails".into(), met.cheaper_fails);
        self.add("brute: a plan below the top".into(), met.below_top);
        self.add("brute: jobs with an earlier deadline".into(), met.early);
        self.add("brute: jobs whose periods would have another plan".into(), met.other_by_period);
        self.add("brute: jobs without a plan whose periods would have one".into(), met.refused_by_deadline);
        self.add("brute: the slack of a plan".into(), slack_met.planned);
        self.add("brute: the slack with an earlier deadline".into(), slack_met.early);
        self.add("brute: a job short in some test".into(), slack_met.short);
        self.add("brute: a job that leaves no slack in test 1".into(), slack_met.exact);
    }

    /// Prints the table and counts each row.
    pub fn close(&self, tally: &mut Tally) {
        println!("-- met in this run");
        for (name, count) in &self.rows {
            println!("{count:>9}  {name}");
            tally.check(&format!("never met: {name}"), *count > 0);
        }
    }
}
