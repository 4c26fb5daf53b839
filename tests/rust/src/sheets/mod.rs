//! The makers of sheets, one per family. The host's call ends at its first refused line, so most sheets for it are wholly valid
//! or refused late; sheets for the desk program, for the library call and for the order of the jobs have refused lines between.

pub mod cycles;
pub mod damage;
pub mod deadlines;
pub mod draft;
pub mod exact;
pub mod lengths;
pub mod lives;
pub mod machines;
pub mod offers;
pub mod refused;
pub mod slacks;
pub mod tables;
pub mod ties;

use crate::random::Random;
use draft::Draft;

#[derive(Clone, Copy, PartialEq, Eq)]
pub enum Side {
    Host,
    Desk,
    Library,
    /// The order in which the jobs held are taken.
    Turns,
}

impl Side {
    pub const ALL: [Side; 4] = [Side::Host, Side::Desk, Side::Library, Side::Turns];

    pub fn name(self) -> &'static str {
        match self {
            Side::Host => "host",
            Side::Desk => "desk",
            Side::Library => "library",
            Side::Turns => "turns",
        }
    }
}

pub struct Family {
    pub letter: char,
    pub name: &'static str,
    counts: [usize; 4],
    make: fn(&mut Draft),
}

impl Family {
    pub fn sheet(&self, seed: u64, side: Side, index: usize) -> Vec<u8> {
        let mut draft = Draft::new(Random::for_sheet(seed, self.number(side), index), side, index);
        (self.make)(&mut draft);
        draft.into_sheet()
    }

    /// Goes into the seed of a sheet. No two families of a side share one, nor two sides of a family.
    fn number(&self, side: Side) -> usize {
        let letter = self.letter as usize;
        match side {
            Side::Host | Side::Desk | Side::Library => letter * 3 + side as usize,
            // Above all the others.
            Side::Turns => 1_000 + letter,
        }
    }

    pub fn count(&self, side: Side) -> usize {
        self.counts[side as usize]
    }
}

const fn family(letter: char, name: &'static str, counts: [usize; 4], make: fn(&mut Draft)) -> Family {
    Family { letter, name, counts, make }
}

/// The numbers of sheets for the host, the desk, the library call and the order of the jobs are divided evenly among the seeds.
/// The letters m to u are those of the lists.
pub const FAMILIES: [Family; 21] = [
    family('a', "lives that reach 64 jobs, retire and readmit", [7_000, 1_200, 120, 100], lives::lives),
    family('b', "tests met exactly and missed by one", [26_000, 1_400, 120, 60], exact::exact),
    family('c', "equal works", [10_000, 800, 80, 200], exact::equal_works),
    family('d', "machines at the ends of their ranges", [12_000, 1_200, 80, 40], machines::machines),
    family('e', "hyperperiods near the limit", [12_000, 1_200, 120, 100], cycles::cycles),
    family('f', "tables at every edge", [12_000, 1_200, 40, 0], tables::tables),
    family('g', "damaged lines", [22_000, 2_100, 200, 60], damage::damage),
    family('h', "sheets of the longest length", [400, 60, 0, 0], lengths::lengths),
    family('i', "small machines", [12_000, 1_000, 80, 80], lives::small),
    family('j', "free mixtures", [12_000, 1_400, 160, 120], lives::mixtures),
    family('k', "slack wanted while jobs come and go", [4_000, 1_200, 0, 0], slacks::slacks),
    family('l', "many jobs offered, of which many don't fit", [0, 0, 2_400, 120], offers::offers),
    family('v', "ties of two jobs and more", [0, 0, 0, 800], ties::ties),
    family('w', "all works equal", [0, 0, 0, 240], ties::all_equal),
    family('x', "all works different", [0, 0, 0, 240], ties::all_different),
    family('y', "works that hardly differ", [0, 0, 0, 320], ties::neighbours),
    family('z', "no machine, no job or one", [0, 0, 0, 120], ties::few),
    family('A', "deadlines at the ends of their range", [6_000, 400, 120, 60], deadlines::ends),
    family('B', "cycles by deadlines, not by periods", [4_000, 300, 80, 60], deadlines::cycles),
    family('C', "two refusals of a deadline at once", [3_000, 220, 80, 0], deadlines::refusals),
    family('D', "works by deadlines, not by periods", [3_000, 200, 60, 120], deadlines::parted),
];
