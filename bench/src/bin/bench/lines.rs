//! Malformed lines of each sort, and power tables.

use crate::random::Random;

/// The kinds that are read.
const KINDS: [u32; 7] = [1, 2, 3, 4, 5, 6, 7];

#[derive(Clone, Copy)]
pub enum Sort {
    Empty,
    WrongDigit,
    OddDigits,
    UnknownKind,
    WrongLength,
    Long,
}

impl Sort {
    pub const ALL: [Sort; 6] =
        [Sort::Empty, Sort::WrongDigit, Sort::OddDigits, Sort::UnknownKind, Sort::WrongLength, Sort::Long];

    pub fn name(self) -> &'static str {
        match self {
            Sort::Empty => "empty lines",
            Sort::WrongDigit => "a wrong digit",
            Sort::OddDigits => "an odd number of digits",
            Sort::UnknownKind => "an unknown kind",
            Sort::WrongLength => "a wrong length",
            Sort::Long => "long lines",
        }
    }

    /// A malformed line of this sort, without its 0A.
    pub fn line(self, random: &mut Random) -> String {
        let fours = 4 * random.between(1, 32) as usize;
        let (kind, length) = random.choose(&[(1, 6), (2, fours), (3, 6), (4, 2), (6, 8)]);
        match self {
            Sort::Empty => String::new(),
            Sort::WrongDigit => {
                let mut line = frame(3, 6, random);
                let place = random.index(line.len());
                line.replace_range(place..place + 1, random.choose(&["G", " ", "/", ":", "@", "`", "g", "\r", "\0"]));
                line
            }
            Sort::OddDigits => {
                let mut line = frame(kind, length, random);
                line.pop();
                line
            }
            Sort::UnknownKind => {
                let kind = random.choose(&[0, 8, 9, 0x10, 0x13, 0x16, 0x43, 0x81, 0x8E, 0xFF]);
                frame(kind, random.index(9), random)
            }
            // Never right for any kind: 01 and 03 have 6 bytes, 02 fours, 04 two, 06 eight, 05 and 07 none.
            Sort::WrongLength => frame(random.choose(&KINDS), random.choose(&[1, 3, 5, 7, 9, 11]), random),
            Sort::Long => frame(random.choose(&KINDS), random.between(129, 1000) as usize, random),
        }
    }
}

/// A kind and so many random bytes after it, in either letter case.
pub fn frame(kind: u32, length: usize, random: &mut Random) -> String {
    let lower = random.one_in(2);
    let mut line = format!("{kind:02X}");
    for _ in 0..length {
        let byte = random.between(0, 255);
        line.push_str(&if lower { format!("{byte:02x}") } else { format!("{byte:02X}") });
    }
    line
}

/// A table that never falls and whose rises never shrink; half of them are equal to the one before.
pub fn convex_table(levels: usize, random: &mut Random) -> Vec<u32> {
    let (mut value, mut rise) = (random.between(0, 1000), 0);
    (0..levels)
        .map(|_| {
            let now = value;
            rise += random.between(0, 1000) * random.between(0, 1);
            value += rise;
            now
        })
        .collect()
}

/// A table that is refused: of another length, with a value too large, a fall, or a shrinking rise.
pub fn refused_table(levels: usize, random: &mut Random) -> Vec<u32> {
    let mut table = convex_table(levels, random);
    match random.between(1, 4) {
        1 => table[levels - 1] = random.between((1 << 24) + 1, u32::MAX),
        2 if levels > 1 => table[random.index(levels - 1)] = 1 << 24,
        3 if levels > 2 => {
            let place = random.between(1, levels as u32 - 2) as usize;
            table[place] = (table[place - 1] + table[place + 1]) / 2 + 1;
        }
        _ if levels == 32 => table.truncate(random.between(1, 31) as usize),
        _ => table.push(1 << 24),
    }
    table
}
