//! The Growing Minimum Frequency method.

use crate::load::Load;
use crate::machine::Machine;

pub struct Grown {
    pub levels: [u8; 32],
    pub raises: u16,
}

/// The least levels that pass every capacity test for works that some plan passes for. The works are sorted on the way.
pub fn grow(machine: &Machine, load: &Load, works: &mut [u32]) -> Grown {
    works.sort_unstable_by(|a, b| b.cmp(a));
    let hyperperiod = u64::from(load.hyperperiod);
    let (top, lowest, step) = (u64::from(machine.top()), u64::from(machine.lowest), u64::from(machine.step));
    let (mut levels, mut raises) = ([0; 32], 0);
    // For each level the number of processors above it, which is where the first of those at that level stands.
    let mut above = [0; 32];
    let (mut demand, mut supply) = (0, 0);
    for joined in 1..=machine.processors {
        supply += hyperperiod * lowest;
        demand = if joined == machine.processors {
            top * load.work
        } else {
            demand + works.get(joined - 1).map_or(0, |&work| top * u64::from(work))
        };
        // The processor that has just joined is at level 0, so the slowest are there. They rise one after the other.
        let mut slowest = 0;
        let mut next = above[slowest];
        while demand > supply {
            levels[next] = slowest as u8 + 1;
            raises += 1;
            supply += hyperperiod * step;
            next += 1;
            if next == joined {
                above[slowest] = next;
                slowest += 1;
                next = above[slowest];
            }
        }
        above[slowest] = next;
    }
    Grown { levels, raises }
}
