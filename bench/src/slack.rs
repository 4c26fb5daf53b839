//! The slack of a plan's tests and its frame.

use crate::hexadecimal;
use crate::load::Load;
use crate::machine::Machine;

const TEST_LENGTH: usize = 9;

pub struct Slack {
    processors: usize,
    /// For each test the ticks and the remainder.
    tests: [(i64, u8); 32],
}

impl Slack {
    /// The slack under these levels; the works are sorted, the largest first. A demand is a whole number of ticks, so
    /// that only the supply is divided.
    pub fn of(machine: &Machine, load: &Load, works: &[u32], levels: &[u8; 32]) -> Self {
        let (hyperperiod, top) = (u64::from(load.hyperperiod), u64::from(machine.top()));
        let mut tests = [(0, 0); 32];
        let (mut supply, mut demand) = (0, 0);
        for (place, test) in tests[..machine.processors].iter_mut().enumerate() {
            supply += hyperperiod * u64::from(machine.speed(usize::from(levels[place])));
            demand += works.get(place).map_or(0, |&work| u64::from(work));
            *test = ((supply / top) as i64 - demand as i64, (supply % top) as u8);
        }
        // The last test has the works beyond the m-th too.
        tests[machine.processors - 1].0 -= load.work as i64 - demand as i64;
        Slack { processors: machine.processors, tests }
    }

    /// The length of the frame with its 0A.
    pub fn frame_length(&self) -> usize {
        3 + 2 * TEST_LENGTH * self.processors
    }

    /// Writes frame 83 and its 0A; the page has exactly their length.
    pub fn write(&self, page: &mut [u8]) {
        let mut frame = [0; 1 + 32 * TEST_LENGTH];
        frame[0] = 0x83;
        let (places, _) = frame[1..].as_chunks_mut::<TEST_LENGTH>();
        for (place, (ticks, remainder)) in places.iter_mut().zip(&self.tests) {
            place[..8].copy_from_slice(&ticks.to_be_bytes());
            place[8] = *remainder;
        }
        let end = page.len() - 1;
        hexadecimal::write(&frame[..end / 2], page);
        page[end] = b'\n';
    }
}
