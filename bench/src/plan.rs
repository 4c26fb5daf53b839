//! A plan and its frame.

use crate::hexadecimal;

pub struct Plan {
    pub jobs: u8,
    pub hyperperiod: u32,
    pub power: u32,
    pub raises: u16,
    pub processors: usize,
    pub levels: [u8; 32],
}

impl Plan {
    /// The length of a plan's frame with its 0A.
    pub fn frame_length(processors: usize) -> usize {
        25 + 2 * processors
    }

    /// Writes frame 81 and its 0A; the page has exactly their length.
    pub fn write(&self, page: &mut [u8]) {
        let mut frame = [0; 44];
        frame[0] = 0x81;
        frame[1] = self.jobs;
        frame[2..6].copy_from_slice(&self.hyperperiod.to_be_bytes());
        frame[6..10].copy_from_slice(&self.power.to_be_bytes());
        frame[10..12].copy_from_slice(&self.raises.to_be_bytes());
        frame[12..].copy_from_slice(&self.levels);
        hexadecimal::write(&frame[..12 + self.processors], page);
        page[24 + 2 * self.processors] = b'\n';
    }
}
