//! The desk: what is written for a sheet.

use crate::frames::{lines, read, Frame};
use crate::hexadecimal;
use crate::plan::Plan;
use crate::refusal::Refusal;
use crate::roster::Roster;
use crate::slack::Slack;
use crate::LONGEST_SHEET;
use std::io::{self, Write};

const REFUSAL_LENGTH: usize = 13;
const BUFFER: usize = 65_536;

/// One buffer for all frames, handed on whenever the next frame has no room in it.
struct Output<W: Write> {
    buffer: Vec<u8>,
    used: usize,
    sink: W,
}

impl<W: Write> Output<W> {
    fn new(sink: W) -> Self {
        Output { buffer: vec![0; BUFFER], used: 0, sink }
    }

    fn room(&mut self, length: usize) -> io::Result<&mut [u8]> {
        if self.buffer.len() - self.used < length {
            self.hand_on()?;
        }
        let start = self.used;
        self.used += length;
        Ok(&mut self.buffer[start..self.used])
    }

    fn hand_on(&mut self) -> io::Result<()> {
        self.sink.write_all(&self.buffer[..self.used])?;
        self.used = 0;
        Ok(())
    }

    fn file_plan(&mut self, plan: &Plan) -> io::Result<()> {
        plan.write(self.room(Plan::frame_length(plan.processors))?);
        Ok(())
    }

    fn file_slack(&mut self, slack: &Slack) -> io::Result<()> {
        slack.write(self.room(slack.frame_length())?);
        Ok(())
    }

    fn file_refusal(&mut self, line: u32, refusal: Refusal) -> io::Result<()> {
        let mut frame = [0x8E, 0, 0, 0, 0, refusal as u8];
        frame[1..5].copy_from_slice(&line.to_be_bytes());
        let room = self.room(REFUSAL_LENGTH)?;
        hexadecimal::write(&frame, room);
        room[REFUSAL_LENGTH - 1] = b'\n';
        Ok(())
    }
}

/// Reads a sheet and writes a frame for each plan or slack wanted and each refused line.
pub fn run(sheet: &[u8], sink: impl Write) -> io::Result<()> {
    let mut output = Output::new(sink);
    if sheet.len() > LONGEST_SHEET {
        output.file_refusal(0, Refusal::Malformed)?;
        return output.hand_on();
    }
    let mut roster = Roster::default();
    for (line, number) in lines(sheet).zip(1..) {
        let done = match read(line) {
            None => Err(Refusal::Malformed),
            Some(Frame::PlanWanted) => roster.plan().map(|plan| output.file_plan(&plan)),
            Some(Frame::SlackWanted) => roster.slack().map(|slack| output.file_slack(&slack)),
            Some(frame) => roster.change(frame).map(Ok),
        };
        match done {
            Ok(written) => written?,
            Err(refusal) => output.file_refusal(number, refusal)?,
        }
    }
    output.hand_on()
}
