//! Growing Minimum Frequency: the planner itself, by its C call. A set goes in as a sheet; the plan comes as frame 81.

use crate::platforms::{Platform, PROCESSORS};
use crate::tasks::{TaskSet, PERIOD};
use crate::{archive, capacity};
use std::fmt::Write;

/// Frame 81 up to its levels: kind, number of jobs, hyperperiod, total power, raises.
const HEAD: usize = 12;
/// Two digits a byte, and 0A.
const PAGE: usize = 2 * (HEAD + PROCESSORS) + 1;

#[derive(Debug, PartialEq)]
pub struct Plan {
    pub levels: Vec<usize>,
    pub power: u64,
    pub raises: u64,
}

/// The plan, or what is wrong with the planner's reply.
pub fn plan(platform: &Platform, tasks: &TaskSet) -> Result<Plan, String> {
    let sheet = sheet_of(platform, tasks);
    let mut page = [b'.'; PAGE];
    let reply = archive::plan_sheet(sheet.as_bytes(), &mut page);
    if reply != 0 {
        return Err(format!("the planner answers {reply} to the sheet\n{sheet}"));
    }
    read(&page, platform, tasks).map_err(|fault| format!("{fault} in the plan of the sheet\n{sheet}"))
}

/// The machine, its power table, and the jobs under the ids 1 to n.
fn sheet_of(platform: &Platform, tasks: &TaskSet) -> String {
    let mut sheet =
        format!("01{PROCESSORS:02X}{:02X}{:04X}{:04X}\n02", platform.levels(), platform.lowest, platform.step);
    let written = "text is written without fail";
    for power in &platform.power {
        write!(sheet, "{power:08X}").expect(written);
    }
    sheet.push('\n');
    for (id, cost) in (1..).zip(&tasks.costs) {
        writeln!(sheet, "03{id:04X}{cost:04X}{PERIOD:04X}").expect(written);
    }
    sheet
}

/// Reads the frame and holds it against the set, the power table and the capacity tests.
fn read(page: &[u8], platform: &Platform, tasks: &TaskSet) -> Result<Plan, String> {
    let frame = bytes_of(page).ok_or("no frame")?;
    let number = |from: usize, to: usize| frame[from..to].iter().fold(0, |high, &byte| high * 256 + u64::from(byte));
    let levels: Vec<usize> = frame[HEAD..].iter().copied().map(usize::from).collect();
    let plan = Plan { power: number(6, 10), raises: number(10, 12), levels };
    let jobs = tasks.costs.len() as u64;
    if (number(0, 1), number(1, 2), number(2, 6)) != (0x81, jobs, PERIOD) {
        return Err("another kind, number of jobs or hyperperiod".to_string());
    }
    let falls = plan.levels.is_sorted_by(|before, after| before >= after);
    if !falls || plan.levels[0] >= platform.levels() {
        return Err("a level that rises or is above the top".to_string());
    }
    if plan.power != platform.total_power(&plan.levels) || plan.raises != plan.levels.iter().sum::<usize>() as u64 {
        return Err("another power or number of raises than that of the levels".to_string());
    }
    let speeds: Vec<u64> = plan.levels.iter().map(|&level| platform.speed(level)).collect();
    if !capacity::passes(&tasks.falling(), &speeds, platform.top()) {
        return Err("a capacity test that fails".to_string());
    }
    Ok(plan)
}

/// The bytes of a page that is one frame and its 0A from end to end.
fn bytes_of(page: &[u8]) -> Option<Vec<u8>> {
    let digits = page.strip_suffix(b"\n")?;
    let value = |digit: u8| char::from(digit).to_digit(16);
    digits.chunks_exact(2).map(|pair| u8::try_from(value(pair[0])? * 16 + value(pair[1])?).ok()).collect()
}
