//! The slack of growing's tests (request 2026-01): what a plan leaves over in each of them, or lacks.

use super::astray::Astray;
use super::capacity::{offered, Needs};
use super::machine::Machine;
use crate::facts::{Facts, Mark};

/// Whole ticks at top speed, rounded down, and the remainder, 0 to Q - 1.
#[derive(Clone, Copy, Default)]
pub struct Slack {
    pub ticks: i128,
    pub remainder: i128,
}

/// H x speeds - Q x works for each of tests 1 to m under these levels, divided by Q.
pub fn of_tests(machine: &Machine, needs: &Needs, levels: &[u32], astray: Option<Astray>) -> Vec<Slack> {
    let m = levels.len();
    let left_out = astray.filter(|&way| way == Astray::SlackBeyondLeftOut).map(|_| Astray::BeyondLeftOut);
    let test = |i: usize| {
        let (mut given, mut need) = (offered(machine, &levels[..i], needs.cycle), needs.of_test(i, m, left_out));
        if astray == Some(Astray::SlackNotSummed) {
            given = offered(machine, &levels[i - 1..i], needs.cycle);
            need = needs.sorted.get(i - 1).copied().unwrap_or(0);
        }
        divided(given as i128 - need as i128, divisor(machine, needs.cycle, astray), astray)
    };
    (1..=m).map(test).collect()
}

fn divisor(machine: &Machine, cycle: u128, astray: Option<Astray>) -> i128 {
    match astray {
        Some(Astray::SlackByCycle) => cycle as i128,
        Some(Astray::SlackByLowest) => i128::from(machine.lowest),
        Some(Astray::SlackBy256) => 256,
        Some(Astray::SlackUndivided) => 1,
        _ => i128::from(machine.top()),
    }
}

// A plan that passes is short in no test, and at top speed there is no remainder: so rounding towards zero would show nowhere.
fn divided(left: i128, divisor: i128, astray: Option<Astray>) -> Slack {
    let (ticks, remainder) = (left.div_euclid(divisor), left.rem_euclid(divisor));
    match astray {
        Some(Astray::SlackRoundedUp) if remainder > 0 => Slack { ticks: ticks + 1, remainder },
        Some(Astray::ShortAsZero) => Slack { ticks: ticks.max(0), remainder },
        _ => Slack { ticks, remainder },
    }
}

/// The bytes of frame 83: for each test the ticks in 8 bytes, high byte first, and the remainder in 1.
pub fn frame_bytes(slacks: &[Slack], astray: Option<Astray>) -> Vec<u8> {
    let mut bytes = vec![0x83];
    for slack in slacks {
        let mut ticks = (slack.ticks as i64).to_be_bytes();
        let remainder = match astray {
            Some(Astray::SlackSwapped) => slack.ticks as u8,
            _ => slack.remainder as u8,
        };
        match astray {
            Some(Astray::SlackLowByteFirst) => ticks.reverse(),
            Some(Astray::SlackSwapped) => ticks = (slack.remainder as i64).to_be_bytes(),
            Some(Astray::SlackRemainderInTicks) => ticks[7] = remainder,
            Some(Astray::SlackRemainderFirst) => bytes.push(remainder),
            _ => (),
        }
        bytes.extend(ticks);
        if astray != Some(Astray::SlackRemainderFirst) {
            bytes.push(remainder);
        }
    }
    bytes
}

/// The facts of a frame 83.
pub fn note_filed(machine: &Machine, jobs: usize, needs: &Needs, slacks: &[Slack], facts: &mut Facts) {
    let m = slacks.len();
    let most = i128::from(machine.top()) - 1;
    facts.mark_if(m == 1, Mark::SlackOneProcessor);
    facts.mark_if(m == 32, Mark::SlackMostProcessors);
    facts.mark_if(jobs == 0, Mark::SlackNoJobs);
    facts.mark_if(0 < jobs && jobs + 1 < m, Mark::SlackFewJobs);
    facts.mark_if(jobs > m, Mark::SlackManyJobs);
    facts.mark_if(jobs == 64, Mark::SlackHeld64);
    facts.mark_if(needs.cycle == 16_777_215, Mark::SlackLongestCycle);
    facts.mark_if(needs.early, Mark::SlackEarly);
    for (i, slack) in (1..).zip(slacks) {
        let whole = i == m;
        facts.remainders[slack.remainder as usize] += 1;
        facts.mark_if(slack.ticks >= 1 << 24, Mark::SlackFourBytes);
        facts.mark_if(slack.remainder == 255, Mark::Remainder255);
        facts.mark_if(slack.remainder == most && (1..255).contains(&most), Mark::RemainderMost);
        match (slack.ticks, slack.remainder) {
            (0, 0) => {
                facts.exact_at[i] += u64::from(!whole);
                facts.mark(if whole { Mark::SlackNoneWhole } else { Mark::SlackNone });
                facts.mark_if(needs.early, if whole { Mark::SlackEarlyNoneWhole } else { Mark::SlackEarlyNone });
            }
            (0, remainder) if remainder == most => facts.mark(Mark::SlackTickMissed),
            (1, 0) => facts.mark(Mark::SlackTickMet),
            _ => (),
        }
    }
}
