//! Times of the two sides, taken in turns.

use std::time::{Duration, Instant};

/// Microseconds for one call or one sheet.
#[derive(Clone, Copy)]
pub struct Times {
    pub ours: f64,
    pub theirs: f64,
}

#[derive(Clone, Copy)]
pub struct Effort {
    /// Rounds that count; as many as the time permits within these bounds.
    pub fewest: usize,
    pub most: usize,
    /// Time for all rounds of a case, after which the rounds end.
    pub budget: Duration,
    /// How long a round of one side of a call in process takes at least.
    pub round: Duration,
}

const WARM_UP: usize = 3;

/// The median of some times, of which there is at least one.
pub fn median(times: &mut [f64]) -> f64 {
    times.sort_unstable_by(f64::total_cmp);
    let middle = times.len() / 2;
    if times.len() % 2 == 1 {
        times[middle]
    } else {
        (times[middle - 1] + times[middle]) / 2.0
    }
}

/// The time that a quarter of the runs fall short of. For the start and end of a process it is steadier than the least
/// time, which a lucky run decides, and than the median, which moves where the machine is busy for half of the time.
pub fn lower_quartile(times: &mut [f64]) -> f64 {
    times.sort_unstable_by(f64::total_cmp);
    times[times.len() / 4]
}

/// The times of some runners, taken in turns, after some rounds of warm-up. Every round begins with the next of them:
/// so two swap their order, and of more none comes after itself, when it would find its own traces in the caches.
pub fn in_turns<const N: usize, E>(
    effort: &Effort,
    mut time: impl FnMut(usize) -> Result<f64, E>,
) -> Result<[Vec<f64>; N], E> {
    let mut times = [const { Vec::new() }; N];
    let start = Instant::now();
    for round in 0..WARM_UP + effort.most {
        if round >= WARM_UP + effort.fewest && start.elapsed() > effort.budget {
            break;
        }
        for turn in 0..N {
            let runner = (turn + round) % N;
            let taken = time(runner)?;
            if round >= WARM_UP {
                times[runner].push(taken);
            }
        }
    }
    Ok(times)
}

/// How often a call is repeated so that a round takes its time.
pub fn repetitions(round: Duration, mut call: impl FnMut()) -> u32 {
    let mut repetitions = 1;
    loop {
        let start = Instant::now();
        (0..repetitions).for_each(|_| call());
        let taken = start.elapsed();
        if taken >= round / 2 {
            let scale = round.as_secs_f64() / taken.as_secs_f64();
            return (f64::from(repetitions) * scale).ceil().max(1.0) as u32;
        }
        repetitions *= 2;
    }
}

/// Microseconds for one of several repetitions.
pub fn each(repetitions: u32, mut call: impl FnMut()) -> f64 {
    let start = Instant::now();
    (0..repetitions).for_each(|_| call());
    start.elapsed().as_secs_f64() * 1e6 / f64::from(repetitions)
}
