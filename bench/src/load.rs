//! Jobs and their load: the hyperperiod and the works.

pub const MOST_JOBS: usize = 64;
const LONGEST_HYPERPERIOD: u64 = 1 << 24;

/// A job as the roster has it. Its work is by its deadline; the period is kept, and nothing is worked out from it.
#[derive(Clone, Copy)]
pub struct Job {
    pub id: u16,
    pub cost: u16,
    pub period: u16,
    pub deadline: u16,
}

/// The hyperperiod of some jobs, which is the least common multiple of their deadlines, and the sum of their works.
pub struct Load {
    pub hyperperiod: u32,
    pub work: u64,
}

/// What a deadline that does not divide a hyperperiod makes of it: by what it grows, and how often the deadline goes
/// into the grown one.
struct Growth {
    factor: u32,
    times: u32,
}

// Out of line: a hyperperiod grows 24 times at most, and the compiler, given the choice, shares the last division with
// the path of the deadlines that divide, which have theirs already.
#[cold]
#[inline(never)]
fn growth(hyperperiod: u32, deadline: u32, rest: u32) -> Growth {
    let divisor = greatest_common_divisor(deadline, rest);
    Growth { factor: deadline / divisor, times: hyperperiod / divisor }
}

pub fn greatest_common_divisor(mut a: u32, mut b: u32) -> u32 {
    while b != 0 {
        (a, b) = (b, a % b);
    }
    a
}

impl Load {
    const NONE: Load = Load { hyperperiod: 1, work: 0 };

    /// The load with one job more, or None where the hyperperiod passes its limit. It is at most 2^24, so 32-bit
    /// divisions do, and where the deadline divides it one is enough.
    pub fn with(&self, job: &Job) -> Option<Load> {
        let (deadline, cost) = (u32::from(job.deadline), u64::from(job.cost));
        let (times, rest) = (self.hyperperiod / deadline, self.hyperperiod % deadline);
        if rest == 0 {
            return Some(Load { work: self.work + cost * u64::from(times), ..*self });
        }
        let growth = growth(self.hyperperiod, deadline, rest);
        let factor = u64::from(growth.factor);
        let hyperperiod = u64::from(self.hyperperiod) * factor;
        let within = hyperperiod <= LONGEST_HYPERPERIOD;
        let work = self.work * factor + cost * u64::from(growth.times);
        within.then_some(Load { hyperperiod: hyperperiod as u32, work })
    }

    pub fn of(jobs: &[Job]) -> Option<Load> {
        jobs.iter().try_fold(Load::NONE, |load, job| load.with(job))
    }
}

/// The works of the jobs of a roster, in their order, and the load. No cost on a roster is above its deadline and
/// the hyperperiod is within its limit, so every work is at most 2^24.
pub fn works_of(jobs: &[Job], works: &mut [u32]) -> Load {
    let mut hyperperiod = 1;
    for (place, job) in jobs.iter().enumerate() {
        let (deadline, cost) = (u32::from(job.deadline), u32::from(job.cost));
        let (mut times, rest) = (hyperperiod / deadline, hyperperiod % deadline);
        if rest != 0 {
            let growth = growth(hyperperiod, deadline, rest);
            hyperperiod *= growth.factor;
            works[..place].iter_mut().for_each(|work| *work *= growth.factor);
            times = growth.times;
        }
        works[place] = cost * times;
    }
    let work = works.iter().map(|&work| u64::from(work)).sum();
    Load { hyperperiod, work }
}
