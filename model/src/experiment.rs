//! Demand 3 by experiment: schedules with demands by chance, every reading of the first hyperperiod followed through them, and a change
//! flag raised at every tick.

use crate::random::Random;
use crate::schedule::{night, sizes, Night};
use crate::sheet::{Memory, Task};

/// What is claimed of a chain of a sheet: from the release of a job the sampling figure and its bound, from a flag the worst and its bound.
#[derive(Clone, Copy, Debug)]
pub struct Claim {
    pub sampling: u32,
    pub release: u32,
    pub sampling_bound: u32,
    pub worst: u32,
    pub bound: u32,
}

/// How many readings were followed, how many of them took as long as the sampling figure, and in how many schedules one of them had to,
/// since ranks rise along the chain; how many flags were raised, and how many of them took as long as the worst.
#[derive(Default)]
pub struct Followed {
    pub paths: u64,
    pub reached: u64,
    pub rising: u64,
    pub flags: u64,
    pub latest: u64,
}

impl Followed {
    pub fn add(&mut self, more: &Followed) {
        self.paths += more.paths;
        self.reached += more.reached;
        self.rising += more.rising;
        self.flags += more.flags;
        self.latest += more.latest;
    }
}

/// What each job takes, between one tick and its budget.
#[derive(Clone, Copy, PartialEq, Debug)]
enum Demands {
    Full,
    Least,
    Any,
    Extremes,
}

impl Demands {
    fn of_job(self, budget: u32, random: &mut Random) -> u32 {
        match self {
            Demands::Full => budget,
            Demands::Least => 1,
            Demands::Any => random.between(1, budget),
            Demands::Extremes => random.pick(&[1, budget]),
        }
    }
}

/// The first job of a task that starts at or after a tick. Jobs of one task start in release order.
pub fn first_from(night: &Night, task: u8, tick: u32) -> usize {
    night.starts[task as usize].partition_point(|start| start.map_or(false, |start| start < tick))
}

/// When the reading of a job of the chain's first task is written by the last task, if it is within the night: a job reads at its
/// start and writes at its finish, and a read at a tick has what was written at or before it.
pub fn written_at(night: &Night, chain: &[u8], job: usize) -> Option<u32> {
    let finish = |task: u8, job: usize| *night.finishes[task as usize].get(job)?;
    chain[1..].iter().try_fold(finish(chain[0], job)?, |written, &task| finish(task, first_from(night, task, written)))
}

/// A schedule, and when the path from each job of the chain's first task ends.
struct Drawn {
    night: Night,
    ends: Vec<Option<u32>>,
}

fn drawn(tasks: &[Task], chain: &[u8], ticks: u32, demands: Demands, random: &mut Random) -> Drawn {
    let night = night(tasks, ticks, |i, _| demands.of_job(tasks[i].budget, random));
    let jobs = night.starts[chain[0] as usize].len();
    let ends = (0..jobs).map(|job| written_at(&night, chain, job)).collect();
    Drawn { night, ends }
}

/// Follows the readings that are released every period in so many ticks: none takes longer than is claimed. Answers the releases of all,
/// and of those that take as long.
fn follow(d: &Drawn, period: u32, ticks: u32, longest: u32) -> Result<(Vec<u32>, Vec<u32>), String> {
    let releases: Vec<u32> = (0..ticks).step_by(period as usize).collect();
    let mut reached = Vec::new();
    for (job, &release) in releases.iter().enumerate() {
        let latest = release + longest;
        if d.ends[job].map_or(true, |end| end > latest) {
            return Err(format!("the reading released at {release} is not there at {latest}"));
        }
        if d.ends[job] == Some(latest) {
            reached.push(release);
        }
    }
    Ok((releases, reached))
}

/// Raises a flag at each of so many ticks, each by itself. "A change flag raised at tick e is taken by the first job of the first task that
/// starts at or after e", and none is stamped later than is claimed. Answers how many are stamped as late.
fn raise(d: &Drawn, first: u8, ticks: u32, longest: u32) -> Result<u64, String> {
    let mut as_late = 0;
    for raised in 0..ticks {
        let latest = raised + longest;
        let end = d.ends.get(first_from(&d.night, first, raised)).copied().flatten();
        if end.map_or(true, |end| end > latest) {
            return Err(format!("the flag raised at {raised} is not stamped at {latest}"));
        }
        as_late += u64::from(end == Some(latest));
    }
    Ok(as_late)
}

/// Where ranks rise along the chain, the reading released where the claim says takes exactly as long as the sampling figure with full
/// budgets.
fn try_demands(s: &Memory, chain: &[u8], claim: Claim, demands: Demands, random: &mut Random) -> Result<Followed, String> {
    let z = sizes(s).map_err(|r| r.to_string())?;
    let d = drawn(&z.tasks, chain, 2 * z.hyperperiod + claim.worst, demands, random);
    let (releases, reached) = follow(&d, z.tasks[chain[0] as usize].period, z.hyperperiod, claim.sampling)?;
    let rising = chain.windows(2).all(|pair| z.tasks[pair[0] as usize].rank < z.tasks[pair[1] as usize].rank);
    let exact = rising && demands == Demands::Full;
    if exact && !reached.contains(&claim.release) {
        return Err(format!("ranks rise, and the reading released at {} takes less than {}", claim.release, claim.sampling));
    }
    Ok(Followed {
        paths: releases.len() as u64,
        reached: reached.len() as u64,
        rising: exact.into(),
        flags: z.hyperperiod.into(),
        latest: raise(&d, chain[0], z.hyperperiod, claim.worst)?,
    })
}

const EACH: [Demands; 5] = [Demands::Full, Demands::Least, Demands::Any, Demands::Any, Demands::Extremes];

/// Holds a claim on a chain of an accepted sheet to schedules with full budgets, with one tick each, and with demands by chance.
pub fn experiment(s: &Memory, number: u8, claim: Claim, random: &mut Random) -> Result<Followed, String> {
    for (name, figure, bound) in [("sampling figure", claim.sampling, claim.sampling_bound), ("worst", claim.worst, claim.bound)] {
        if figure > bound {
            return Err(format!("the {name} {figure} is above its bound {bound}"));
        }
    }
    let mut sum = Followed::default();
    for demands in EACH {
        sum.add(&try_demands(s, s.chain(number), claim, demands, random).map_err(|trouble| format!("{demands:?} demands: {trouble}"))?);
    }
    Ok(sum)
}

/// Holds the bounds that are claimed of a chain on a sheet of any hyperperiod, from a release and from a flag, to the first ticks of such
/// schedules.
pub fn experiment_with_bounds(s: &Memory, number: u8, sampling_bound: u32, bound: u32, random: &mut Random) -> Result<Followed, String> {
    let (tasks, chain) = (s.tasks(), s.chain(number));
    let ticks = 3 * tasks.iter().map(|t| t.period).max().unwrap();
    let mut sum = Followed::default();
    for demands in EACH {
        let d = drawn(tasks, chain, ticks + bound, demands, random);
        let trouble = |trouble| format!("{demands:?} demands: {trouble}");
        let (releases, reached) = follow(&d, tasks[chain[0] as usize].period, ticks, sampling_bound).map_err(trouble)?;
        let latest = raise(&d, chain[0], ticks, bound).map_err(trouble)?;
        let (paths, reached) = (releases.len() as u64, reached.len() as u64);
        sum.add(&Followed { paths, reached, rising: 0, flags: ticks.into(), latest });
    }
    Ok(sum)
}
