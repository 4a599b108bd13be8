//! Does a log agree with its sheet, and which paths does it hold? What each finished job took is read off the records; if they agree with
//! any schedule, then with the one in which these jobs take that and all others their budget.

use crate::chain::figures;
use crate::experiment::written_at;
use crate::log::{read, Kind::*, Record};
use crate::schedule::{sizes, Night};
use crate::sheet::{Memory, Task};
use crate::Refusal;

/// The first starts and finishes, so many, of the schedule in which job k of task i takes `demand(i, k)` ticks, "in tick order, a finish before
/// a start on one tick". It goes from event to event.
pub fn first_events(tasks: &[Task], count: usize, mut demand: impl FnMut(usize, usize) -> u32) -> Vec<Record> {
    let mut events = Vec::new();
    let mut now = 0u64;
    // Of each task the first job that is not finished, and what is left of it once it has started.
    let mut job = vec![0; tasks.len()];
    let mut left: Vec<Option<u64>> = vec![None; tasks.len()];
    while events.len() < count {
        let release = |i: usize| job[i] as u64 * u64::from(tasks[i].period);
        let pending = (0..tasks.len()).filter(|&i| release(i) <= now).max_by_key(|&i| tasks[i].rank);
        let Some(i) = pending else {
            now = (0..tasks.len()).map(release).min().expect("a sheet has a task");
            continue;
        };
        if left[i].is_none() {
            left[i] = Some(demand(i, job[i]).into());
            events.push(Record { task: i, kind: Start, tick: now as u32 });
        }
        let outranking = (0..tasks.len()).filter(|&j| tasks[j].rank > tasks[i].rank);
        let until = outranking.map(release).chain([now + left[i].unwrap()]).min().unwrap();
        left[i] = Some(left[i].unwrap() - (until - now));
        now = until;
        if left[i] == Some(0) {
            events.push(Record { task: i, kind: Finish, tick: now as u32 });
            left[i] = None;
            job[i] += 1;
        }
    }
    events.truncate(count);
    events
}

/// What each finished job of each task took, if it can have been: between its start and its finish it ran whenever no job did that started
/// meanwhile, and every such job was finished before it.
fn taken(tasks: &[Task], records: &[Record]) -> Option<Vec<Vec<u32>>> {
    let mut taken = vec![Vec::new(); tasks.len()];
    // The jobs that are started and not finished, each with its start and the ticks that others had since.
    let mut started: Vec<(usize, u32, u32)> = Vec::new();
    for r in records {
        if r.kind == Start {
            started.push((r.task, r.tick, 0));
            continue;
        }
        let (_, start, others) = started.pop().filter(|&(task, _, _)| task == r.task)?;
        let own = r.tick - start - others;
        if own == 0 || own > tasks[r.task].budget {
            return None;
        }
        taken[r.task].push(own);
        if let Some(outer) = started.last_mut() {
            outer.2 += r.tick - start;
        }
    }
    Some(taken)
}

/// "Records agree with the sheet when they are the first starts and finishes .. of some schedule in which each job's demand is 1 to C."
pub fn agree(tasks: &[Task], records: &[Record]) -> bool {
    let Some(taken) = taken(tasks, records) else {
        return false;
    };
    let demand = |i: usize, k: usize| taken[i].get(k).copied().unwrap_or(tasks[i].budget);
    first_events(tasks, records.len(), demand) == records
}

/// How many of the records agree with the sheet, from the first on: where all of some do, all of fewer do.
pub fn agreeing(tasks: &[Task], records: &[Record]) -> usize {
    let counts: Vec<usize> = (1..=records.len()).collect();
    counts.partition_point(|&count| agree(tasks, &records[..count]))
}

/// "Job k of a task is its kth start, counted from 0, and the finish after it."
fn jobs(tasks: &[Task], records: &[Record]) -> Night {
    let mut starts: Vec<Vec<Option<u32>>> = vec![Vec::new(); tasks.len()];
    let mut finishes = starts.clone();
    for r in records {
        match r.kind {
            Start => {
                starts[r.task].push(Some(r.tick));
                finishes[r.task].push(None);
            }
            Finish => *finishes[r.task].last_mut().unwrap() = Some(r.tick),
        }
    }
    Night { starts, finishes, idle: 0 }
}

/// What a log holds.
#[derive(Clone, PartialEq, Eq, Debug)]
pub struct Replay {
    pub records: u32,
    pub paths: u32,
    /// "the longest delay from release with its smallest job number, or none"
    pub longest: Option<(u32, u32)>,
    pub breaking: Option<u32>,
    /// The sampling figure of chain one, and its release.
    pub figure: (u32, u32),
}

/// The delay from release of each job "whose path is completed in the log", with the job's number.
pub fn delays(tasks: &[Task], chain: &[u8], records: &[Record]) -> Vec<(u32, u32)> {
    let night = jobs(tasks, records);
    let first = chain[0] as usize;
    let of_job = |job: usize| Some((written_at(&night, chain, job)? - job as u32 * tasks[first].period, job as u32));
    (0..night.starts[first].len()).filter_map(of_job).collect()
}

/// The sheet's "2 to 14", then the log's refusals, then 15; "lent memory untouched" but by the last.
pub fn replay(s: &Memory, log: &[u8], table: &mut [u32]) -> Result<Replay, Refusal> {
    let z = sizes(s)?;
    if table.len() < z.jobs as usize {
        return Err(14.into());
    }
    let records = read(log, z.tasks.len())?;
    let (_, f) = figures(s, 1, table)?;
    let agreeing = agreeing(&z.tasks, &records);
    let delays = delays(&z.tasks, s.chain(1), &records[..agreeing]);
    let longest = delays.iter().map(|d| d.0).max();
    Ok(Replay {
        records: records.len() as u32,
        paths: delays.len() as u32,
        longest: longest.and_then(|longest| delays.iter().copied().find(|d| d.0 == longest)),
        breaking: Some(agreeing as u32).filter(|&r| r < records.len() as u32),
        figure: (f.sampling, f.release),
    })
}
