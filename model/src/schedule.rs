//! The full-budget schedule, tick by tick.

use crate::sheet::{judge, Memory, Task};
use crate::Refusal;
use std::collections::VecDeque;

/// "H is the least common multiple of all periods": the first multiple of the greatest that all divide, if it is not over the limit.
pub fn hyperperiod(tasks: &[Task]) -> Option<u32> {
    let greatest = tasks.iter().map(|t| t.period).max()?;
    (1..).map(|k| k * greatest).take_while(|&h| h <= 1_000_000).find(|h| tasks.iter().all(|t| h % t.period == 0))
}

/// The start and the finish of every job released in some ticks from 0 on, if it has one by then, and how many of them are idle.
pub struct Night {
    pub starts: Vec<Vec<Option<u32>>>,
    pub finishes: Vec<Vec<Option<u32>>>,
    pub idle: u32,
}

/// The schedule from 0 to `ticks` − 1 where job k of task i takes `demand(i, k)` ticks.
pub fn night(tasks: &[Task], ticks: u32, mut demand: impl FnMut(usize, u32) -> u32) -> Night {
    let mut by_rank: Vec<usize> = (0..tasks.len()).collect();
    by_rank.sort_by_key(|&i| std::cmp::Reverse(tasks[i].rank));
    let mut starts: Vec<Vec<Option<u32>>> = tasks.iter().map(|_| Vec::new()).collect();
    let mut finishes = starts.clone();
    let mut pending: Vec<VecDeque<(usize, u32)>> = tasks.iter().map(|_| VecDeque::new()).collect();
    let mut idle = 0;
    for tick in 0..ticks {
        for (i, t) in tasks.iter().enumerate() {
            if tick % t.period == 0 {
                pending[i].push_back((finishes[i].len(), demand(i, tick / t.period)));
                starts[i].push(None);
                finishes[i].push(None);
            }
        }
        match by_rank.iter().find(|&&i| !pending[i].is_empty()) {
            None => idle += 1,
            Some(&i) => {
                let job = pending[i].front_mut().unwrap();
                starts[i][job.0].get_or_insert(tick);
                job.1 -= 1;
                if job.1 == 0 {
                    finishes[i][job.0] = Some(tick + 1);
                    pending[i].pop_front();
                }
            }
        }
    }
    Night { starts, finishes, idle }
}

/// What is worked out of a sheet once it is accepted.
pub struct Worked {
    pub tasks: Vec<Task>,
    pub hyperperiod: u32,
    pub jobs: u32,
    pub idle: u32,
    pub responses: Vec<Vec<u32>>,
}

pub struct Sizes {
    pub tasks: Vec<Task>,
    pub hyperperiod: u32,
    pub jobs: u32,
}

/// The judgements of the fields, 10 and 11.
pub fn sizes(s: &Memory) -> Result<Sizes, Refusal> {
    judge(s)?;
    let tasks = s.tasks().to_vec();
    let hyperperiod = hyperperiod(&tasks).ok_or(10)?;
    let jobs: u32 = tasks.iter().map(|t| hyperperiod / t.period).sum();
    if jobs > 8_192 {
        return Err(11.into());
    }
    Ok(Sizes { tasks, hyperperiod, jobs })
}

/// The judgements 14 and 15 on top of them, and what the table then holds.
pub fn fill(z: Sizes, table: &mut [u32]) -> Result<Worked, Refusal> {
    let Sizes { tasks, hyperperiod, jobs } = z;
    if table.len() < jobs as usize {
        return Err(14.into());
    }
    let night = night(&tasks, hyperperiod, |i, _| tasks[i].budget);
    let on_time = |i: usize| {
        let period = tasks[i].period;
        night.finishes[i].iter().zip(1..).all(|(f, next)| f.map_or(false, |f| f <= next * period))
    };
    if let Some(late) = (0..tasks.len()).filter(|&i| !on_time(i)).max_by_key(|&i| tasks[i].rank) {
        table[..jobs as usize].fill(0);
        return Err(Refusal::with(15, late));
    }
    let responses: Vec<Vec<u32>> = (0..tasks.len())
        .map(|i| night.finishes[i].iter().zip(0..).map(|(f, k)| f.unwrap() - k * tasks[i].period).collect())
        .collect();
    for (place, response) in table.iter_mut().zip(responses.iter().flatten()) {
        *place = *response;
    }
    Ok(Worked { tasks, hyperperiod, jobs, idle: night.idle, responses })
}

pub fn responses(s: &Memory, table: &mut [u32]) -> Result<Worked, Refusal> {
    fill(sizes(s)?, table)
}
