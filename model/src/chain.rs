//! A chain of a sheet: delay, sampling figure, its quick bound, worst, bound and margin, by the words of documents 01 and 02. Document 01 counts
//! from the release of the first task's job and calls its figure the worst; document 02 counts from the flag and calls that figure the
//! sampling figure.

use crate::schedule::{fill, sizes, Sizes, Worked};
use crate::sheet::{judge, numbered, Memory, Task, OLD_LIMIT};
use crate::Refusal;

/// "The margin call without a limit should use 500 ticks."
const DEFAULT_LIMIT: u32 = 500;

/// The least multiple of `step` that is at least `x`.
fn multiple_from(step: u32, x: u32) -> u32 {
    (0..).map(|k| k * step).find(|&m| m >= x).unwrap()
}

fn common_divisor(a: u32, b: u32) -> u32 {
    (1..=a.min(b)).rev().find(|d| a % d == 0 && b % d == 0).unwrap()
}

/// The quick bound of the sampling figure, from periods, ranks and R of each task alone.
pub fn quick_bound(tasks: &[Task], chain: &[u8], responses: &[u32]) -> u32 {
    let mut sum = responses[chain[chain.len() - 1] as usize];
    for pair in chain.windows(2) {
        let (p, c) = (tasks[pair[0] as usize], tasks[pair[1] as usize]);
        let g = common_divisor(p.period, c.period);
        sum += c.period - g;
        if c.rank > p.rank {
            sum += multiple_from(g, responses[pair[0] as usize]);
        }
    }
    sum
}

/// The longest that a flag waits until the first task is released, found by raising one at every tick of a period.
pub fn wait(tasks: &[Task], chain: &[u8]) -> u32 {
    let period = tasks[chain[0] as usize].period;
    (0..period).map(|raised| multiple_from(period, raised) - raised).max().unwrap()
}

/// What is said of a chain: from the release of a job the sampling figure and its bound, from a flag the worst, its bound and the margin.
pub struct Figures {
    pub sampling: u32,
    pub release: u32,
    pub sampling_bound: u32,
    pub worst: u32,
    pub bound: u32,
    pub margin: i64,
}

impl Worked {
    /// "A job released at or after H has the response of the job released at its release modulo H."
    fn response(&self, task: u8, release: u32) -> u32 {
        let i = task as usize;
        self.responses[i][(release % self.hyperperiod / self.tasks[i].period) as usize]
    }

    fn next_release(&self, p: u8, c: u8, release: u32) -> u32 {
        let (producer, consumer) = (self.tasks[p as usize], self.tasks[c as usize]);
        let ready = if consumer.rank > producer.rank { release + self.response(p, release) } else { release };
        let first = ready - ready % consumer.period;
        first + multiple_from(consumer.period, ready - first)
    }

    pub fn delay(&self, chain: &[u8], release: u32) -> u32 {
        match chain {
            [last] => self.response(*last, release),
            [p, c, ..] => {
                let next = self.next_release(*p, *c, release);
                next - release + self.delay(&chain[1..], next)
            }
            [] => unreachable!("a chain has a task"),
        }
    }

    /// The sampling figure, which is the greatest delay, and the smallest release that gives it.
    pub fn sampling(&self, chain: &[u8]) -> (u32, u32) {
        let period = self.tasks[chain[0] as usize].period;
        let releases = (0..self.hyperperiod).step_by(period as usize);
        let delays: Vec<(u32, u32)> = releases.map(|r| (self.delay(chain, r), r)).collect();
        let greatest = delays.iter().map(|d| d.0).max().unwrap();
        *delays.iter().find(|d| d.0 == greatest).unwrap()
    }

    /// R of each task.
    pub fn greatest_responses(&self) -> Vec<u32> {
        self.responses.iter().map(|row| *row.iter().max().unwrap()).collect()
    }

    pub fn sampling_bound(&self, chain: &[u8]) -> u32 {
        quick_bound(&self.tasks, chain, &self.greatest_responses())
    }

    /// "The report's worst and bound now add T − 1 of the first task; every margin now uses that worst."
    pub fn figures(&self, chain: &[u8], limit: u32) -> Figures {
        let (sampling, release) = self.sampling(chain);
        let sampling_bound = self.sampling_bound(chain);
        let wait = wait(&self.tasks, chain);
        let (worst, bound) = (sampling + wait, sampling_bound + wait);
        Figures { sampling, release, sampling_bound, worst, bound, margin: i64::from(limit) - i64::from(worst) }
    }
}

/// What is worked out of a sheet and the entries of one of its chains, up to 11: "17 for a chain number the sheet lacks, before 10".
fn asked(s: &Memory, number: u8) -> Result<(Sizes, &[u8]), Refusal> {
    judge(s)?;
    numbered(s, number)?;
    Ok((sizes(s)?, s.chain(number)))
}

pub fn delay(s: &Memory, number: u8, release: u32, table: &mut [u32]) -> Result<u32, Refusal> {
    let (z, chain) = asked(s, number)?;
    if release % z.tasks[chain[0] as usize].period != 0 || release >= z.hyperperiod {
        return Err(12.into());
    }
    Ok(fill(z, table)?.delay(chain, release))
}

pub fn margin(s: &Memory, number: u8, limit: u32, table: &mut [u32]) -> Result<i64, Refusal> {
    let (z, chain) = asked(s, number)?;
    if limit > 4_000_000 {
        return Err(13.into());
    }
    Ok(fill(z, table)?.figures(chain, limit).margin)
}

pub fn default_margin(s: &Memory, number: u8, table: &mut [u32]) -> Result<i64, Refusal> {
    margin(s, number, DEFAULT_LIMIT, table)
}

/// "the report prints the chain lines once per chain, with the margin under its limit"; "The report on an old sheet" passes 1,000.
fn report_limit(s: &Memory, number: u8) -> u32 {
    if s.edition == 1 { OLD_LIMIT } else { s.chains[usize::from(number) - 1].limit }
}

pub fn figures(s: &Memory, number: u8, table: &mut [u32]) -> Result<(Worked, Figures), Refusal> {
    let (z, chain) = asked(s, number)?;
    let worked = fill(z, table)?;
    let figures = worked.figures(chain, report_limit(s, number));
    Ok((worked, figures))
}

/// The figures of every chain, from the first on.
pub fn suite(s: &Memory, table: &mut [u32]) -> Result<(Worked, Vec<Figures>), Refusal> {
    let worked = fill(sizes(s)?, table)?;
    let figures = (1..=s.chain_count()).map(|number| worked.figures(s.chain(number), report_limit(s, number))).collect();
    Ok((worked, figures))
}
