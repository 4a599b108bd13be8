//! The response of a task as the least fixed point of document 02's rule, with no schedule, and the quick bound from these alone.

use crate::chain::{quick_bound, wait};
use crate::sheet::{judge, numbered, Memory, Task};
use crate::Refusal;

/// "own budget, plus for each outranking task its budget times (the candidate divided by that task's period, the quotient rounded up)"
fn demand(tasks: &[Task], i: usize, candidate: u64) -> u64 {
    let rounded_up = |period: u64| candidate / period + u64::from(candidate % period > 0);
    let outranking = tasks.iter().filter(|t| t.rank > tasks[i].rank);
    u64::from(tasks[i].budget) + outranking.map(|t| u64::from(t.budget) * rounded_up(t.period.into())).sum::<u64>()
}

/// "the least fixed point", found by trying every candidate from the budget on; none where it passes the period.
pub fn response(tasks: &[Task], i: usize) -> Option<u32> {
    (tasks[i].budget..=tasks[i].period).find(|&x| demand(tasks, i, x.into()) == u64::from(x))
}

/// The values that the search meets, which "begins at the budget and stops at the first value that repeats, or once it passes the period".
pub fn climb(tasks: &[Task], i: usize) -> Vec<u64> {
    let mut values = vec![u64::from(tasks[i].budget)];
    loop {
        let last = *values.last().unwrap();
        let next = demand(tasks, i, last);
        if next == last || last > tasks[i].period.into() {
            return values;
        }
        values.push(next);
    }
}

/// R of each task, the quick bound of the sampling figure, and the bound from a flag.
#[derive(Clone, PartialEq, Eq, Debug)]
pub struct Quick {
    pub responses: Vec<u32>,
    pub sampling_bound: u32,
    pub bound: u32,
}

/// "15 names the greatest-ranked task whose value passes its period."
fn responses(tasks: &[Task]) -> Result<Vec<u32>, Refusal> {
    let values: Vec<Option<u32>> = (0..tasks.len()).map(|i| response(tasks, i)).collect();
    let late = (0..tasks.len()).filter(|&i| values[i].is_none()).max_by_key(|&i| tasks[i].rank);
    if let Some(late) = late {
        return Err(Refusal::with(15, late));
    }
    Ok(values.into_iter().flatten().collect())
}

/// "10, 11 and 14 do not occur in this call".
pub fn quick(s: &Memory, number: u8) -> Result<Quick, Refusal> {
    judge(s)?;
    numbered(s, number)?;
    let (tasks, chain) = (s.tasks(), s.chain(number));
    let responses = responses(tasks)?;
    let sampling_bound = quick_bound(tasks, chain, &responses);
    Ok(Quick { sampling_bound, bound: sampling_bound + wait(tasks, chain), responses })
}

/// R of each task, and both bounds of each chain: what is said of every chain that the sheet has.
pub fn quick_suite(s: &Memory) -> Result<(Vec<u32>, Vec<Vec<u32>>), Refusal> {
    let first = quick(s, 1)?;
    let bounds = (1..=s.chain_count()).map(|number| quick(s, number).map(|q| vec![q.sampling_bound, q.bound])).collect::<Result<_, _>>()?;
    Ok((first.responses, bounds))
}
