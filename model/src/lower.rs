//! Whether two sheets differ only below chain one, by the words of document 02, P10.

use crate::chain::figures;
use crate::sheet::{Memory, Task};
use crate::Refusal;

#[derive(Clone, Copy, PartialEq, Eq, Debug)]
pub enum Comparison {
    Applies,
    Refused(&'static str, Refusal),
    Edition(&'static str),
    Chain,
    Task(usize, &'static str),
}

/// The task at an index, if the sheet has one there that is not "ranked below the whole chain": below it is a task that every chain task
/// outranks.
fn counting(s: &Memory, i: usize) -> Option<&Task> {
    let task = s.tasks().get(i)?;
    let below = s.chain(1).iter().all(|&c| s.tasks[usize::from(c)].rank > task.rank);
    (!below).then_some(task)
}

/// What stands at an index against "the same period, budget and rank on both".
fn difference(old: &Memory, new: &Memory, i: usize) -> Option<&'static str> {
    let (Some(a), Some(b)) = (old.tasks().get(i), new.tasks().get(i)) else {
        return Some(if i < old.tasks().len() { "old only" } else { "new only" });
    };
    let columns = [(a.period == b.period, "period"), (a.budget == b.budget, "budget"), (a.rank == b.rank, "rank")];
    columns.iter().find(|(same, _)| !same).map(|&(_, name)| name)
}

pub fn compare(old: &Memory, new: &Memory) -> Comparison {
    for (name, s) in [("old", old), ("new", new)] {
        if let Err(refusal) = figures(s, 1, &mut [0; 8_192]) {
            return Comparison::Refused(name, refusal);
        }
    }
    for (name, s) in [("old", old), ("new", new)] {
        if s.edition != 2 {
            return Comparison::Edition(name);
        }
    }
    if old.chain(1) != new.chain(1) {
        return Comparison::Chain;
    }
    let counts = |i: &usize| counting(old, *i).or(counting(new, *i)).is_some();
    let blocked = (0..16).filter(counts).find_map(|i| difference(old, new, i).map(|name| (i, name)));
    blocked.map_or(Comparison::Applies, |(i, name)| Comparison::Task(i, name))
}
