//! Agreement by search over demands: schedules go tick by tick, each with demands chosen for all its jobs, until one begins with the
//! records or none is left.

use crate::log::{Kind::*, Record};
use crate::schedule::{night, Night};
use crate::sheet::Task;

/// The starts and finishes of a night up to a tick, "in tick order, a finish before a start on one tick".
fn events(night: &Night, last: u32) -> Vec<Record> {
    let mut events = Vec::new();
    for (kind, times) in [(Finish, &night.finishes), (Start, &night.starts)] {
        for (task, ticks) in times.iter().enumerate() {
            events.extend(ticks.iter().flatten().filter(|&&tick| tick <= last).map(|&tick| Record { task, kind, tick }));
        }
    }
    events.sort_by_key(|e| (e.tick, e.kind == Start));
    events
}

/// A job's demand as it was chosen: when the job is released, the demand, and the greatest that is allowed.
struct Choice {
    release: u32,
    demand: u32,
    budget: u32,
}

/// The next choices of demands that can begin otherwise up to a tick: jobs released after it do not matter.
fn next(mut choices: Vec<Choice>, until: u32) -> Option<Vec<Choice>> {
    choices.retain(|choice| choice.release <= until);
    loop {
        let last = choices.last_mut()?;
        if last.demand < last.budget {
            last.demand += 1;
            return Some(choices);
        }
        choices.pop();
    }
}

/// Whether some demands of 1 to C give a schedule that begins with the records.
pub fn agree(tasks: &[Task], records: &[Record]) -> bool {
    let Some(last) = records.last().map(|r| r.tick) else {
        return true;
    };
    let mut choices: Vec<Choice> = Vec::new();
    loop {
        let mut asked = 0;
        let night = night(tasks, last + 1, |i, k| {
            if asked == choices.len() {
                choices.push(Choice { release: k * tasks[i].period, demand: 1, budget: tasks[i].budget });
            }
            asked += 1;
            choices[asked - 1].demand
        });
        let events = events(&night, last);
        let Some(r) = (0..records.len()).find(|&r| events.get(r) != Some(&records[r])) else {
            return true;
        };
        // Up to here the records and this schedule are the same; what differs first is one or the other.
        let differs = events.get(r).map_or(records[r].tick, |e| e.tick.min(records[r].tick));
        let Some(others) = next(choices, differs) else {
            return false;
        };
        choices = others;
    }
}

/// How many of the records agree with the sheet, from the first on.
pub fn agreeing(tasks: &[Task], records: &[Record]) -> usize {
    (1..=records.len()).take_while(|&count| agree(tasks, &records[..count])).count()
}
