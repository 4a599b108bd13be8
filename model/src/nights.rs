//! Logs by chance: of schedules with demands by chance, cut anywhere, across the rollover, and with a lie of each kind in them.

use crate::log::{encoded, fields, raw_bits, Fields, Kind::*, Record};
use crate::random::Random;
use crate::replay::first_events;
use crate::sheet::{packed, Task};

/// The most records that a log holds.
pub const MOST: usize = 4_095;

/// The first records of a schedule with demands by chance: all full, all least, at both ends or anywhere between.
pub fn true_records(r: &mut Random, tasks: &[Task], count: usize) -> Vec<Record> {
    let style = r.between(0, 3);
    first_events(tasks, count, |i, _| demand(r, style, tasks[i].budget))
}

fn demand(r: &mut Random, style: u32, budget: u32) -> u32 {
    match style {
        0 => budget,
        1 => 1,
        2 => r.pick(&[1, budget]),
        _ => r.between(1, budget),
    }
}

/// What a log may say that was not so.
#[derive(Clone, Copy, PartialEq, Eq, Debug)]
pub enum Lie {
    EarlyStart,
    LateStart,
    PastBudget,
    PreemptedFinish,
    MissingRecord,
    MissingJob,
    SwappedPair,
    IdleWhilePending,
    OtherTask,
    EarlyFinish,
}

use Lie::*;

pub const LIES: [Lie; 10] =
    [EarlyStart, LateStart, PastBudget, PreemptedFinish, MissingRecord, MissingJob, SwappedPair, IdleWhilePending, OtherTask, EarlyFinish];

/// A place by chance among those that are fit for it.
fn place(r: &mut Random, records: &[Record], fit: impl Fn(usize) -> bool) -> Option<usize> {
    let places: Vec<usize> = (0..records.len()).filter(|&a| fit(a)).collect();
    if places.is_empty() { None } else { Some(r.pick(&places)) }
}

/// The tick of the record before, which is the origin's for the first.
fn tick_before(records: &[Record], a: usize) -> u32 {
    a.checked_sub(1).map_or(0, |b| records[b].tick)
}

/// The task whose job was started last and is not finished before record `a`, and which of the records finishes the job below it.
fn preempted(records: &[Record], a: usize) -> Option<usize> {
    let mut started: Vec<usize> = Vec::new();
    for r in &records[..a] {
        match r.kind {
            Start => started.push(r.task),
            Finish => started.retain(|&task| task != r.task),
        }
    }
    started.len().checked_sub(2).map(|below| started[below])
}

/// Later records all moved by so many ticks.
fn moved(mut records: Vec<Record>, from: usize, by: u32) -> Vec<Record> {
    for r in &mut records[from..] {
        r.tick += by;
    }
    records
}

/// Records of a schedule with one lie of this kind in them, where there is a place for it.
pub fn with_lie(r: &mut Random, tasks: &[Task], records: &[Record], lie: Lie) -> Option<Vec<Record>> {
    let mut lied = records.to_vec();
    let is = |a: usize, kind| records[a].kind == kind;
    match lie {
        EarlyStart => {
            let a = place(r, records, |a| is(a, Start) && records[a].tick > tick_before(records, a))?;
            lied[a].tick -= 1;
        }
        EarlyFinish => {
            let a = place(r, records, |a| is(a, Finish) && records[a].tick > tick_before(records, a))?;
            lied[a].tick -= 1;
        }
        LateStart => {
            let a = place(r, records, |a| is(a, Start) && records.get(a + 1).map_or(true, |next| next.tick > records[a].tick))?;
            lied[a].tick += 1;
        }
        PastBudget => {
            let style = r.between(0, 3);
            let mut more = r.between(0, records.len() as u32 / 2);
            lied = first_events(tasks, records.len(), |i, _| {
                more = more.wrapping_sub(1);
                if more == u32::MAX { tasks[i].budget + 1 } else { demand(r, style, tasks[i].budget) }
            });
        }
        PreemptedFinish => {
            let a = place(r, records, |a| is(a, Finish) && preempted(records, a).is_some())?;
            let (inner, outer) = (records[a].task, preempted(records, a)?);
            lied[a].task = outer;
            if let Some(b) = (a + 1..records.len()).find(|&b| records[b].task == outer) {
                lied[b].task = inner;
            }
        }
        MissingRecord => {
            lied.remove(place(r, records, |_| true)?);
        }
        MissingJob => {
            let a = place(r, records, |a| is(a, Start))?;
            if let Some(b) = (a + 1..records.len()).find(|&b| records[b].task == records[a].task) {
                lied.remove(b);
            }
            lied.remove(a);
        }
        SwappedPair => {
            let a = place(r, records, |a| a > 0 && records[a].tick == records[a - 1].tick)?;
            lied.swap(a - 1, a);
        }
        IdleWhilePending => {
            let a = place(r, records, |a| is(a, Start))?;
            lied = moved(lied, a, 1);
        }
        OtherTask => {
            let a = place(r, records, |_| true)?;
            lied[a].task = r.between(0, tasks.len() as u32 - 1) as usize;
        }
    }
    Some(lied)
}

/// A counter at the origin: anywhere, at both ends, or so that it rolls over within the records.
pub fn origin(r: &mut Random, records: &[Record]) -> u32 {
    let last = records.last().map_or(0, |last| last.tick);
    match r.between(0, 5) {
        0 => 0,
        1 => u32::MAX,
        2 => r.word(),
        _ => 0u32.wrapping_sub(r.between(0, last)),
    }
}

/// A difference, or the time so far, that reaches 2,147,483,648, or is one less or one more.
fn too_long(r: &mut Random, records: Vec<Record>) -> Option<Vec<Record>> {
    let b = place(r, &records, |_| true)?;
    let limit = (1u32 << 31) + r.pick(&[0, 1, 2]) - 1;
    if r.one_in(2) {
        let gap = records[b].tick - tick_before(&records, b);
        return Some(moved(records, b, limit - gap));
    }
    let a = place(r, &records[..b], |_| true)?;
    let halfway = moved(records, a, 1 << 30);
    let by = limit.checked_sub(halfway[b].tick)?;
    Some(moved(halfway, b, by))
}

/// A field of a record set to what is not allowed of it.
fn bad_fields(r: &mut Random, origin: u32, tasks: &[Task], records: &[Record]) -> Option<Vec<u8>> {
    let mut all: Vec<Fields> = records.iter().map(|record| fields(origin, record)).collect();
    let a = place(r, records, |_| true)?;
    match r.between(0, 2) {
        0 => all[a].task = r.pick(&[tasks.len() as u32, 15]) % 16,
        1 => all[a].kind = 1 - all[a].kind,
        _ => all[a].counter = r.any_size(),
    }
    Some(packed(&raw_bits(origin, all.len() as u32, &all)))
}

/// How many records: mostly few, as the model tries many counts of them.
fn count(r: &mut Random) -> usize {
    match r.between(0, 99) {
        0 | 1 => MOST,
        2..=4 => r.between(0, MOST as u32) as usize,
        5..=9 => r.between(0, 2) as usize,
        10..=29 => r.between(0, 300) as usize,
        _ => r.between(0, 60) as usize,
    }
}

/// A log for these tasks: true, with a lie in it, or with a field that is not allowed.
pub fn log(r: &mut Random, tasks: &[Task]) -> Vec<u8> {
    let count = count(r);
    let mut records = true_records(r, tasks, count);
    if r.one_in(3) {
        let lie = r.pick(&LIES);
        records = with_lie(r, tasks, &records, lie).unwrap_or(records);
    }
    if r.one_in(12) {
        records = too_long(r, records.clone()).unwrap_or(records);
    }
    let origin = origin(r, &records);
    if r.one_in(12) {
        if let Some(bytes) = bad_fields(r, origin, tasks, &records) {
            return bytes;
        }
    }
    encoded(origin, &records)
}
