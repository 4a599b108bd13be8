//! The clock's log of starts and finishes: its bits as text, read and judged field by field.

use crate::sheet::{bits_of, packed, Cursor};
use crate::Refusal;

/// "a difference, or the time so far, of 2,147,483,648 or more" is refused.
pub const TOO_LONG: u64 = 2_147_483_648;

/// The values of the counter.
const COUNTERS: u64 = 4_294_967_296;

/// "a kind (1; zero is a start)"
#[derive(Clone, Copy, PartialEq, Eq, Debug)]
pub enum Kind {
    Start,
    Finish,
}

use Kind::*;

/// What the clock saw, so many ticks after the origin.
#[derive(Clone, Copy, PartialEq, Eq, Debug)]
pub struct Record {
    pub task: usize,
    pub kind: Kind,
    pub tick: u32,
}

/// The fields of a record as they stand in a log, allowed or not.
#[derive(Clone, Copy, PartialEq, Eq, Debug)]
pub struct Fields {
    pub task: u32,
    pub kind: u32,
    pub counter: u32,
}

/// The fields of a record, where the counter stood at the origin: it "rolls over past its top value and carries on from zero".
pub fn fields(origin: u32, r: &Record) -> Fields {
    let counter = (u64::from(origin) + u64::from(r.tick)) % COUNTERS;
    Fields { task: r.task as u32, kind: r.kind as u32, counter: counter as u32 }
}

/// The bits of fields that need not be allowed, and the count that is to stand there: "a 32-bit origin counter at some multiple of H, a
/// record count of 12 bits, then per record a task index (4), a kind (1; zero is a start) and a counter (32)".
pub fn raw_bits(origin: u32, count: u32, records: &[Fields]) -> String {
    let mut text = bits_of(origin, 32) + &bits_of(count, 12);
    for r in records {
        text += &bits_of(r.task, 4);
        text += &bits_of(r.kind, 1);
        text += &bits_of(r.counter, 32);
    }
    text
}

/// The bytes of a log, "then zero padding".
pub fn encoded(origin: u32, records: &[Record]) -> Vec<u8> {
    let records: Vec<Fields> = records.iter().map(|r| fields(origin, r)).collect();
    packed(&raw_bits(origin, records.len() as u32, &records))
}

/// The records of a log for a sheet of so many tasks, or the first refusal: "front to back".
pub fn read(bytes: &[u8], tasks: usize) -> Result<Vec<Record>, Refusal> {
    let mut c = Cursor::new(bytes);
    let mut before = c.field(32)?;
    let count = c.field(12)?;
    let mut tick = 0;
    let mut under_way = vec![false; tasks];
    let mut records = Vec::new();
    for _ in 0..count {
        let task = c.field(4)? as usize;
        c.refuse_if(task >= tasks, 19)?;
        let kind = if c.field(1)? == 0 { Start } else { Finish };
        c.refuse_if(under_way[task] == (kind == Start), 20)?;
        let counter = c.field(32)?;
        let difference = (COUNTERS + u64::from(counter) - u64::from(before)) % COUNTERS;
        tick += difference;
        c.refuse_if(difference >= TOO_LONG || tick >= TOO_LONG, 21)?;
        under_way[task] = kind == Start;
        before = counter;
        records.push(Record { task, kind, tick: tick as u32 });
    }
    c.end()?;
    Ok(records)
}
