//! The tell-tale of document 02, P13, by its history: what the record must say is worked out from the calls that were made, and not from
//! the record before.

use crate::random::Random;
use crate::Refusal;

/// A call at a counter.
#[derive(Clone, Copy, PartialEq, Eq, Debug)]
pub enum Call {
    Begin(u32),
    Stamp(u32),
}

#[derive(Clone, Copy, PartialEq, Eq, Debug, Default)]
pub struct Record {
    pub underway: bool,
    pub counter: u32,
    pub longest: u32,
    pub count: u16,
}

/// The begins since the last accepted stamp, and the elapsed time of every accepted stamp.
#[derive(Default)]
pub struct History {
    begun: Vec<u32>,
    accepted: Vec<u32>,
}

/// The ticks from one counter to the other: past its top value the counter carries on from zero.
fn elapsed(from: u32, to: u32) -> u64 {
    let (from, to) = (u64::from(from), u64::from(to));
    if from <= to { to - from } else { (1 << 32) - from + to }
}

impl History {
    /// The elapsed ticks of an accepted stamp, and 0 of a begin.
    pub fn make(&mut self, call: Call) -> Result<u32, Refusal> {
        match call {
            Call::Begin(counter) => {
                self.begun.push(counter);
                Ok(0)
            }
            Call::Stamp(counter) => {
                let first = *self.begun.first().ok_or(Refusal::from(25))?;
                let ticks = u32::try_from(elapsed(first, counter)).ok().filter(|&ticks| ticks < 2_147_483_648).ok_or(Refusal::from(26))?;
                self.begun.clear();
                self.accepted.push(ticks);
                Ok(ticks)
            }
        }
    }

    pub fn record(&self) -> Record {
        Record {
            underway: !self.begun.is_empty(),
            counter: self.begun.first().copied().unwrap_or(0),
            longest: self.accepted.iter().copied().max().unwrap_or(0),
            count: self.accepted.len().min(65_535) as u16,
        }
    }

    /// So many readings that begin and end on one tick.
    pub fn after_readings(times: u32) -> History {
        History { begun: vec![], accepted: vec![0; times as usize] }
    }
}

/// A run by chance: the counter goes on by a little, by half its range or nearly so, or by anything.
pub fn calls(r: &mut Random) -> Vec<Call> {
    let mut counter = r.any_size();
    let count = r.between(0, 30);
    let mut call = |_| {
        let near_half = 2_147_483_647 + r.between(0, 2);
        let step = match r.between(0, 9) {
            0 | 1 => near_half,
            2 => r.any_size(),
            _ => r.between(0, 1_000),
        };
        counter = counter.wrapping_add(step);
        if r.one_in(2) { Call::Begin(counter) } else { Call::Stamp(counter) }
    };
    (0..count).map(&mut call).collect()
}
