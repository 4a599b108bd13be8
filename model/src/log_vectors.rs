//! Replays that are always asked of the probe: logs cut anywhere, each kind of lie, counters across the rollover, every place where the bytes
//! may end, each refusal of a log at both ends of what is allowed, beside its neighbours and beside the sheet's, and the longest logs.

use crate::log::{encoded, fields, raw_bits, Fields, Record};
use crate::nights::{true_records, with_lie, LIES, MOST};
use crate::probe::{Call, Handed, Lent, Request};
use crate::random::Random;
use crate::replay::first_events;
use crate::schedule::sizes;
use crate::sheet::{chain, memory, packed, suite, unjudged, Memory, Task};

pub fn replays() -> Vec<Request> {
    let logs = [agreeing(), lies(), on_one_tick(), rollovers(), where_logs_end(), refusals_of_a_log(), longest()];
    [logs.concat(), in_order(), chains(), interrupted()].concat()
}

fn task(period: u32, budget: u32, rank: u8) -> Task {
    Task { period, budget, rank }
}

fn radio() -> Memory {
    memory(&[task(20, 5, 1), task(6, 1, 3), task(12, 3, 2)], &[0, 1, 2])
}

fn quartet() -> Memory {
    memory(&[task(6, 1, 4), task(6, 1, 3), task(3, 1, 2), task(6, 1, 1)], &[2, 3])
}

/// Sixteen tasks that take up to half of the processor, and a chain of all of them.
fn sixteen() -> Memory {
    let tasks: Vec<Task> = (0..16).map(|i| task([40, 60, 80, 120][i % 4], 1 + i as u32 % 3, (i * 7 % 16) as u8)).collect();
    memory(&tasks, &(0..16).map(|i| (i * 3 + 5) % 16).collect::<Vec<_>>())
}

/// Short tasks that interrupt a long one again and again.
fn long() -> Memory {
    memory(&[task(4, 1, 3), task(40, 12, 1), task(10, 3, 2)], &[0, 2, 1])
}

fn request(sheet: Handed, log: Vec<u8>, room: usize) -> Request {
    Request { call: Call::Replay, numbers: [0; 3], sheet, log, lent: Lent::Table { room, words: vec![7] } }
}

/// With a table that has two entries more than are needed.
fn replay(s: &Memory, log: Vec<u8>) -> Request {
    let room = sizes(s).map_or(20, |z| z.jobs as usize + 2);
    request(Handed::Memory(*s), log, room)
}

fn full(s: &Memory, count: usize) -> Vec<Record> {
    first_events(s.tasks(), count, |i, _| s.tasks[i].budget)
}

/// Logs of full and of other demands, cut anywhere.
fn agreeing() -> Vec<Request> {
    let mut random = Random::new(1);
    let records = full(&radio(), 36);
    let cut = (0..=36).map(|count| replay(&radio(), encoded(0, &records[..count])));
    let mut other = Vec::new();
    for s in [radio(), quartet(), sixteen()] {
        for _ in 0..12 {
            let count = random.between(0, 120) as usize;
            other.push(replay(&s, encoded(random.word(), &true_records(&mut random, s.tasks(), count))));
        }
    }
    cut.chain(other).collect()
}

fn lies() -> Vec<Request> {
    let mut random = Random::new(2);
    let mut requests = Vec::new();
    for s in [radio(), quartet(), sixteen()] {
        for lie in LIES {
            for count in [4, 9, 20, 40, 80] {
                let records = true_records(&mut random, s.tasks(), count);
                let lied = with_lie(&mut random, s.tasks(), &records, lie);
                requests.extend(lied.map(|lied| replay(&s, encoded(9, &lied))));
            }
        }
    }
    requests
}

/// With full budgets each pair of records on one tick exchanged, and the first of it left out. Of some pairs a job is done with its budget when
/// another that outranks it is released.
fn on_one_tick() -> Vec<Request> {
    let tight = memory(&[task(4, 1, 2), task(4, 3, 1)], &[0, 1]);
    let mut requests = Vec::new();
    for s in [tight, radio(), long()] {
        let records = full(&s, 24);
        for a in (1..24).filter(|&a| records[a].tick == records[a - 1].tick) {
            let mut lied = records.clone();
            lied.swap(a - 1, a);
            requests.push(replay(&s, encoded(0, &lied)));
            lied.truncate(a);
            requests.push(replay(&s, encoded(0, &lied)));
        }
    }
    requests
}

/// The counter at the origin so that it passes its top value before, on and after each of some records.
fn rollovers() -> Vec<Request> {
    let records = full(&radio(), 30);
    let origins = (0..24).map(|ticks| 0u32.wrapping_sub(ticks)).chain([1, (1 << 31) - 1, 1 << 31, (1 << 31) + 1]);
    origins.map(|origin| replay(&radio(), encoded(origin, &records))).collect()
}

fn where_logs_end() -> Vec<Request> {
    let mut logs = Vec::new();
    // With four spare bits, and with seven.
    for count in [0, 5] {
        let bits = raw_bits(77, count as u32, &full(&radio(), count).iter().map(|r| fields(77, r)).collect::<Vec<_>>());
        let whole = packed(&bits);
        logs.extend((0..whole.len()).map(|size| whole[..size].to_vec()));
        for at in bits.len()..8 * whole.len() {
            let wrong = packed(&(bits.clone() + &"0".repeat(at - bits.len()) + "1"));
            logs.extend([wrong.clone(), [wrong, vec![0]].concat()]);
        }
        for surplus in [&[0][..], &[255], &[0, 1]] {
            logs.push([&whole[..], surplus].concat());
        }
    }
    logs.into_iter().map(|log| replay(&radio(), log)).collect()
}

fn refusals_of_a_log() -> Vec<Request> {
    let f = |task, kind, counter| Fields { task, kind, counter };
    let mut lists = Vec::new();
    for index in [2, 3, 4, 15] {
        lists.extend([vec![f(index, 0, 5)], vec![f(index, 1, 5)], vec![f(index, 1, 4)], vec![f(1, 0, 5), f(index, 0, 6)]]);
    }
    lists.extend([
        vec![f(0, 1, 5)],
        vec![f(0, 1, 4)],
        vec![f(1, 0, 5), f(1, 0, 6)],
        vec![f(1, 0, 5), f(1, 0, 4)],
        vec![f(1, 0, 5), f(1, 1, 6), f(1, 1, 6)],
        vec![f(1, 0, 5), f(1, 1, 6), f(2, 1, 6)],
        vec![f(1, 0, 4), f(1, 0, 4)],
        vec![f(1, 0, 4), f(3, 0, 4)],
    ]);
    // The second difference, and the time after it, one less than is refused, as much and one more.
    for (first, then) in [(0, 1 << 31), (1 << 30, 1 << 30), ((1 << 31) - 1, 1), (1, (1 << 31) - 1)] {
        for more in [0, 1, 2] {
            let counter = 5 + first;
            lists.push(vec![f(1, 0, counter), f(1, 1, (counter + then - 1).wrapping_add(more))]);
        }
    }
    lists.extend([(1 << 31) - 1, 1 << 31, u32::MAX].map(|gap| vec![f(1, 0, 5u32.wrapping_add(gap))]));
    // Refused before the bytes end, and ended before it is refused.
    let cut = [7, 8, 9, 12].map(|size| packed(&raw_bits(5, 2, &[f(1, 1, 4), f(1, 1, 4)]))[..size].to_vec());
    let late = [9, 10, 11, 12].map(|size| packed(&raw_bits(5, 2, &[f(1, 0, 4), f(1, 1, 4)]))[..size].to_vec());
    let logs = lists.iter().map(|list| packed(&raw_bits(5, list.len() as u32, list)));
    logs.chain(cut).chain(late).map(|log| replay(&radio(), log)).collect()
}

/// A bad sheet, a table that is too short, a bad log and a late task: each beside those after it.
fn in_order() -> Vec<Request> {
    let late = memory(&[task(2, 1, 2), task(3, 2, 1)], &[0, 1]);
    let both = [chain(4_000_000, &[1, 0]), chain(0, &[0])];
    let mut bad = suite(&[task(20, 5, 1), task(6, 1, 3)], &both);
    bad.chains[1].limit = 4_000_001;
    let sheets = [
        bad,
        Memory { edition: 3, ..radio() },
        Memory { suite: 9, ..suite(&[task(5, 5, 1)], &[]) },
        memory(&[task(5, 6, 1)], &[0]),
        memory(&[task(1_000, 1, 2), task(1_001, 1, 1)], &[0]),
        memory(&[task(2, 1, 2), task(16_384, 1, 1)], &[0]),
        late,
        radio(),
        Memory { suite: 200, ..radio() },
    ];
    let good = encoded(3, &full(&radio(), 9));
    let logs = [good, vec![], packed(&raw_bits(0, 1, &[Fields { task: 9, kind: 0, counter: 0 }])), vec![0; 9]];
    let mut requests = Vec::new();
    for s in sheets {
        for log in &logs {
            requests.extend([4, 5, 17, 18, 19].map(|room| request(Handed::Memory(s), log.clone(), room)));
        }
        requests.push(request(Handed::Bytes(unjudged(&s)), logs[0].clone(), 20));
    }
    requests.push(request(Handed::Bytes(unjudged(&radio())[..9].to_vec()), vec![], 20));
    requests.push(request(Handed::Bytes([unjudged(&radio()), vec![0]].concat()), vec![], 20));
    requests
}

/// As many records as a log holds, true and with the last one wrong, a byte too few and one too many.
fn longest() -> Vec<Request> {
    let lone = memory(&[task(100_000, 100_000, 1)], &[0]);
    let often = memory(&[task(1, 1, 255)], &[0]);
    let mut requests = Vec::new();
    for s in [lone, often, sixteen()] {
        let records = full(&s, MOST);
        requests.push(replay(&s, encoded(u32::MAX, &records)));
        let mut wrong = records;
        wrong[MOST - 1].tick += 1;
        requests.push(replay(&s, encoded(u32::MAX, &wrong)));
    }
    let log = encoded(0, &full(&radio(), MOST));
    requests.push(replay(&radio(), log[..log.len() - 1].to_vec()));
    requests.push(replay(&radio(), [log, vec![0]].concat()));
    requests
}

/// The chain that is followed: of each length, of one task, of a sheet with several, and with noise in places that are not used.
fn chains() -> Vec<Request> {
    let mut random = Random::new(3);
    let records = true_records(&mut random, sixteen().tasks(), 400);
    let log = encoded(0u32.wrapping_sub(50), &records);
    let mut sheets: Vec<Memory> = (1..=16).map(|length| memory(sixteen().tasks(), &sixteen().chain(1)[..length])).collect();
    sheets.extend([0, 7, 15].map(|index| memory(sixteen().tasks(), &[index])));
    sheets.push(suite(sixteen().tasks(), &[chain(0, &[3, 9, 1]), chain(1_000, &[0])]));
    let mut noisy = Memory { suite: 7, ..memory(sixteen().tasks(), &[4, 2]) };
    noisy.chains[0].entries = [4, 2, 200, 4, 2, 2, 2, 2, 2, 2, 2, 2, 2, 2, 2, 255];
    noisy.chains[0].limit = u32::MAX;
    sheets.push(noisy);
    sheets.iter().map(|s| replay(s, log.clone())).collect()
}

/// A path goes on to a job that starts at or after the write, and not to one that was interrupted by it: the long task among the first, the
/// last and between.
fn interrupted() -> Vec<Request> {
    let mut random = Random::new(4);
    let chains: [&[u8]; 7] = [&[0, 1], &[2, 1], &[0, 2, 1], &[2, 0, 1], &[1, 0], &[1, 2, 0], &[0, 1, 2]];
    let mut requests = Vec::new();
    for entries in chains {
        let s = memory(long().tasks(), entries);
        requests.push(replay(&s, encoded(0, &full(&s, 120))));
        for _ in 0..4 {
            let count = random.between(20, 120) as usize;
            requests.push(replay(&s, encoded(random.word(), &true_records(&mut random, s.tasks(), count))));
        }
    }
    requests
}
