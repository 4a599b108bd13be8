//! Document 02's P6: the log's bits and refusals, agreement by search over all demands against the quick way, and the paths in a log.

use model::chain::figures;
use model::log::{encoded, fields, raw_bits, read, Fields, Kind::*, Record};
use model::nights::{origin, true_records, with_lie, LIES, MOST};
use model::random::Random;
use model::replay::{agreeing, delays, first_events, replay, Replay};
use model::schedule::{night, responses};
use model::search;
use model::sheet::{chain, memory, packed, suite, Memory, Task};
use model::Refusal;

const RADIO: [Task; 3] = [Task { period: 20, budget: 5, rank: 1 }, Task { period: 6, budget: 1, rank: 3 }, Task { period: 12, budget: 3, rank: 2 }];

fn alone(number: u8) -> Refusal {
    number.into()
}

fn at(number: u8, bit: usize) -> Refusal {
    Refusal::with(number, bit)
}

fn start(task: usize, tick: u32) -> Record {
    Record { task, kind: Start, tick }
}

fn finish(task: usize, tick: u32) -> Record {
    Record { task, kind: Finish, tick }
}

/// Up to three tasks with short periods and budgets, so that all demands can be tried. Some are late.
fn small(random: &mut Random) -> Vec<Task> {
    let mut ranks = [0, 1, 2, 200];
    random.shuffle(&mut ranks);
    let count = random.between(1, 3) as usize;
    let task = |rank: &u8| {
        let period = random.between(2, 9);
        Task { period, budget: random.between(1, period.min(3)), rank: *rank }
    };
    ranks[..count].iter().map(task).collect()
}

/// "a 32-bit origin counter .., a record count of 12 bits, then per record a task index (4), a kind (1; zero is a start) and a counter (32),
/// then zero padding"
#[test]
fn bits_of_a_log() {
    let text = ["11111111111111111111111111111111", "000000000010", "0000", "0", "00000000000000000000000000000010", "0000", "1", "00000000000000000000000000000100"];
    let log = packed(&text.concat());
    assert_eq!(log, encoded(u32::MAX, &[start(0, 3), finish(0, 5)]));
    assert_eq!(Ok(vec![start(0, 3), finish(0, 5)]), read(&log, 1));
    assert_eq!((6, 15, 18_945), (encoded(0, &[]).len(), log.len(), encoded(0, &[start(0, 0); MOST]).len()));
}

/// What is written is read back, wherever the counter stands at the origin, "across it".
#[test]
fn times_across_the_rollover() {
    let mut random = Random::new(3);
    for _ in 0..500 {
        let count = random.between(0, 60) as usize;
        let records = true_records(&mut random, &RADIO, count);
        for origin in [0, 1, u32::MAX, 1 << 31, 0u32.wrapping_sub(30), origin(&mut random, &records), random.word()] {
            assert_eq!(Ok(records.clone()), read(&encoded(origin, &records), 3));
        }
    }
    // One tick less than is refused, at once and in two steps, from the last value of the counter on.
    for ticks in [[0, (1 << 31) - 1], [1 << 30, (1 << 31) - 1], [(1 << 31) - 1, (1 << 31) - 1]] {
        let records = [start(0, ticks[0]), finish(0, ticks[1])];
        assert_eq!(Ok(records.to_vec()), read(&encoded(u32::MAX, &records), 1));
    }
}

/// "front to back, .. 1 and 9 as for sheets"
#[test]
fn every_truncation_and_tail() {
    let records = true_records(&mut Random::new(1), &RADIO, 9);
    let whole = encoded(u32::MAX - 7, &records);
    let mut ends = vec![(0, 32), (32, 44)];
    for r in 0..records.len() {
        let begin = 44 + 37 * r;
        ends.extend([(begin, begin + 4), (begin + 4, begin + 5), (begin + 5, begin + 37)]);
    }
    for size in 0..whole.len() {
        let cut = ends.iter().find(|(_, end)| 8 * size < *end).unwrap();
        assert_eq!(Err(at(1, cut.0)), read(&whole[..size], 3), "{size} bytes");
    }
    let end = 44 + 37 * records.len();
    for bit in end..8 * whole.len() {
        let mut wrong = whole.clone();
        wrong[bit / 8] |= 128 >> (bit % 8);
        assert_eq!(Err(at(9, bit)), read(&wrong, 3));
        wrong.push(255);
        assert_eq!(Err(at(9, bit)), read(&wrong, 3));
    }
    for surplus in [&[0][..], &[128], &[0, 1], &[0; 4_000]] {
        assert_eq!(Err(at(9, 8 * whole.len())), read(&[&whole, surplus].concat(), 3));
    }
    // An empty log, its four spare bits, and a byte too many.
    assert_eq!(Ok(vec![]), read(&[9, 9, 9, 9, 0, 0], 3));
    assert_eq!(Err(at(9, 46)), read(&[9, 9, 9, 9, 0, 2], 3));
    assert_eq!(Err(at(9, 48)), read(&[9, 9, 9, 9, 0, 0, 0], 3));
    assert_eq!(Err(at(1, 32)), read(&[9, 9, 9, 9, 0], 3));
    // The count's last bit is the first of byte 5, and the first record begins four bits later.
    assert_eq!(Err(at(1, 48)), read(&[9, 9, 9, 9, 0, 16], 3));
}

fn refused(origin: u32, records: &[Fields], expected: Refusal) {
    let bits = raw_bits(origin, records.len() as u32, records);
    assert_eq!(Err(expected), read(&packed(&bits), 3));
    // What follows the field that is refused does not matter: the bytes end after it, or a bit after the last field is 1.
    assert_eq!(Err(expected), read(&packed(&format!("{bits}1")), 3));
    assert_eq!(Err(expected), read(&[packed(&bits), vec![0]].concat(), 3));
}

/// "19 a record names no task; 20 a start during that task's job, or a finish without one; 21 a difference, or the time so far, of
/// 2,147,483,648 or more"
#[test]
fn refusals_of_a_log() {
    let f = |task, kind, counter| Fields { task, kind, counter };
    for task in 3..16 {
        refused(5, &[f(task, 0, 5)], alone(19));
        refused(5, &[f(0, 0, 5), f(task, 1, 6)], alone(19));
        // Before 20 and 21 of the same record.
        refused(5, &[f(task, 1, 4)], alone(19));
    }
    refused(5, &[f(0, 1, 5)], alone(20));
    refused(5, &[f(0, 0, 5), f(1, 1, 6)], alone(20));
    refused(5, &[f(0, 0, 5), f(0, 0, 6)], alone(20));
    refused(5, &[f(0, 0, 5), f(0, 1, 6), f(0, 1, 7)], alone(20));
    refused(5, &[f(0, 0, 5), f(1, 0, 5), f(0, 1, 6), f(1, 0, 6)], alone(20));
    // Before 21 of the same record, and 21 before 19 and 20 of the next.
    refused(5, &[f(0, 1, 4)], alone(20));
    refused(5, &[f(0, 0, 4), f(0, 0, 4)], alone(21));
    refused(5, &[f(0, 0, 4), f(3, 0, 4)], alone(21));
    for origin in [0u32, 5, 1 << 31, u32::MAX] {
        let after = |ticks: u32| origin.wrapping_add(ticks);
        for gap in [1 << 31, (1 << 31) + 1, u32::MAX] {
            refused(origin, &[f(0, 0, after(gap))], alone(21));
            refused(origin, &[f(0, 0, after(9)), f(0, 1, after(9).wrapping_add(gap))], alone(21));
        }
        // By the sum alone.
        refused(origin, &[f(0, 0, after(1 << 30)), f(0, 1, after(1 << 31))], alone(21));
        refused(origin, &[f(0, 0, after((1 << 31) - 1)), f(0, 1, after(1 << 31))], alone(21));
        refused(origin, &[f(0, 0, after(1)), f(0, 1, after(1 << 31))], alone(21));
        refused(origin, &[f(0, 0, after((1 << 31) - 1)), f(0, 1, after((1 << 31) - 1)), f(2, 0, after(1 << 31))], alone(21));
    }
    // Each field is judged when it is read: the bytes of a count of 2 that end after a record which is refused.
    let bits = raw_bits(5, 2, &[f(0, 1, 5)]);
    assert_eq!(Err(alone(20)), read(&packed(&bits)[..7], 3));
    assert_eq!(Err(at(1, 44 + 5)), read(&packed(&raw_bits(5, 2, &[f(0, 0, 4)]))[..9], 3));
}

/// A sheet in memory and a log: the sheet's 2 to 14 before the log's, and these before 15; lent memory.
#[test]
fn refusals_in_order() {
    let task = |period, budget, rank| Task { period, budget, rank };
    let bad_logs: [(Vec<u8>, Refusal); 5] = [
        (vec![], at(1, 0)),
        (packed(&raw_bits(0, 1, &[Fields { task: 15, kind: 0, counter: 0 }])), alone(19)),
        (packed(&raw_bits(0, 1, &[Fields { task: 0, kind: 1, counter: 0 }])), alone(20)),
        (packed(&raw_bits(1, 1, &[Fields { task: 0, kind: 0, counter: 0 }])), alone(21)),
        (vec![0; 7], at(9, 48)),
    ];
    let sheets: [(Memory, Refusal); 6] = [
        (memory(&[task(5, 6, 1)], &[0]), at(4, 22)),
        (Memory { edition: 3, ..memory(&RADIO, &[0]) }, alone(16)),
        (suite(&RADIO, &[chain(4_000_001, &[0])]), alone(13)),
        (suite(&RADIO, &[]), alone(17)),
        (memory(&[task(1_000, 1, 2), task(1_001, 1, 1)], &[0]), alone(10)),
        (memory(&[task(2, 1, 2), task(16_384, 1, 1)], &[0]), alone(11)),
    ];
    let good_log = encoded(0, &[]);
    let mut table = [7; 30];
    for (s, expected) in &sheets {
        for log in bad_logs.iter().map(|bad| &bad.0).chain([&good_log]) {
            assert_eq!(Err(*expected), replay(s, log, &mut table));
        }
    }
    let late = memory(&[task(2, 1, 2), task(3, 2, 1)], &[0, 1]);
    for (log, expected) in &bad_logs {
        for s in [&memory(&RADIO, &[0, 1, 2]), &late] {
            assert_eq!(Err(alone(14)), replay(s, log, &mut table[..4]));
            assert_eq!(Err(*expected), replay(s, log, &mut table));
        }
    }
    assert_eq!(Err(alone(14)), replay(&memory(&RADIO, &[0]), &good_log, &mut table[..17]));
    assert_eq!([7; 30], table);
    assert_eq!(Err(at(15, 1)), replay(&late, &good_log, &mut table));
    assert_eq!([&[0; 5][..], &[7; 25]].concat(), table);
    let answer = replay(&memory(&RADIO, &[0, 1, 2]), &good_log, &mut table).unwrap();
    assert_eq!(Replay { records: 0, paths: 0, longest: None, breaking: None, figure: (20, 20) }, answer);
    let mut rows = [7; 30];
    rows[..5].fill(0);
    responses(&memory(&RADIO, &[0]), &mut rows).unwrap();
    assert_eq!(rows, table);
}

/// Both ways of going through a schedule give the same starts and finishes, on time or not.
#[test]
fn events_are_those_of_the_night() {
    let mut random = Random::new(11);
    for _ in 0..300 {
        let tasks = small(&mut random);
        let demands: Vec<Vec<u32>> = tasks.iter().map(|t| (0..200).map(|_| random.between(1, t.budget)).collect()).collect();
        let ticks = 60;
        let night = night(&tasks, ticks, |i, k| demands[i][k as usize]);
        let events = first_events(&tasks, 100, |i, k| demands[i][k]);
        for (i, t) in tasks.iter().enumerate() {
            let of = |kind, limit: u32| -> Vec<u32> {
                events.iter().filter(|e| (e.task, e.kind) == (i, kind)).map(|e| e.tick).filter(|&tick| tick < limit).collect()
            };
            let covered = events.last().unwrap().tick.min(ticks);
            let until = |times: &[Option<u32>]| -> Vec<u32> { times.iter().flatten().copied().filter(|&tick| tick < covered).collect() };
            assert_eq!(until(&night.starts[i]), of(Start, covered), "{t:?}");
            assert_eq!(until(&night.finishes[i]), of(Finish, covered), "{t:?}");
        }
        assert!(events.windows(2).all(|pair| (pair[0].tick, pair[0].kind == Start) < (pair[1].tick, pair[1].kind == Start)));
    }
}

/// By search over all demands and by the quick way the same records agree: true ones, with lies of each kind, with several, and by chance.
#[test]
fn agreement_is_what_a_search_finds() {
    let mut random = Random::new(7);
    let (mut whole, mut broken) = (0, [0; LIES.len()]);
    for _ in 0..1_500 {
        let tasks = small(&mut random);
        let count = random.between(0, 12) as usize;
        let records = true_records(&mut random, &tasks, count);
        assert_eq!((count, count), (agreeing(&tasks, &records), search::agreeing(&tasks, &records)));
        whole += 1;
        for (k, lie) in LIES.into_iter().enumerate() {
            let Some(mut lied) = with_lie(&mut random, &tasks, &records, lie) else {
                continue;
            };
            if random.one_in(3) {
                let other = random.pick(&LIES);
                lied = with_lie(&mut random, &tasks, &lied, other).unwrap_or(lied);
            }
            // Only what is not refused is asked for.
            let Ok(lied) = read(&encoded(0, &lied), tasks.len()) else {
                continue;
            };
            let agree = search::agreeing(&tasks, &lied);
            assert_eq!(agree, agreeing(&tasks, &lied), "{tasks:?} {lied:?}");
            broken[k] += usize::from(agree < lied.len());
        }
    }
    assert!(whole > 1_000 && broken.iter().all(|&times| times > 20), "{whole} {broken:?}");
}

/// Logs that are no schedule's at all.
#[test]
fn agreement_of_any_records() {
    let mut random = Random::new(8);
    let mut some = [0; 4];
    for _ in 0..6_000 {
        let tasks = small(&mut random);
        let mut under_way = vec![false; tasks.len()];
        let mut tick = 0;
        let mut records = Vec::new();
        for _ in 0..random.between(1, 6) {
            let task = random.between(0, tasks.len() as u32 - 1) as usize;
            tick += random.pick(&[0, 0, 1, 1, 2, 3]);
            records.push(Record { task, kind: if under_way[task] { Finish } else { Start }, tick });
            under_way[task] = !under_way[task];
        }
        let agree = search::agreeing(&tasks, &records);
        assert_eq!(agree, agreeing(&tasks, &records), "{tasks:?} {records:?}");
        some[agree.min(3)] += 1;
    }
    assert!(some.iter().all(|&times| times > 10), "{some:?}");
}

/// A log of the longest kind, true and with a lie in it, cut anywhere.
#[test]
fn long_logs() {
    let mut random = Random::new(5);
    let records = true_records(&mut random, &RADIO, MOST);
    assert_eq!(MOST, agreeing(&RADIO, &records));
    for _ in 0..20 {
        let count = random.between(0, MOST as u32) as usize;
        assert_eq!(count, agreeing(&RADIO, &records[..count]));
        let mut lied = records[..count].to_vec();
        let last = random.between(0, count as u32) as usize;
        if let Some(r) = lied.get_mut(last) {
            r.tick += 100;
            assert!(agreeing(&RADIO, &lied) <= last);
        }
    }
    let log = encoded(u32::MAX - 1_000, &records);
    let answer = replay(&memory(&RADIO, &[0, 1, 2]), &log, &mut [0; 18]).unwrap();
    assert_eq!((MOST as u32, None, (20, 20)), (answer.records, answer.breaking, answer.figure));
    assert!(answer.paths > 300 && answer.longest.unwrap().0 <= 20);
}

/// Radio with every budget used up: document 01's schedule, and the delays that it names.
#[test]
fn radio_by_hand() {
    let records = [
        start(1, 0), finish(1, 1), start(2, 1), finish(2, 4), start(0, 4), start(1, 6), finish(1, 7), finish(0, 10), start(1, 12), finish(1, 13),
        start(2, 13), finish(2, 16), start(1, 18), finish(1, 19), start(0, 20), start(1, 24), finish(1, 25), start(2, 25), finish(2, 28),
        finish(0, 29), start(1, 30), finish(1, 31), start(1, 36), finish(1, 37), start(2, 37), finish(2, 40),
    ];
    assert_eq!(records[..], first_events(&RADIO, records.len(), |i, _| RADIO[i].budget)[..]);
    let s = memory(&RADIO, &[0, 1, 2]);
    let told = |records: &[Record]| replay(&s, &encoded(0, records), &mut [0; 18]).unwrap();
    let all = told(&records);
    assert_eq!(Replay { records: 26, paths: 2, longest: Some((20, 1)), breaking: None, figure: (20, 20) }, all);
    // Before the last finish one path is completed, of 16 ticks; before the eleventh record from its start none.
    assert_eq!((1, Some((16, 0))), (told(&records[..25]).paths, told(&records[..25]).longest));
    assert_eq!((0, None), (told(&records[..11]).paths, told(&records[..11]).longest));
    assert_eq!(vec![(16, 0), (20, 1)], delays(&RADIO, &[0, 1, 2], &records));
    assert_eq!(vec![(13, 0), (11, 1)], delays(&RADIO, &[0, 1], &records));
    assert_eq!(vec![(10, 0), (9, 1)], delays(&RADIO, &[0], &records));
    // A break: only the records before it are followed.
    let mut lied = records;
    lied[11].tick += 1;
    assert_eq!((Some(11), 0, None), (told(&lied).breaking, told(&lied).paths, told(&lied).longest));
    lied = records;
    lied[0].tick = 1;
    assert_eq!(Some(0), told(&lied).breaking);
    lied = records;
    lied[25].tick += 1;
    assert_eq!((Some(25), 1), (told(&lied).breaking, told(&lied).paths));
    assert_eq!(26, told(&lied).records);
}

/// "the longest delay from release with its smallest job number": of equals the first.
#[test]
fn smallest_job_of_equals() {
    let lone = memory(&[Task { period: 5, budget: 3, rank: 1 }], &[0]);
    let records = [start(0, 0), finish(0, 1), start(0, 5), finish(0, 8), start(0, 10), finish(0, 13), start(0, 15), finish(0, 17)];
    let told = replay(&lone, &encoded(7, &records), &mut [0]).unwrap();
    assert_eq!((4, Some((3, 1)), None), (told.paths, told.longest, told.breaking));
}

/// "No delay followed exceeds the sampling figure", and with every budget used up and rising ranks one reaches it.
#[test]
fn delays_within_the_sampling_figure() {
    let mut random = Random::new(21);
    let mut followed = 0;
    for _ in 0..400 {
        let tasks = small(&mut random);
        let mut order: Vec<u8> = (0..tasks.len() as u8).collect();
        random.shuffle(&mut order);
        let s = memory(&tasks, &order);
        let Ok((_, f)) = figures(&s, 1, &mut [0; 8_192]) else {
            continue;
        };
        let records = true_records(&mut random, &tasks, 300);
        for (delay, job) in delays(&tasks, &order, &records) {
            assert!(delay <= f.sampling, "{tasks:?} {order:?}: job {job} takes {delay}");
            followed += 1;
        }
    }
    assert!(followed > 5_000, "{followed}");
}

/// The counter of a record, across the rollover.
#[test]
fn fields_of_records() {
    assert_eq!(Fields { task: 2, kind: 1, counter: 3 }, fields(u32::MAX, &finish(2, 4)));
}
