//! Requests that are always made of the probe: document 01's sheets, both ends of each range, every place where bytes may end, each
//! refusal alone, at the first and at the last place where it can occur, and beside another, tables and buffers that are too short by
//! one, exact and longer, sheets for which only the quick bound without a table is answered, every chain by its number and numbers of
//! none, conversions, runs of the tell-tale's calls, pairs of sheets, every call on every sample and on every bad field in memory, and
//! replays.

use crate::log_vectors::replays;
use crate::probe::{fields, run_bytes, Call, Handed, Lent, Request};
use crate::schedule::{responses, sizes};
use crate::sheet::{chain, encoded, marked_bits, memory, packed, raw_bits, read, suite, unjudged, Chain, Memory, Task};
use crate::telltale::{self, Call::{Begin, Stamp}};
use Call::*;

pub fn requests() -> Vec<Request> {
    let of_sheets = [readings(), sheets_in_memory(), tables(), chains(), without_a_table(), chain_numbers(), conversions(), comparisons(), samples()];
    [numbers_and_bits(), of_sheets.concat(), runs(), replays()].concat()
}

// Parts of requests

fn task(period: u32, budget: u32, rank: u8) -> Task {
    Task { period, budget, rank }
}

fn sheet(tasks: &[(u32, u32, u8)], chain: &[u8]) -> Memory {
    let tasks: Vec<Task> = tasks.iter().map(|&(period, budget, rank)| task(period, budget, rank)).collect();
    memory(&tasks, chain)
}

fn request(call: Call, numbers: [u32; 3], sheet: Handed, lent: Lent) -> Request {
    Request { call, numbers, sheet, log: vec![], lent }
}

fn no_sheet() -> Handed {
    Handed::Bytes(vec![])
}

fn nothing_lent() -> Lent {
    Lent::Bytes(vec![])
}

fn buffer(room: usize) -> Lent {
    Lent::Bytes(vec![0xA5; room])
}

fn table(room: usize, words: &[u32]) -> Lent {
    Lent::Table { room, words: words.to_vec() }
}

// Whole numbers and bits

fn numbers_and_bits() -> Vec<Request> {
    let numbers = |call, a, b, c| request(call, [a, b, c], no_sheet(), nothing_lent());
    let bytes = Handed::Bytes(vec![0x5A, 0xC3, 0xFF]);
    vec![
        numbers(Gcd, 84, 36, 0),
        numbers(Gcd, 0, u32::MAX, 0),
        numbers(Lcm, 12, 20, 60),
        numbers(Lcm, 12, 20, 59),
        numbers(Up, 7, 15, 0),
        numbers(Up, u32::MAX, u32::MAX, 0),
        numbers(Magnitude, 980, 0, 0),
        numbers(Magnitude, 1 << 31, 0, 0),
        request(Number, [6, 11, 0], bytes.clone(), nothing_lent()),
        request(Number, [20, 40, 0], bytes, nothing_lent()),
        request(Put, [5, 9, 0x155], no_sheet(), Lent::Bytes(vec![0xFF, 0, 0x0F])),
        request(Put, [20, 40, 1], no_sheet(), Lent::Bytes(vec![0xFF, 0, 0x0F])),
        request(Greatest, [0; 3], no_sheet(), table(5, &[3, u32::MAX, 9])),
        request(Greatest, [0; 3], no_sheet(), table(0, &[])),
    ]
}

// Readings: where the bytes are taken what they hold, the judgement of the sheet and its bytes written again; the refusal of others

fn readings() -> Vec<Request> {
    let bad: Vec<Vec<u8>> = bad_fields().iter().map(unjudged).collect();
    let bytes = [document(), ends_of_ranges(), editions(), ends_of_suites(), where_bytes_end(), bad, two_faults()].concat();
    bytes.into_iter().flat_map(reading).collect()
}

/// The blank sheet that comes with a refusal is asked for on the samples, of each number.
fn reading(bytes: Vec<u8>) -> Vec<Request> {
    let taken = read(&bytes).is_ok();
    let sheet = Handed::Bytes(bytes);
    let mut requests = vec![request(Judge, [0; 3], sheet.clone(), nothing_lent())];
    if taken {
        requests.push(request(Read, [0; 3], sheet.clone(), nothing_lent()));
        requests.push(request(Write, [0; 3], sheet, buffer(180)));
    }
    requests
}

/// n tasks that are allowed, with different ranks, 0 and 255 among them.
fn tasks(n: u32) -> Vec<Task> {
    (0..n).map(|i| task(100_000 - 7 * i, 1 + i, if i == 0 { 255 } else { i as u8 - 1 })).collect()
}

/// The largest old sheet: sixteen tasks and a chain of sixteen.
fn largest() -> (Vec<Task>, Vec<u8>) {
    (tasks(16), (0..16).map(|i| (i * 7 + 15) % 16).collect())
}

/// So many chains of all n tasks, each in an order of its own, the first under the least limit and the last under the greatest.
fn full_suite(n: u8, chains: u8) -> Memory {
    let entries = |c: u8| (0..n).map(|i| (i + c) % n).collect::<Vec<_>>();
    let limit = |c: u8| if c + 1 == chains { 4_000_000 } else { 1_000 * u32::from(c) };
    suite(&tasks(n.into()), &(0..chains).map(|c| chain(limit(c), &entries(c))).collect::<Vec<_>>())
}

fn document() -> Vec<Vec<u8>> {
    let lone = vec![0x08, 0x00, 0x14, 0x00, 0x0A, 0x02, 0x10];
    assert_eq!(lone, encoded(&[task(5, 5, 1)], &[0]));
    vec![
        lone.clone(),
        encoded(&[task(5, 6, 1)], &[0]),
        vec![],
        [lone, vec![0]].concat(),
        encoded(&[task(8, 1, 1), task(2, 1, 3), task(4, 1, 2)], &[0, 1, 2]),
        encoded(&[task(20, 5, 1), task(6, 1, 3), task(12, 3, 2)], &[0, 1, 2]),
        encoded(&[task(6, 1, 4), task(6, 1, 3), task(3, 1, 2), task(6, 1, 1)], &[2, 3]),
    ]
}

fn ends_of_ranges() -> Vec<Vec<u8>> {
    let one = |t: Task| encoded(&[t], &[0]);
    let mut sheets = Vec::new();
    for n in [0, 1, 16, 17, 30] {
        sheets.push(packed(&raw_bits(n, &tasks(n.min(16)), 1, &[0])));
    }
    for period in [0, 1, 99_999, 100_000, 100_001, 131_071] {
        sheets.push(one(task(period, 1, 9)));
    }
    for budget in [0, 1, 99, 100, 101, 131_071] {
        sheets.push(one(task(100, budget, 9)));
    }
    for rank in [0, 1, 254, 255] {
        sheets.push(one(task(100, 1, rank)));
        for other in [0, 255] {
            sheets.push(encoded(&[task(5, 1, other), task(6, 1, 77), task(7, 1, rank)], &[2]));
        }
    }
    for n in [1, 2, 15, 16] {
        for m in [0, 1, n - 1, n, n + 1, 31] {
            let chain: Vec<u8> = (0..m.min(16) as u8).collect();
            sheets.push(packed(&raw_bits(n, &tasks(n), m, &chain)));
        }
        for entry in [0, n as u8 - 1, n as u8 % 16, 15] {
            sheets.push(encoded(&tasks(n), &[entry]));
        }
    }
    for chain in [&[0, 0][..], &[1, 0, 1], &[1, 2, 0], &[2, 2, 2], &[3, 0, 0], &[0, 3, 0]] {
        sheets.push(encoded(&tasks(3), chain));
    }
    sheets
}

/// Every edition that four bits can hold, on a sheet whose other fields are allowed, and every first five bits before the same.
fn editions() -> Vec<Vec<u8>> {
    let bits = |edition| marked_bits(edition, &full_suite(3, 2));
    let marks = (0..32u32).map(|mark| packed(&format!("{mark:05b}{}", &bits(2)[5..])));
    (0..16).map(|edition| packed(&bits(edition))).chain(marks).collect()
}

/// Both ends of the fields that old sheets do not have; eight chains of sixteen on sixteen tasks.
fn ends_of_suites() -> Vec<Vec<u8>> {
    let (least, most) = (full_suite(1, 1), full_suite(16, 8));
    assert_eq!((12, 178), (unjudged(&least).len(), unjudged(&most).len()));
    let mut sheets = vec![least, most];
    sheets.extend((0..16).map(|suite| Memory { suite, ..full_suite(3, 8) }));
    for limit in [0, 1, 1_000, 3_999_999, 4_000_000, 4_000_001, 4_194_303] {
        for c in [0, 7] {
            let mut s = full_suite(2, 8);
            s.chains[c].limit = limit;
            sheets.push(s);
        }
    }
    // A chain may have an entry of another: 8 looks at its own alone.
    sheets.push(suite(&tasks(2), &[chain(0, &[0, 1]), chain(0, &[1, 0]), chain(0, &[0]), chain(0, &[0])]));
    sheets.push(suite(&tasks(2), &[chain(0, &[0, 1]), chain(0, &[1, 1])]));
    sheets.iter().map(unjudged).collect()
}

fn where_bytes_end() -> Vec<Vec<u8>> {
    let (t, c) = largest();
    let long = encoded(&t, &c);
    assert_eq!(94, long.len());
    let mut sheets: Vec<Vec<u8>> = Vec::new();
    for (whole, least) in [(long, 0), (unjudged(&full_suite(3, 8)), 0), (unjudged(&full_suite(16, 8)), 170)] {
        sheets.extend((least..=whole.len()).map(|n| whole[..n].to_vec()));
        sheets.push([&whole[..], &[0]].concat());
        sheets.push([&whole[..], &[0, 1]].concat());
    }
    // The largest sheet has six spare bits, this one seven.
    for s in [full_suite(16, 8), full_suite(2, 1)] {
        let bits = marked_bits(2, &s);
        for at in bits.len()..bits.len().div_ceil(8) * 8 {
            let wrong = packed(&(bits.clone() + &"0".repeat(at - bits.len()) + "1"));
            sheets.extend([wrong.clone(), [wrong, vec![0]].concat()]);
        }
    }
    // Sheets with 0, 2, 4 and 6 spare bits: each of them set, alone and before a surplus byte.
    for (n, m) in [(1, 1), (2, 1), (2, 2), (3, 1), (3, 3), (4, 2), (16, 16)] {
        let chain: Vec<u8> = (0..m).collect();
        let bits = raw_bits(n, &tasks(n), m.into(), &chain);
        let spare = (8 - bits.len() % 8) % 8;
        sheets.push(packed(&bits));
        for k in 0..spare {
            let wrong = packed(&(bits.clone() + &"0".repeat(k) + "1" + &"0".repeat(spare - k - 1)));
            sheets.extend([wrong.clone(), [wrong, vec![0]].concat()]);
        }
        sheets.push([&packed(&bits)[..], &[128]].concat());
    }
    sheets
}

/// Each of 2 to 8 at the first place and at the last where it can occur, on sheets whose chains are as long as they can be.
fn bad_fields() -> Vec<Memory> {
    let sheet = |n: u32, spoil: fn(&mut Memory)| {
        let mut s = memory(&tasks(n), &(0..n as u8).collect::<Vec<_>>());
        spoil(&mut s);
        s
    };
    vec![
        sheet(1, |s| s.count = 0),
        sheet(16, |s| s.count = 17),
        sheet(1, |s| s.tasks[0].period = 0),
        sheet(16, |s| s.tasks[15].period = 100_001),
        sheet(1, |s| s.tasks[0].budget = 0),
        sheet(16, |s| s.tasks[15].budget = 100_000),
        sheet(2, |s| s.tasks[1].rank = s.tasks[0].rank),
        sheet(16, |s| s.tasks[15].rank = s.tasks[14].rank),
        sheet(1, |s| s.chains[0].length = 0),
        sheet(16, |s| s.chains[0].length = 17),
        sheet(1, |s| s.chains[0].entries[0] = 1),
        sheet(15, |s| s.chains[0].entries[14] = 15),
        // In memory alone: four bits would hold 0.
        sheet(16, |s| s.chains[0].entries[15] = 16),
        sheet(2, |s| s.chains[0].entries[1] = 0),
        sheet(16, |s| s.chains[0].entries[15] = 14),
    ]
    .into_iter()
    .chain(bad_suites())
    .collect()
}

/// The same on sheets of the second edition, with 16, 17 and 13: the first place and the last, which is in the eighth of eight chains.
fn bad_suites() -> Vec<Memory> {
    let sheet = |n: u8, chains: u8, spoil: fn(&mut Memory)| {
        let mut s = full_suite(n, chains);
        spoil(&mut s);
        s
    };
    vec![
        sheet(1, 1, |s| s.edition = 0),
        sheet(16, 8, |s| s.edition = 3),
        // In memory alone: four bits would hold 2.
        sheet(16, 8, |s| s.edition = 18),
        sheet(16, 8, |s| s.edition = 255),
        sheet(1, 1, |s| s.count = 0),
        sheet(16, 8, |s| s.count = 17),
        sheet(1, 1, |s| s.tasks[0].period = 0),
        sheet(16, 8, |s| s.tasks[15].period = 100_001),
        sheet(1, 1, |s| s.tasks[0].budget = 0),
        sheet(16, 8, |s| s.tasks[15].budget = 100_000),
        sheet(2, 1, |s| s.tasks[1].rank = s.tasks[0].rank),
        sheet(16, 8, |s| s.tasks[15].rank = s.tasks[14].rank),
        sheet(1, 1, |s| s.suite = 0),
        sheet(16, 8, |s| s.suite = 9),
        // In memory alone: four bits would hold 1.
        sheet(16, 8, |s| s.suite = 17),
        sheet(1, 1, |s| s.chains[0].limit = 4_000_001),
        sheet(16, 8, |s| s.chains[7].limit = 4_000_001),
        // In memory alone: 22 bits would hold 1,000.
        sheet(16, 8, |s| s.chains[7].limit = 4_194_304 + 1_000),
        sheet(1, 1, |s| s.chains[0].length = 0),
        sheet(16, 8, |s| s.chains[7].length = 17),
        sheet(1, 1, |s| s.chains[0].entries[0] = 1),
        sheet(15, 8, |s| s.chains[7].entries[14] = 15),
        sheet(16, 8, |s| s.chains[7].entries[15] = 16),
        sheet(2, 1, |s| s.chains[0].entries[1] = s.chains[0].entries[0]),
        sheet(16, 8, |s| s.chains[7].entries[15] = s.chains[7].entries[14]),
    ]
}

/// Each fault of the fields from one on with the next in field order, on a sheet of two tasks and two chains: the first counts.
fn neighbouring_faults() -> Vec<Memory> {
    let faults: [fn(&mut Memory); 13] = [
        |s| s.edition = 3,
        |s| s.count = 17,
        |s| s.tasks[0].period = 0,
        |s| s.tasks[0].budget = 0,
        |s| s.tasks[1].rank = s.tasks[0].rank,
        |s| s.suite = 9,
        |s| s.chains[0].limit = 4_000_001,
        |s| s.chains[0].length = 3,
        |s| s.chains[0].entries[0] = 2,
        |s| s.chains[0].entries[1] = s.chains[0].entries[0],
        |s| s.chains[1].limit = 4_000_001,
        |s| s.chains[1].length = 0,
        |s| s.chains[1].entries[1] = s.chains[1].entries[0],
    ];
    let mut sheets = Vec::new();
    for pair in faults.windows(2) {
        let mut s = full_suite(2, 2);
        pair[1](&mut s);
        sheets.push(s);
        pair[0](&mut s);
        sheets.push(s);
    }
    sheets
}

/// Two faults on one sheet: the field that comes first counts, and in one field the end of the bytes.
fn two_faults() -> Vec<Vec<u8>> {
    let bad = task(0, 0, 1);
    // The bytes end inside a field whose front is wrong already, and inside the field after a wrong one.
    let cut = |bits: String, n: usize| packed(&bits)[..n].to_vec();
    let same_ranks = || raw_bits(2, &[task(5, 5, 1), task(5, 5, 1)], 1, &[0]);
    vec![
        packed(&raw_bits(0, &[bad], 0, &[])),
        encoded(&[bad], &[0]),
        packed(&raw_bits(2, &[task(5, 6, 1), task(5, 5, 1)], 1, &[0])),
        packed(&raw_bits(2, &[task(5, 5, 1), task(0, 5, 1)], 1, &[0])),
        packed(&raw_bits(2, &[task(5, 5, 1), task(5, 5, 1)], 3, &[0])),
        packed(&raw_bits(2, &[task(5, 5, 1), task(5, 5, 2)], 3, &[2])),
        packed(&raw_bits(3, &tasks(3), 3, &[3, 3, 3])),
        packed(&raw_bits(3, &tasks(3), 3, &[1, 1, 3])),
        packed(&(raw_bits(2, &tasks(2), 2, &[1, 1]) + "1")),
        packed(&(marked_bits(2, &suite(&tasks(2), &[chain(0, &[1, 1])])) + "1")),
        cut(raw_bits(1, &[task(131_071, 1, 1)], 1, &[0]), 2),
        cut(raw_bits(1, &[task(131_071, 1, 1)], 1, &[0]), 3),
        cut(raw_bits(1, &[task(5, 9, 1)], 1, &[0]), 4),
        cut(raw_bits(1, &[task(5, 9, 1)], 1, &[0]), 5),
        cut(same_ranks(), 11),
        cut(same_ranks(), 12),
        // The mark alone; an edition that is none; a chain count that is none; a limit that is over 4,000,000 as far as it goes.
        cut(marked_bits(3, &full_suite(1, 1)), 1),
        cut(marked_bits(3, &full_suite(1, 1)), 2),
        cut(marked_bits(2, &Memory { suite: 15, ..full_suite(1, 1) }), 7),
        cut(marked_bits(2, &Memory { suite: 15, ..full_suite(1, 1) }), 8),
        cut(marked_bits(2, &suite(&tasks(1), &[chain(4_194_303, &[0])])), 10),
        cut(marked_bits(2, &suite(&tasks(1), &[chain(4_194_303, &[0])])), 11),
    ]
    .into_iter()
    .chain(neighbouring_faults().iter().map(unjudged))
    .collect()
}

// Sheets in memory, judged and written

fn sheets_in_memory() -> Vec<Request> {
    let (t, c) = largest();
    let good = memory(&t, &c);
    let small = memory(&[task(5, 5, 1)], &[0]);
    // Unused places do not matter.
    let unused = Chain { limit: u32::MAX, length: 200, entries: [200; 16] };
    let mut noisy = Memory { tasks: [task(u32::MAX, 0, 1); 16], suite: 200, chains: [unused; 8], ..small };
    noisy.tasks[0] = small.tasks[0];
    noisy.chains[0].length = 1;
    noisy.chains[0].entries[0] = 0;
    let with_length = |s: Memory, length| {
        let mut s = s;
        s.chains[0].length = length;
        s
    };
    // The same of a sheet with one chain of its own limit: the others are unused.
    let mut noisy_suite = Memory { edition: 2, suite: 1, ..noisy };
    noisy_suite.chains[0].limit = 4_000_000;
    let mut sheets = vec![(Memory::default(), 100), (noisy, 7), (noisy_suite, 12), (with_length(Memory { count: 15, ..good }, 15), 100)];
    sheets.extend([0, 93, 94, 95, 100].map(|room| (good, room)));
    sheets.extend([0, 94, 177, 178, 179, 200].map(|room| (full_suite(16, 8), room)));
    sheets.extend([0, 7, 11, 12, 13].map(|room| (full_suite(1, 1), room)));
    sheets.extend(neighbouring_faults().into_iter().flat_map(|s| [(s, 0), (s, 178)]));
    for edition in [0, 1, 2, 3, 4, 15, 16, 17, 18, 31, 255] {
        sheets.push((Memory { edition, ..full_suite(3, 3) }, 178));
        sheets.push((Memory { edition, ..small }, 0));
    }
    sheets.extend([0, 6, 7, 8, 100].map(|room| (small, room)));
    for count in [0, 17, 255] {
        sheets.push((Memory { count, ..good }, 100));
        sheets.push((with_length(Memory { count, ..small }, 0), 0));
    }
    for length in [0, 17, 255] {
        sheets.push((with_length(good, length), 100));
        sheets.push((with_length(small, length), 0));
    }
    for period in [0, 1, 100_000, 100_001, 131_072, 131_077, u32::MAX] {
        for budget in [0, 1, 100_000, 100_001, 131_073, u32::MAX] {
            let mut s = good;
            s.tasks[15] = task(period, budget, 200);
            sheets.push((s, 94));
        }
    }
    for at in [1, 14, 15] {
        for from in [0, 13] {
            let mut s = good;
            s.tasks[at].rank = s.tasks[from].rank;
            sheets.push((s, 94));
        }
    }
    for entry in [0, 15, 16, 200, 255] {
        for at in [0, 15] {
            let mut s = good;
            s.chains[0].entries[at] = entry;
            sheets.extend([94, 93].map(|room| (s, room)));
        }
    }
    let judged_and_written = |(s, room): (Memory, usize)| {
        let sheet = Handed::Memory(s);
        [request(Judge, [0; 3], sheet.clone(), nothing_lent()), request(Write, [0; 3], sheet, buffer(room))]
    };
    sheets.into_iter().flat_map(judged_and_written).collect()
}

// Job tables: of more entries than are needed, exactly as many, one too few, and none

fn tables() -> Vec<Request> {
    let alone = |tasks: &[(u32, u32, u8)]| sheet(tasks, &[0]);
    let trio = alone(&[(8, 1, 1), (2, 1, 3), (4, 1, 2)]);
    let radio = alone(&[(20, 5, 1), (6, 1, 3), (12, 3, 2)]);
    let quartet = alone(&[(6, 1, 4), (6, 1, 3), (3, 1, 2), (6, 1, 1)]);
    let late = alone(&[(2, 1, 2), (3, 2, 1)]);
    let late_early_and_later = alone(&[(3, 1, 1), (10, 6, 2), (2, 1, 3)]);
    let pair = |a, b| alone(&[(a, 1, 2), (b, 1, 1)]);
    let sixteen = |budgets: [u32; 16]| {
        let periods = [40, 50, 60, 75, 80, 90, 100, 120, 144, 150, 180, 200, 225, 240, 300, 360];
        let ranks = [200, 3, 77, 255, 0, 19, 140, 101, 64, 9, 230, 55, 180, 33, 120, 91];
        alone(&(0..16).map(|i| (periods[i], budgets[i], ranks[i])).collect::<Vec<_>>())
    };
    let on_time = sixteen([1, 1, 1, 2, 2, 2, 2, 3, 3, 3, 4, 4, 4, 4, 5, 5]);
    let sixteen_late = sixteen([2, 3, 3, 4, 4, 5, 5, 6, 7, 7, 8, 8, 9, 9, 10, 11]);
    let asked = [
        (trio, 7, 9),
        (radio, 20, 7),
        (radio, 18, 0),
        (quartet, 8, 3),
        (alone(&[(5, 5, 1)]), 2, 8),
        (late, 7, 1),
        (late_early_and_later, 30, 1),
        (trio, 6, 9),
        (trio, 0, 9),
        (late, 4, 1),
        (alone(&[(5, 6, 1)]), 3, 6),
        (alone(&[]), 3, 6),
        (pair(1_000, 999), 1_999, 5),
        (pair(1_000, 999), 1_998, 5),
        (pair(1_000, 1_001), 20, 5),
        (pair(2, 16_382), 8_192, 5),
        (pair(2, 16_384), 20, 5),
        (on_time, 600, 4),
        (sixteen_late, 600, 4),
    ];
    asked.into_iter().map(|(s, room, old)| request(Responses, [0; 3], Handed::Memory(s), table(room, &[old]))).collect()
}

// Chains, some of which go far beyond H, and calls where two faults meet

fn chains() -> Vec<Request> {
    let radio = |length: usize| sheet(&[(20, 5, 1), (6, 1, 3), (12, 3, 2)], &[0, 1, 2][..length]);
    let trio = sheet(&[(8, 1, 1), (2, 1, 3), (4, 1, 2)], &[0, 1, 2]);
    let quartet = sheet(&[(6, 1, 4), (6, 1, 3), (3, 1, 2), (6, 1, 1)], &[2, 3]);
    let lone = sheet(&[(5, 5, 1)], &[0]);
    // A flag waits for the first task one tick less than its period, which may be nothing at all.
    let first_of = |period| sheet(&[(period, 1, 2)], &[0]);
    // Each of sixteen tasks of one period outranks the one before it: each hand-over waits for the next period.
    let straight: Vec<u8> = (0..16).collect();
    let ladder = |period| sheet(&(0..16).map(|rank| (period, 1, rank)).collect::<Vec<_>>(), &straight);
    let late = sheet(&[(2, 1, 2), (3, 2, 1)], &[0, 1]);
    let many = sheet(&[(2, 1, 2), (16_384, 1, 1)], &[0, 1]);
    let long = sheet(&[(1_000, 1, 2), (1_001, 1, 1)], &[0, 1]);
    let repeated = sheet(&[(1_000, 1, 2), (1_001, 1, 1)], &[0, 0]);
    let long_and_many = sheet(&[(1, 1, 3), (1_000, 1, 2), (1_001, 1, 1)], &[0, 1, 2]);
    let figures = [
        (Delay, 0, radio(3), 20),
        (Delay, 20, radio(3), 20),
        (Delay, 40, radio(3), 18),
        (Delay, 0, radio(2), 20),
        (Delay, 20, radio(2), 20),
        (Delay, 40, radio(2), 20),
        (Delay, 0, quartet, 20),
        (Delay, 3, quartet, 20),
        (Delay, 0, ladder(100_000), 16),
        (Figures, 0, radio(3), 20),
        (Figures, 0, radio(2), 18),
        (Figures, 0, trio, 7),
        (Figures, 0, trio, 20),
        (Figures, 0, quartet, 20),
        (Figures, 0, lone, 1),
        (Figures, 0, lone, 20),
        (Figures, 0, first_of(1), 20),
        (Figures, 0, first_of(100_000), 20),
        (Figures, 0, ladder(100_000), 20),
        (Figures, 0, ladder(16), 20),
    ];
    let margins = [
        (DefaultMargin, 0, radio(3), 20),
        (DefaultMargin, 0, first_of(500), 20),
        (DefaultMargin, 0, first_of(501), 20),
        (Figures, 0, first_of(1_000), 20),
        (Figures, 0, first_of(1_001), 20),
        (Margin, 40, radio(3), 20),
        (Margin, 39, radio(3), 20),
        (Margin, 38, radio(3), 20),
        (Margin, 0, radio(3), 20),
        (Margin, 1, first_of(1), 20),
        (Margin, 0, first_of(1), 20),
        (Margin, 100_000, first_of(100_000), 20),
        (Margin, 99_999, first_of(100_000), 20),
        (Margin, 4_000_000, radio(3), 20),
        (Margin, 0, ladder(100_000), 20),
        (DefaultMargin, 0, ladder(100_000), 20),
        (Margin, 4_000_001, radio(3), 20),
        (Margin, u32::MAX, radio(3), 20),
    ];
    let refusals = [
        (Delay, 1, radio(3), 20),
        (Delay, 60, radio(3), 20),
        (Delay, 80, radio(3), 20),
        (Delay, u32::MAX, radio(3), 20),
        (Delay, 0, radio(0), 20),
        (Delay, 1, repeated, 0),
        (Delay, 1, long, 0),
        (Delay, 0, long_and_many, 20),
        (Delay, 1, many, 0),
        (Delay, 1, late, 0),
        (Delay, 6, late, 20),
        (Delay, 0, late, 4),
        (Delay, 2, late, 5),
        (Margin, 4_000_001, repeated, 0),
        (Margin, 4_000_001, long_and_many, 0),
        (Margin, 4_000_001, many, 0),
        (Margin, 4_000_001, late, 4),
        (Margin, 4_000_001, late, 20),
        (Margin, 4_000_000, late, 4),
        (Margin, 0, late, 6),
        (DefaultMargin, 0, many, 0),
        (DefaultMargin, 0, late, 4),
        (DefaultMargin, 0, late, 20),
        (Figures, 0, repeated, 0),
        (Figures, 0, long, 0),
        (Figures, 0, long_and_many, 0),
        (Figures, 0, many, 0),
        (Figures, 0, radio(3), 17),
        (Figures, 0, late, 4),
        (Figures, 0, late, 20),
    ];
    let asked = figures.into_iter().chain(margins).chain(refusals);
    asked.map(|(call, number, s, room)| request(call, [number, 1, 0], Handed::Memory(s), table(room, &[7]))).collect()
}

// The quick bound without a table: odd periods, values that just fit, long climbs, the ends of ranges, and the order of its refusals

/// Periods and budgets of sixteen tasks, the first ranked highest, for which the searches take the most steps that were found, of a sheet
/// that is answered: the first tasks leave so little over that a value rises slowly, and stops just before the period.
pub const LONGEST_CLIMB: [(u32, u32); 16] = [
    (3, 1), (2, 1), (7, 1), (43, 1), (2_426, 1), (99_998, 3), (100_000, 2), (100_000, 1), (100_000, 1), (100_000, 1), (100_000, 1),
    (99_999, 1), (99_999, 1), (100_000, 1), (100_000, 1), (100_000, 1),
];

/// The same of any sheet: the first task leaves nothing over, and each step adds only the budgets of the others.
pub const LONGEST_LATE_CLIMB: [(u32, u32); 16] = {
    let mut tasks = [(100_000, 1); 16];
    tasks[0] = (1, 1);
    tasks
};

/// Tasks of which each ranks below the one before it, with a chain of all that begins with the lowest.
pub fn falling(tasks: &[(u32, u32)]) -> Memory {
    let tasks: Vec<_> = tasks.iter().zip((0..16).rev()).map(|(&(period, budget), rank)| (period, budget, rank)).collect();
    sheet(&tasks, &(0..tasks.len() as u8).rev().collect::<Vec<_>>())
}

fn without_a_table() -> Vec<Request> {
    let odd = |a, b, c, chain: &[u8]| sheet(&[(997, a, 3), (1_009, b, 2), (1_013, c, 1)], chain);
    let radio = [(20, 5, 1), (6, 1, 3), (12, 3, 2)];
    let pair = |a, b| sheet(&[(a, 1, 2), (b, 1, 1)], &[0]);
    let alike = |period, budget| falling(&[(period, budget); 16]);
    // Primes below 100,000: each pair of neighbours adds the most that it can.
    let primes = [99_991, 99_989, 99_971, 99_961, 99_929, 99_923, 99_907, 99_901, 99_881, 99_877, 99_871, 99_859, 99_839, 99_833, 99_829, 99_823];
    let sheets = vec![
        odd(100, 200, 300, &[0, 1, 2]),
        odd(100, 200, 300, &[2, 1, 0]),
        odd(100, 200, 300, &[1]),
        odd(1, 1, 1, &[2, 0]),
        odd(300, 350, 347, &[2, 1, 0]),
        odd(300, 350, 348, &[2, 1, 0]),
        odd(12, 3, 983, &[2, 0, 1]),
        odd(12, 3, 984, &[2, 0, 1]),
        odd(997, 1, 1, &[0]),
        sheet(&[(8, 1, 1), (2, 1, 3), (4, 1, 2)], &[0, 1, 2]),
        sheet(&radio, &[0, 1, 2]),
        sheet(&radio, &[0, 1]),
        sheet(&[(6, 1, 4), (6, 1, 3), (3, 1, 2), (6, 1, 1)], &[2, 3]),
        sheet(&[(5, 5, 1)], &[0]),
        sheet(&[(5, 6, 1)], &[0]),
        sheet(&[(2, 1, 2), (3, 2, 1)], &[0]),
        sheet(&[(2, 1, 2), (4, 2, 1)], &[1, 0]),
        pair(1_000, 999),
        pair(1_000, 1_001),
        pair(2, 16_382),
        pair(2, 16_384),
        sheet(&[(1, 1, 0)], &[0]),
        sheet(&[(1, 1, 255), (100_000, 1, 0)], &[1, 0]),
        sheet(&[(100_000, 100_000, 255)], &[0]),
        sheet(&[(100_000, 1, 255)], &[0]),
        alike(100_000, 1),
        alike(100_000, 6_250),
        alike(100_000, 6_251),
        alike(100_000, 100_000),
        alike(99_999, 99_999),
        falling(&primes.map(|period| (period, 1))),
        falling(&primes.map(|period| (period, 6_238))),
        falling(&primes.map(|period| (period, 6_240))),
        falling(&LONGEST_CLIMB),
        falling(&LONGEST_LATE_CLIMB),
        // A field before 15, and of two late tasks the greater-ranked, wherever it stands.
        sheet(&[(2, 1, 2), (3, 2, 1)], &[0, 0]),
        sheet(&[(2, 1, 2), (3, 2, 2)], &[0]),
        sheet(&[(3, 1, 2), (10, 6, 1), (2, 2, 3)], &[0]),
        sheet(&[(10, 6, 1), (3, 1, 2), (2, 2, 3)], &[0]),
        sheet(&[(2, 2, 3), (10, 6, 1), (3, 1, 2)], &[1]),
        sheet(&[(1, 1, 3), (1_000, 1, 2), (1_001, 1, 1)], &[0, 1, 2]),
    ];
    sheets.into_iter().map(|s| request(QuickBound, [0, 1, 0], Handed::Memory(s), nothing_lent())).collect()
}

// Several chains: each by its number, numbers that the sheet lacks, and 17 beside the refusals before and after it

/// Radio's tasks with its two chains and two more, the limits of which are the worst of each.
fn radio_suite() -> Memory {
    let radio = [task(20, 5, 1), task(6, 1, 3), task(12, 3, 2)];
    suite(&radio, &[chain(39, &[0, 1, 2]), chain(32, &[0, 1]), chain(0, &[2, 0]), chain(4_000_000, &[1])])
}

fn chain_numbers() -> Vec<Request> {
    let late = |chains: &[Chain]| suite(&[task(2, 1, 2), task(3, 2, 1)], chains);
    let both = [chain(7, &[0]), chain(8, &[1, 0])];
    let long = suite(&[task(1_000, 1, 2), task(1_001, 1, 1)], &both);
    let many = suite(&[task(2, 1, 2), task(16_384, 1, 1)], &both);
    let old = memory(&[task(20, 5, 1), task(6, 1, 3), task(12, 3, 2)], &[0, 1, 2]);
    // An old sheet has chain 1 alone, whatever its count says.
    let counted = Memory { suite: 8, ..old };
    let bad = Memory { suite: 9, ..radio_suite() };
    let eight = suite(&[task(8, 1, 1), task(2, 1, 3), task(4, 1, 2)], &[0, 1, 2, 3, 4, 5, 6, 7].map(|c| chain(c, &[(c % 3) as u8])));
    let sheets = [radio_suite(), old, counted, bad, eight, late(&both), long, many, full_suite(16, 8)];
    let numbers = |s: &Memory| {
        let count = s.chain_count();
        let mut numbers = vec![0, 1, 2, count, count.wrapping_add(1), 128, 254, 255];
        numbers.extend(1..=count.min(9));
        numbers.sort();
        numbers.dedup();
        numbers
    };
    let mut requests = Vec::new();
    for s in sheets {
        for number in numbers(&s) {
            let asked = |call, first, lent| request(call, [first, number.into(), 0], Handed::Memory(s), lent);
            requests.push(asked(Numbered, 0, nothing_lent()));
            requests.push(asked(QuickBound, 0, nothing_lent()));
            // A release and a limit that are allowed and one that is not; a table that is large enough and one that is not.
            let calls = [(Delay, 0, 20), (Delay, 12, 20), (Delay, 1, 4), (Margin, 39, 20), (Margin, 4_000_001, 4), (DefaultMargin, 0, 20)];
            requests.extend(calls.map(|(call, first, room)| asked(call, first, table(room, &[7]))));
            requests.extend([20, 4].map(|room| asked(Figures, 0, table(room, &[7]))));
        }
        requests.extend([ChainCount, QuickSuite].map(|call| request(call, [0; 3], Handed::Memory(s), nothing_lent())));
        requests.extend([20, 4].map(|room| request(Suite, [0; 3], Handed::Memory(s), table(room, &[7]))));
    }
    requests
}

// Conversions there and back: unchanged sheets, 18 for each of its grounds and for both, fields before it, and unused places

fn conversions() -> Vec<Request> {
    let radio = [task(20, 5, 1), task(6, 1, 3), task(12, 3, 2)];
    let old = memory(&radio, &[0, 1, 2]);
    let one = |limit| suite(&radio, &[chain(limit, &[0, 1, 2])]);
    let two = |limit| suite(&radio, &[chain(limit, &[0, 1, 2]), chain(1_000, &[1])]);
    let noise = Chain { limit: 77, length: 3, entries: [9; 16] };
    let mut noisy = Memory { suite: 5, chains: [noise; 8], ..old };
    noisy.chains[0] = Chain { limit: 55, ..old.chains[0] };
    noisy.tasks[9] = task(1, 2, 3);
    let noisy_suite = Memory { edition: 2, suite: 1, chains: [Chain { limit: 1_000, ..old.chains[0] }, noise, noise, noise, noise, noise, noise, noise], ..noisy };
    let mut sheets = vec![old, noisy, noisy_suite, one(1_000), one(999), one(1_001), one(500), one(0), one(4_000_000), one(4_000_001), two(1_000), two(999)];
    sheets.extend([full_suite(16, 8), full_suite(16, 1), Memory::default()]);
    sheets.extend([0, 3, 15, 255].map(|edition| Memory { edition, ..one(1_000) }));
    sheets.extend([0, 9, 255].map(|suite| Memory { suite, ..two(999) }));
    // H and J over their limits, and a late task, are no matter here.
    sheets.push(memory(&[task(1, 1, 3), task(1_000, 1, 2), task(1_001, 1, 1)], &[0, 1, 2]));
    sheets.push(suite(&[task(2, 1, 2), task(3, 2, 1)], &[chain(1_000, &[1])]));
    let mut repeated = two(999);
    repeated.chains[1].length = 2;
    repeated.chains[1].entries[1] = 1;
    sheets.push(repeated);
    sheets.into_iter().flat_map(|s| [ToSecond, ToFirst].map(|call| request(call, [0; 3], Handed::Memory(s), nothing_lent()))).collect()
}

// Runs of the tell-tale's calls: refused on a fresh record, the older counter kept, across the rollover, on both sides of the limit, up to the
// count that stays, and no calls

fn runs() -> Vec<Request> {
    let run = |readings, calls: &[telltale::Call]| request(Telltale, [readings, 0, 0], Handed::Bytes(run_bytes(calls)), nothing_lent());
    let half = 1 << 31;
    vec![
        run(0, &[]),
        run(0, &[Stamp(5), Begin(10), Begin(30), Stamp(45), Stamp(50), Begin(60), Stamp(62)]),
        run(0, &[Begin(u32::MAX - 5), Stamp(4), Begin(u32::MAX), Stamp(0), Begin(0), Stamp(0)]),
        run(0, &[Begin(5), Stamp(half + 5), Begin(half + 5), Stamp(half + 4), Stamp(half + 4)]),
        run(0, &[Begin(half + 5), Stamp(5), Stamp(half + 4), Stamp(4), Begin(0), Stamp(u32::MAX), Stamp(3)]),
        run(65_533, &[Begin(7), Stamp(8), Begin(8), Stamp(10), Begin(10), Stamp(9), Stamp(10), Begin(10), Stamp(11)]),
        run(65_536, &[Stamp(0), Begin(1), Stamp(1)]),
    ]
}

// Two sheets: each field of each kind of task changed, a task more or less, another chain, edition or limit, and each refused in its turn

fn comparisons() -> Vec<Request> {
    let base: Vec<Task> = vec![task(20, 5, 10), task(6, 1, 30), task(12, 3, 20), task(60, 1, 15), task(60, 2, 9)];
    let one = |tasks: &[Task], entries: &[u8]| suite(tasks, &[chain(1_000, entries)]);
    let with = |i: usize, t: Task| {
        let mut tasks = base.clone();
        tasks.splice(i..(i + 1).min(tasks.len()), [t]);
        one(&tasks, &[0, 1, 2])
    };
    let old = one(&base, &[0, 1, 2]);
    let late = with(4, task(60, 60, 9));
    let others = [
        old,
        with(4, task(40, 3, 0)),
        with(5, task(7, 1, 8)),
        with(5, task(60, 1, 11)),
        one(&base[..4], &[0, 1, 2]),
        one(&base[..3], &[0, 1, 2]),
        with(2, task(15, 3, 20)),
        with(0, task(20, 4, 10)),
        with(1, task(6, 1, 31)),
        with(3, task(60, 1, 16)),
        with(4, task(60, 2, 11)),
        one(&base, &[0, 2, 1]),
        one(&base, &[0, 1]),
        suite(&base, &[chain(5, &[0, 1, 2]), chain(6, &[3])]),
        memory(&base, &[0, 1, 2]),
        late,
        with(4, task(997, 1, 9)),
        with(0, task(20, 21, 10)),
    ];
    let compared = |old: Memory, new: Memory| request(Compare, [0; 3], Handed::Memory(old), Lent::Bytes(fields(&new)));
    let back = [others[3], others[14], late];
    let pairs = others.map(|s| (old, s)).into_iter().chain(back.map(|s| (s, old))).chain([(late, with(0, task(20, 21, 10)))]);
    pairs.map(|(a, b)| compared(a, b)).collect()
}

// Every call on every sample, and on sheets in memory

fn samples() -> Vec<Request> {
    let mut names: Vec<_> = std::fs::read_dir(concat!(env!("CARGO_MANIFEST_DIR"), "/../samples"))
        .expect("the samples are there")
        .map(|entry| entry.unwrap().path())
        .filter(|path| path.extension().map_or(false, |x| x == "sheet"))
        .collect();
    names.sort();
    let mut noisy = sheet(&[(20, 5, 1), (6, 1, 3), (12, 3, 2)], &[2, 1]);
    noisy.chains[0].entries = [2, 1, 9, 9, 9, 9, 9, 9, 9, 9, 9, 9, 9, 9, 9, 255];
    let bytes = names.iter().map(|path| Handed::Bytes(std::fs::read(path).unwrap()));
    let in_memory = [noisy, Memory::default()].into_iter().chain(bad_fields());
    let sheets = bytes.chain(in_memory.map(Handed::Memory));
    sheets.flat_map(|s| every_call(&s)).collect()
}

/// The table has three entries more than are needed, or twenty where none are. A large one comes back whole, so it is lent to few calls.
fn every_call(sheet: &Handed) -> Vec<Request> {
    let jobs = sheet.memory().and_then(|s| sizes(&s).ok()).map_or(17, |z| z.jobs);
    let with = |call, number, lent| request(call, [number, 1, 0], sheet.clone(), lent);
    let with_table = |call, number| with(call, number, table(jobs as usize + 3, &[7, 8, 9]));
    let mut requests = match sheet {
        Handed::Bytes(_) => vec![with(Read, 0, nothing_lent())],
        Handed::Memory(_) => vec![],
    };
    requests.extend([with(Judge, 0, nothing_lent()), with(Write, 0, buffer(178)), with(Sizes, 0, nothing_lent())]);
    requests.push(with_table(Suite, 0));
    if jobs <= 2_000 {
        requests.extend([with_table(TaskResponses, 0), with_table(Delay, 0), with_table(Margin, 8), with_table(Figures, 0)]);
    }
    if jobs <= 1_000 {
        requests.extend([with_table(Responses, 0), with_table(Delay, 20), with_table(DefaultMargin, 0)]);
    }
    requests.extend([
        with(QuickBound, 0, nothing_lent()),
        with(ToSecond, 0, nothing_lent()),
        with(ToFirst, 0, nothing_lent()),
    ]);
    if let Some(Ok(worked)) = sheet.memory().map(|s| responses(&s, &mut vec![0; jobs as usize])) {
        requests.push(request(Greatest, [0; 3], no_sheet(), table(jobs as usize, &worked.responses.concat())));
    }
    requests
}
