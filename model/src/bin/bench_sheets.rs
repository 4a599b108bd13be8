//! The sheets of the benchmark, written into the folder that is named, with the requests of the probe that are measured, and a line
//! for each: group, name, n, H, J and chain length; in the group climb n, the steps of all searches and the chain length, in the group log n,
//! the chain length and the records of the log beside the sheet.

use model::log::encoded;
use model::nights::true_records;
use model::probe::{Call, Handed, Lent, Request};
use model::random::Random;
use model::recurrence::climb;
use model::schedule::hyperperiod;
use model::sheet::{chain, memory, suite, unjudged, Memory, Task};
use model::vectors::{falling, LONGEST_CLIMB, LONGEST_LATE_CLIMB};
use std::path::PathBuf;

struct Sheets {
    folder: PathBuf,
}

impl Sheets {
    fn add(&self, group: &str, name: &str, tasks: &[Task], chain: &[u8]) {
        self.add_sheet(group, name, &memory(tasks, chain));
    }

    fn add_sheet(&self, group: &str, name: &str, s: &Memory) {
        let tasks = s.tasks();
        let h = hyperperiod(tasks).expect("H is within its limit");
        let jobs: u32 = tasks.iter().map(|t| h / t.period).sum();
        let sheet = unjudged(s);
        let table = request(Call::Responses, &sheet, jobs);
        self.write(name, ".read", &of_no_call(&table));
        self.write(name, ".table", &table);
        self.write(name, ".figures", &request(Call::Figures, &sheet, jobs));
        self.write(name, "", &sheet);
        println!("{group} {name} {} {h} {jobs} {}", tasks.len(), chain_lengths(s));
    }

    /// A sheet whose hyperperiod may be out of reach: only the bound without a table is asked for.
    fn add_climb(&self, name: &str, s: &Memory) {
        let tasks = s.tasks();
        let steps: usize = (0..tasks.len()).map(|i| climb(tasks, i).len()).sum();
        let sheet = unjudged(s);
        let quick = request(Call::QuickBound, &sheet, 0);
        self.write(name, ".read", &of_no_call(&quick));
        self.write(name, ".quick", &quick);
        self.write(name, "", &sheet);
        println!("climb {name} {} {steps} {}", tasks.len(), chain_lengths(s));
    }

    /// A log of a night with demands by chance, across the rollover, and one of no records beside it.
    fn add_log(&self, name: &str, s: &Memory, records: usize) {
        let night = true_records(&mut Random::new(4), s.tasks(), records);
        self.write(name, ".log", &encoded(0u32.wrapping_sub(night[records / 2].tick), &night));
        self.write(name, ".no-log", &encoded(0, &[]));
        self.write(name, "", &unjudged(s));
        println!("log {name} {} {} {records}", s.tasks().len(), chain_lengths(s));
    }

    fn write(&self, name: &str, part: &str, bytes: &[u8]) {
        std::fs::write(self.folder.join(format!("{name}.sheet{part}")), bytes).expect("the folder can be written to");
    }
}

/// The length of an old sheet's chain, or how many chains of which length.
fn chain_lengths(s: &Memory) -> String {
    match s.edition {
        1 => s.chain(1).len().to_string(),
        _ => format!("{}x{}", s.suite, s.chain(1).len()),
    }
}

/// A call on the first chain, with a table of zeros that has as many entries as it needs.
fn request(call: Call, sheet: &[u8], jobs: u32) -> Vec<u8> {
    let lent = Lent::Table { room: jobs as usize, words: vec![] };
    Request { call, numbers: [0, 1, 0], sheet: Handed::Bytes(sheet.to_vec()), log: vec![], lent }.bytes()
}

/// The same request with a number that is no call's, for which the probe reads the sheet and answers nothing.
fn of_no_call(request: &[u8]) -> Vec<u8> {
    [&u32::MAX.to_be_bytes(), &request[4..]].concat()
}

/// Tasks of these periods, a shorter one ranked higher and of equal ones the later, that use a 25th of the processor each.
fn rate_monotonic(periods: &[u32]) -> Vec<Task> {
    let longer = |i: usize, j: usize| (periods[j], i) > (periods[i], j);
    let rank = |i: usize| (0..periods.len()).filter(|&j| j != i && longer(i, j)).count() as u8;
    (0..periods.len()).map(|i| Task { period: periods[i], budget: (periods[i] / 25).max(1), rank: rank(i) }).collect()
}

/// Tasks 0 to n − 1 in order.
fn straight(n: usize) -> Vec<u8> {
    (0..n as u8).collect()
}

fn main() {
    let folder = PathBuf::from(std::env::args().nth(1).expect("a folder is named"));
    let sheets = Sheets { folder };
    let task = |period, budget, rank| Task { period, budget, rank };
    let radio = [task(20, 5, 1), task(6, 1, 3), task(12, 3, 2)];
    sheets.add("small", "lone", &[task(5, 5, 1)], &[0]);
    sheets.add("small", "radio", &radio, &[0, 1, 2]);
    let small: Vec<u32> = (0..16).map(|i| [4_000, 5_000, 8_000, 10_000][i % 4]).collect();
    sheets.add("small", "sixteen", &rate_monotonic(&small), &straight(16));

    let full = [320, 625, 1_000, 1_250, 2_000, 3_125, 5_000, 6_250, 8_000, 10_000, 12_500, 15_625, 20_000, 31_250, 50_000, 62_500];
    let back: Vec<u8> = (0..16).rev().collect();
    let mixed: Vec<u8> = (0..16).map(|i| (i * 7 + 2) % 16).collect();
    let dense = [1_386, 1_430, 1_456, 1_540, 1_560, 1_638, 1_680, 1_820, 1_848, 1_980, 2_002, 2_145, 2_184, 2_310, 2_340, 2_520];
    let repeated: Vec<u32> = (0..16).map(|i| if i < 14 { [1_600, 2_000][i % 2] } else { [15_625, 20_000][i % 2] }).collect();
    let pair = |period| vec![task(2, 1, 2), task(period, 1, 1)];
    sheets.add("heavy", "pair", &pair(16_382), &[0, 1]);
    sheets.add("heavy", "full", &rate_monotonic(&full), &straight(16));
    sheets.add("heavy", "full-back", &rate_monotonic(&full), &back);
    sheets.add("heavy", "full-mixed", &rate_monotonic(&full), &mixed);
    sheets.add("heavy", "dense", &rate_monotonic(&dense), &straight(16));
    sheets.add("heavy", "repeated", &rate_monotonic(&repeated), &straight(16));

    for jobs in [1_000, 2_000, 4_000, 8_192] {
        sheets.add("jobs", &format!("jobs-{jobs}"), &pair(2 * (jobs - 1)), &[0, 1]);
    }
    let different: [&[u32]; 5] = [
        &[20, 81_900],
        &[400, 625, 40_000, 62_500],
        &[800, 1_000, 1_600, 2_000, 3_125, 5_000, 8_000, 31_250],
        &[1_000, 1_250, 1_600, 2_000, 2_500, 3_125, 6_250, 8_000, 15_625, 20_000, 40_000, 50_000],
        &[1_000, 1_250, 1_600, 2_000, 3_125, 4_000, 6_250, 8_000, 10_000, 12_500, 20_000, 25_000, 31_250, 40_000, 50_000, 100_000],
    ];
    for periods in different {
        sheets.add("tasks", &format!("tasks-{}", periods.len()), &rate_monotonic(periods), &[0, 1]);
    }
    for n in [2, 4, 8, 16] {
        let mut tasks: Vec<Task> = (1..n).map(|i| task(20, 1, i as u8)).collect();
        tasks.push(task(20 * (4_095 / (n - 1)), 1, 0));
        sheets.add("alike", &format!("alike-{n}"), &tasks, &[0, 1]);
    }
    for length in [1, 2, 4, 8, 16] {
        sheets.add("chain", &format!("chain-{length}"), &rate_monotonic(&full), &straight(length));
    }
    // Chains from slow tasks to fast ones, as a stamp, a display and a bell have them, then of all tasks.
    for count in [1, 2, 4, 8] {
        let parts: Vec<_> = (0..count).map(|c| chain(100_000, &[15 - c, 11 - c, 7 - c])).collect();
        sheets.add_sheet("suite", &format!("suite-{count}"), &suite(&rate_monotonic(&full), &parts));
    }
    for count in [1, 8] {
        let parts: Vec<_> = (0..count).map(|c| chain(4_000_000, &mixed.iter().map(|e| (e + c) % 16).collect::<Vec<_>>())).collect();
        sheets.add_sheet("suite", &format!("suite-of-all-{count}"), &suite(&rate_monotonic(&full), &parts));
    }
    let short = [10, 16, 20, 25, 40, 50, 80, 100, 125, 200, 250, 400, 500, 625, 1_000, 1_250];
    for scale in [1, 10, 80] {
        let tasks: Vec<Task> = rate_monotonic(&short).iter().map(|t| task(t.period * scale, t.budget * scale, t.rank)).collect();
        sheets.add("hyperperiod", &format!("hyperperiod-{}", 10_000 * scale), &tasks, &straight(16));
    }

    let odd = [task(997, 100, 3), task(1_009, 200, 2), task(1_013, 300, 1)];
    sheets.add_climb("odd", &memory(&odd, &[2, 1, 0]));
    sheets.add_climb("full-odd", &memory(&rate_monotonic(&full.map(|period| period - 1)), &straight(16)));
    sheets.add_climb("longest", &falling(&LONGEST_CLIMB));
    sheets.add_climb("longest-late", &falling(&LONGEST_LATE_CLIMB));

    for records in [1_000, 2_000, 4_095] {
        sheets.add_log(&format!("radio-{records}"), &memory(&radio, &[0, 1, 2]), records);
    }
    sheets.add_log("lone-4095", &memory(&[task(5, 5, 1)], &[0]), 4_095);
    sheets.add_log("full-4095", &memory(&rate_monotonic(&full), &straight(16)), 4_095);
    sheets.add_log("full-back-4095", &memory(&rate_monotonic(&full), &back), 4_095);
    sheets.add_log("full-short-4095", &memory(&rate_monotonic(&full), &[0]), 4_095);
}
