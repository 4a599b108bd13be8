//! The sample sheets of both editions, document 01's, one for each refusal and some more, with the report and the quick bound of each; what
//! is said of some pairs of them; logs of Radio's clock with what a replay prints of each; and what the programs are run on.

use model::log::{encoded as log_of, fields, raw_bits as log_bits, Fields, Record};
use model::nights::{true_records, MOST};
use model::random::Random;
use model::replay::first_events;
use model::report::{bound, compare, converted, replayed, report};
use model::sheet::{chain, encoded, marked_bits, packed, raw_bits, suite, Memory, Task};
use model::store;

fn tasks(list: &[(u32, u32, u8)]) -> Vec<Task> {
    list.iter().map(|&(period, budget, rank)| Task { period, budget, rank }).collect()
}

/// Logs of Radio's clock: of true nights, with a lie in them, and one or more for each refusal.
fn radio_logs(radio: &[Task]) -> Vec<(&'static str, Vec<u8>)> {
    let full = first_events(radio, 40, |i, _| radio[i].budget);
    let night = true_records(&mut Random::new(9), radio, 100);
    let lied = |lie: fn(&mut Vec<Record>)| {
        let mut records = full.clone();
        lie(&mut records);
        log_of(1_000, &records)
    };
    let spoilt = |count: u32, spoil: fn(&mut Vec<Fields>)| {
        let mut all: Vec<Fields> = full[..4].iter().map(|r| fields(1_000, r)).collect();
        spoil(&mut all);
        packed(&log_bits(1_000, count, &all))
    };
    let whole = spoilt(4, |_| ());
    vec![
        ("night", log_of(2_586_000, &night)),
        ("full", log_of(0, &full)),
        ("two", log_of(u32::MAX, &full[..2])),
        // The counter passes its top value between the ticks 29 and 30, on a finish.
        ("rollover", log_of(0u32.wrapping_sub(29), &full)),
        ("empty", log_of(60, &[])),
        ("longest", log_of(0, &true_records(&mut Random::new(7), radio, MOST))),
        // Task 2 finishes its first job a tick past its budget, and everything after it is a tick later.
        ("breaks", lied(|all| all[3..].iter_mut().for_each(|r| r.tick += 1))),
        ("breaks-at-once", lied(|all| all.iter_mut().for_each(|r| r.tick += 1))),
        ("breaks-in-the-middle", lied(|all| all[30].tick += 1)),
        // A finish and a start on one tick, in the wrong order.
        ("breaks-on-one-tick", lied(|all| all.swap(1, 2))),
        ("refused-1-cut-short", whole[..whole.len() - 1].to_vec()),
        ("refused-1-no-bytes", vec![]),
        ("refused-1-count", spoilt(5, |_| ())),
        ("refused-9-padding", packed(&format!("{}0010", log_bits(1_000, 0, &[])))),
        ("refused-9-surplus", [whole, vec![0]].concat()),
        ("refused-9-count", spoilt(3, |_| ())),
        ("refused-19-index", spoilt(4, |all| all[2].task = 3)),
        ("refused-20-start", spoilt(4, |all| all[1].kind = 0)),
        ("refused-20-finish", spoilt(4, |all| all[2].kind = 1)),
        ("refused-21-order", spoilt(4, |all| all[2].counter -= 1)),
        ("refused-21-difference", spoilt(4, |all| all[3].counter += 1 << 31)),
        ("refused-21-time", spoilt(4, |all| (1..4).for_each(|r| all[r].counter += r as u32 * 750_000_000))),
    ]
}

fn main() {
    let trio = tasks(&[(8, 1, 1), (2, 1, 3), (4, 1, 2)]);
    let radio = tasks(&[(20, 5, 1), (6, 1, 3), (12, 3, 2)]);
    let quartet = tasks(&[(6, 1, 4), (6, 1, 3), (3, 1, 2), (6, 1, 1)]);
    let radio_bits = raw_bits(3, &radio, 3, &[0, 1, 2]);
    let lone = tasks(&[(5, 5, 1)]);
    let pair = |a, b| tasks(&[(a, 1, 2), (b, 1, 1)]);
    let sixteen: Vec<(u32, u32, u8)> = (0..16).map(|i| ([4_000, 5_000, 8_000, 10_000][i % 4], 100 + 7 * i as u32, (i * 7 % 16) as u8)).collect();
    let full: Vec<u8> = (0..16).map(|i| (i * 3 + 5) % 16).collect();
    // Radio's tasks, and two of lower rank that show the reading and ring the bell.
    let clock = tasks(&[(20, 5, 3), (6, 1, 5), (12, 3, 4), (30, 3, 2), (60, 4, 1)]);
    let parts = [chain(60, &[0, 1, 2]), chain(100, &[0, 1, 3]), chain(75, &[0, 4])];
    // Radio's tasks with room between the ranks, and a task more behind a chain 0 1 2.
    let spread = tasks(&[(20, 5, 10), (6, 1, 30), (12, 3, 20)]);
    let with = |list: &[Task], more| suite(&[list, &tasks(&[more])[..]].concat(), &[chain(1_000, &[0, 1, 2])]);
    let second = |s: &Memory| packed(&marked_bits(2, s));
    let spoilt = |spoil: fn(&mut Memory)| {
        let mut s = suite(&clock, &parts);
        spoil(&mut s);
        second(&s)
    };
    let eight: Vec<_> = (0..8).map(|c| chain(100_000 + 50_000 * u32::from(c), &full.iter().map(|e| (e + c) % 16).collect::<Vec<_>>())).collect();
    let sheets: Vec<(&str, Vec<u8>)> = vec![
        ("trio", encoded(&trio, &[0, 1, 2])),
        ("radio", encoded(&radio, &[0, 1, 2])),
        ("radio-short", encoded(&radio, &[0, 1])),
        ("quartet", encoded(&quartet, &[2, 3])),
        ("lone", encoded(&lone, &[0])),
        ("long-hyperperiod", encoded(&pair(1_000, 999), &[0])),
        ("many-jobs", encoded(&pair(2, 16_382), &[0])),
        ("sixteen", encoded(&tasks(&sixteen), &full)),
        ("every-tick", encoded(&tasks(&[(1, 1, 1)]), &[0])),
        ("odd", encoded(&tasks(&[(997, 100, 3), (1_009, 200, 2), (1_013, 300, 1)]), &[2, 1, 0])),
        ("odd-just-fits", encoded(&tasks(&[(997, 12, 3), (1_009, 3, 2), (1_013, 983, 1)]), &[2, 0, 1])),
        ("odd-late", encoded(&tasks(&[(997, 12, 3), (1_009, 3, 2), (1_013, 984, 1)]), &[2, 0, 1])),
        ("slow", encoded(&tasks(&[(2_000, 1_500, 2), (100_000, 20_000, 1)]), &[1, 0])),
        ("refused-1-cut-short", encoded(&radio, &[0, 1, 2])[..9].to_vec()),
        ("refused-1-empty", vec![]),
        ("refused-2-count", packed(&raw_bits(17, &[], 1, &[0]))),
        ("refused-3-period", encoded(&tasks(&[(100_001, 1, 1)]), &[0])),
        ("refused-4-budget", encoded(&tasks(&[(5, 6, 1)]), &[0])),
        ("refused-4-mistyped", encoded(&tasks(&[(20, 5, 1), (6, 9, 3), (12, 3, 2)]), &[0, 1, 2])),
        ("refused-5-rank", encoded(&tasks(&[(5, 1, 3), (7, 1, 3)]), &[0])),
        ("refused-6-chain-length", packed(&raw_bits(1, &lone, 2, &[0, 0]))),
        ("refused-7-entry", encoded(&radio, &[0, 3])),
        ("refused-8-repeat", encoded(&radio, &[0, 1, 0])),
        ("refused-9-surplus", [encoded(&lone, &[0]), vec![0]].concat()),
        ("refused-9-padding", packed(&format!("{radio_bits}0010"))),
        ("refused-9-padding-and-surplus", packed(&format!("{radio_bits}000100000001"))),
        ("refused-10-hyperperiod", encoded(&pair(1_000, 1_001), &[0])),
        ("refused-11-jobs", encoded(&pair(2, 16_384), &[0])),
        ("refused-15-late", encoded(&pair(2, 3).iter().map(|t| Task { budget: t.period - 1, ..*t }).collect::<Vec<_>>(), &[0])),
        ("suite", second(&suite(&clock, &parts))),
        ("suite-of-eight", second(&suite(&tasks(&sixteen), &eight))),
        ("lone-edition-2", second(&suite(&lone, &[chain(1_000, &[0])]))),
        ("radio-edition-2", second(&suite(&radio, &[chain(1_000, &[0, 1, 2])]))),
        ("radio-own-limit", second(&suite(&radio, &[chain(39, &[0, 1, 2])]))),
        ("radio-display", second(&with(&radio, (40, 9, 0)))),
        ("radio-display-late", second(&with(&radio, (40, 40, 0)))),
        ("radio-budget", second(&suite(&tasks(&[(20, 5, 1), (6, 1, 3), (12, 2, 2)]), &[chain(1_000, &[0, 1, 2])]))),
        ("radio-other-chain", second(&suite(&radio, &[chain(1_000, &[0, 2, 1])]))),
        ("spread", second(&suite(&spread, &[chain(1_000, &[0, 1, 2])]))),
        ("spread-between", second(&with(&spread, (60, 1, 15)))),
        ("spread-above", second(&suite(&tasks(&[(20, 5, 10), (6, 1, 40), (12, 3, 20)]), &[chain(1_000, &[0, 1, 2])]))),
        ("suite-fewer", second(&suite(&clock[..4], &[parts[0], chain(7, &[3])]))),
        ("refused-1-suite-cut-short", second(&suite(&clock, &parts))[..30].to_vec()),
        ("refused-6-suite", spoilt(|s| s.chains[2].length = 6)),
        ("refused-7-suite", spoilt(|s| s.chains[1].entries[2] = 5)),
        ("refused-8-suite", spoilt(|s| s.chains[1].entries[2] = 0)),
        ("refused-9-suite", [second(&suite(&clock, &parts)), vec![0]].concat()),
        ("refused-10-suite", second(&suite(&pair(1_000, 1_001), &[chain(5, &[0]), chain(5, &[1])]))),
        ("refused-13-limit", spoilt(|s| s.chains[1].limit = 4_000_001)),
        ("refused-15-suite", second(&suite(&tasks(&[(2, 1, 2), (3, 2, 1)]), &[chain(5, &[0]), chain(5, &[1])]))),
        ("refused-16-edition", packed(&marked_bits(3, &suite(&clock, &parts)))),
        ("refused-16-edition-1", packed(&marked_bits(1, &suite(&clock, &parts)))),
        ("refused-17-no-chain", spoilt(|s| s.suite = 0)),
        ("refused-17-nine-chains", spoilt(|s| s.suite = 9)),
    ];
    // An old and a new sheet.
    let pairs = [
        ("radio-edition-2", "radio-display"),
        ("radio-display", "radio-edition-2"),
        ("radio-display", "radio-display-late"),
        ("radio-edition-2", "radio-own-limit"),
        ("radio-edition-2", "radio-budget"),
        ("radio-edition-2", "radio-other-chain"),
        ("radio", "radio-edition-2"),
        ("radio-edition-2", "radio"),
        ("spread", "spread-between"),
        ("spread-between", "spread"),
        ("spread", "spread-above"),
        ("suite", "suite-fewer"),
        ("refused-4-budget", "refused-9-suite"),
        ("suite", "refused-9-suite"),
        ("refused-10-suite", "refused-15-suite"),
    ];
    let mut files: Vec<(String, Vec<u8>)> = Vec::new();
    for (name, bytes) in &sheets {
        files.push((format!("samples/{name}.sheet"), bytes.clone()));
        files.push((format!("samples/{name}.report"), report(bytes).into_bytes()));
        files.push((format!("samples/{name}.bound"), bound(bytes).into_bytes()));
    }
    for (name, log) in radio_logs(&radio) {
        let replay = replayed(&encoded(&radio, &[0, 1, 2]), &log).into_bytes();
        files.push((format!("samples/radio-{name}.replay"), replay));
        files.push((format!("samples/radio-{name}.log"), log));
    }
    let named = |name| &sheets.iter().find(|sheet| sheet.0 == name).unwrap().1;
    let (radio, odd) = (named("radio"), named("odd"));
    for (old, new) in pairs {
        files.push((format!("samples/{old}.{new}.compare"), compare(named(old), named(new)).into_bytes()));
    }
    files.push(("crates/compare/stdin".into(), named("radio-edition-2").clone()));
    files.push(("crates/compare/stdout".into(), compare(named("radio-edition-2"), b"").into_bytes()));
    files.push(("crates/report/stdin".into(), radio.clone()));
    files.push(("crates/report/stdout".into(), report(radio).into_bytes()));
    files.push(("crates/bound/stdin".into(), odd.clone()));
    files.push(("crates/bound/stdout".into(), bound(odd).into_bytes()));
    files.push(("crates/convert/stdin".into(), [b"2", &radio[..]].concat()));
    files.push(("crates/convert/stdout".into(), converted(2, radio).expect("Radio converts")));
    // Where it is run after its proof no file descriptor 3 is open, which is a log of no bytes.
    files.push(("crates/replay/stdin".into(), radio.clone()));
    files.push(("crates/replay/stdout".into(), replayed(radio, &[]).into_bytes()));
    let files: Vec<(&str, Vec<u8>)> = files.iter().map(|(name, content)| (name.as_str(), content.clone())).collect();
    store(&files);
}
