//! Sheets typed as text: every mistake and refusal with its place, the samples there and back, and texts by chance.

use model::generate::sheet as any_sheet;
use model::random::Random;
use model::sheet::{chain, judge, memory, read, suite, unjudged, Memory, Task};
use model::text::{named, parse, shown, Fault, Wrong, MOST};
use model::texts::{each_fault, text as any_text, typed};
use std::collections::BTreeSet;

const RADIO: &str = "# Radio, master clock\n\
    task sampler period 20 budget 5 rank 1\n\
    task corrector period 6 budget 1 rank 3\n\
    task stamper period 12 budget 3 rank 2\n\
    chain sampler corrector stamper\n";

fn radio_tasks() -> Vec<Task> {
    [(20, 5, 1), (6, 1, 3), (12, 3, 2)].map(|(period, budget, rank)| Task { period, budget, rank }).to_vec()
}

fn old_radio() -> Memory {
    memory(&radio_tasks(), &[0, 1, 2])
}

fn says(text: &str, s: &Memory) {
    assert_eq!(Ok(*s), parse(text.as_bytes()), "{text}");
}

/// What pack says of the text.
fn wrong(text: &str, expected: &str) {
    let said = parse(text.as_bytes()).map_or_else(|wrong| wrong.to_string(), |_| "taken".into());
    assert_eq!(expected, said, "{text:?}");
}

/// Radio's text with one word or line another.
fn edited(old: &str, new: &str) -> String {
    assert_eq!(1, RADIO.matches(old).count(), "{old}");
    RADIO.replace(old, new)
}

fn edition(line: &str) -> String {
    format!("{line}\n{RADIO}")
}

#[test]
fn radio() {
    says(RADIO, &old_radio());
    assert_eq!(shown(&old_radio()).unwrap(), RADIO[22..].replace("sampler", "task0").replace("corrector", "task1").replace("stamper", "task2"));
}

/// Twenty-four mistakes and ten refusals.
#[test]
fn each_has_a_text() {
    let mut faults = BTreeSet::new();
    for (fault, text) in each_fault() {
        assert_eq!(Some(fault), parse(&text).err().map(|wrong| wrong.fault), "{}", text.escape_ascii());
        faults.insert(format!("{fault:?}"));
    }
    assert_eq!(24 + 10, faults.len());
}

#[test]
fn what_does_not_matter() {
    says(RADIO.strip_suffix('\n').unwrap(), &old_radio());
    says(&RADIO.replace('\n', "\r\n"), &old_radio());
    says(&RADIO.replace(' ', "\t"), &old_radio());
    says(&RADIO.replace(' ', " \t \r "), &old_radio());
    says(&RADIO.replace('\n', "\n\n \t\r\n"), &old_radio());
    says(&RADIO.replace('\n', "# chain\n"), &old_radio());
    says(&format!(" {RADIO}# the end"), &old_radio());
    says(&edited("period 20", "period 00000000000000000000020"), &old_radio());
    says(&edited("rank 1", "rank 000"), &memory(&[Task { rank: 0, ..radio_tasks()[0] }, radio_tasks()[1], radio_tasks()[2]], &[0, 1, 2]));
    for entries in ["0 1 2", "sampler 1 stamper", "00 0001 stamper"] {
        says(&edited("sampler corrector stamper", entries), &old_radio());
    }
}

#[test]
fn the_edition() {
    let one = |limit| suite(&radio_tasks(), &[chain(limit, &[0, 1, 2])]);
    says(&edition("edition 1"), &old_radio());
    says(&edition("edition 2"), &one(1_000));
    says(&edition("edition 02 # the second"), &one(1_000));
    says(&edited("chain", "chain limit 1000"), &one(1_000));
    says(&edited("chain", "chain limit 0"), &one(0));
    says(&edited("chain", "chain limit 4000000"), &one(4_000_000));
    says(&format!("edition 2\n{}", edited("chain", "chain limit 39")), &one(39));
    says(&format!("{RADIO}chain limit 7 stamper"), &suite(&radio_tasks(), &[chain(1_000, &[0, 1, 2]), chain(7, &[2])]));
    says(&format!("{RADIO}chain 2\nchain 1 sampler"), &suite(&radio_tasks(), &[chain(1_000, &[0, 1, 2]), chain(1_000, &[2]), chain(1_000, &[1, 0])]));
    wrong(&format!("edition 1\n{}", edited("chain", "chain limit 1000")), "mistake 22 line 6 column 7");
    wrong(&format!("{}chain 0\n", edition("edition 1")), "mistake 23 line 7 column 1");
    for number in ["0", "3", "12", "4294967297", "4294967298", "18446744073709551617"] {
        wrong(&edition(&format!("edition {number}")), "refused 16 line 1 column 9");
    }
}

#[test]
fn the_first_word_of_a_line() {
    for text in ["chain 0\n", "Task a\n", "period 5\n", "edition1\n", "a", "5", "\0", "\u{feff}task a period 5 budget 5 rank 1\nchain a\n"] {
        wrong(text, "mistake 1 line 1 column 1");
    }
    wrong("", "mistake 1 line 1 column 1");
    wrong("   ", "mistake 1 line 1 column 4");
    wrong("\n\n", "mistake 1 line 3 column 1");
    wrong("# nothing", "mistake 1 line 1 column 10");
    wrong("edition 1", "mistake 2 line 1 column 10");
    wrong("edition 1\n", "mistake 2 line 2 column 1");
    wrong("edition 1\nedition 1\n", "mistake 2 line 2 column 1");
    wrong("edition 2\n\n  chain 0", "mistake 2 line 3 column 3");
    wrong("task a period 5 budget 5 rank 1", "mistake 3 line 1 column 32");
    wrong("task a period 5 budget 5 rank 1\n#\n", "mistake 3 line 3 column 1");
    wrong("task a period 5 budget 5 rank 1\r\nedition 1\r\nchain a", "mistake 3 line 2 column 1");
    wrong("task a period 5 budget 5 rank 1\na", "mistake 3 line 2 column 1");
    wrong(&format!("{RADIO}task d period 5 budget 1 rank 0\n"), "mistake 4 line 6 column 1");
    wrong(&format!("{RADIO}sampler\n"), "mistake 4 line 6 column 1");
    wrong(&format!("{RADIO} edition 2"), "mistake 4 line 6 column 2");
}

/// Each place of a line with the wrong word, with no word, with the end of the text, and with one word too many.
#[test]
fn words_of_a_line() {
    let task = ["task", "a", "period", "20", "budget", "5", "rank", "1"];
    let strange = ["-1", "rank", "perio", "+20", "Budget", "5.", "ranks", "1,"];
    for (place, mistake) in (1..8).zip([7, 8, 9, 10, 11, 12, 13]) {
        let mut front = task[..place].join(" ");
        wrong(&front, &format!("mistake {mistake} line 1 column {}", front.len() + 1));
        wrong(&format!("\n{front} # \nchain a\n"), &format!("mistake {mistake} line 2 column {}", front.len() + 4));
        front += " ";
        let bad = if place == 1 { "a.b" } else { strange[place] };
        wrong(&format!("{front}{bad} {}\n", task[place + 1..].join(" ")), &format!("mistake {mistake} line 1 column {}", front.len() + 1));
    }
    wrong("edition", "mistake 5 line 1 column 8");
    wrong("edition two\n", "mistake 5 line 1 column 9");
    wrong("edition 1 task\n", "mistake 6 line 1 column 11");
    wrong("task a period 5 budget 5 rank 1 1\n", "mistake 14 line 1 column 33");
    wrong("task a period 5 budget 5 rank 1 chain a\n", "mistake 14 line 1 column 33");
    for (line, expected) in [
        ("chain", "mistake 15 line 5 column 6"),
        ("chain # sampler", "mistake 15 line 5 column 16"),
        ("chain task", "mistake 15 line 5 column 7"),
        ("chain a.b", "mistake 15 line 5 column 7"),
        ("chain limit", "mistake 16 line 5 column 12"),
        ("chain limit sampler", "mistake 16 line 5 column 13"),
        ("chain limit -1 sampler", "mistake 16 line 5 column 13"),
        ("chain limit 5", "mistake 17 line 5 column 14"),
        ("chain limit 5 limit 6 sampler", "mistake 17 line 5 column 15"),
        ("chain sampler corrector; stamper", "mistake 18 line 5 column 15"),
        ("chain sampler limit 5", "mistake 18 line 5 column 15"),
        ("chain sampler -> corrector", "mistake 18 line 5 column 15"),
    ] {
        wrong(&edited("chain sampler corrector stamper", line), expected);
    }
}

#[test]
fn names() {
    for name in ["a", "A", "Sampler", "SAMPLER", "-", "_", "tasks", "1a", "0x14", "4294967296-", "sample", "samplers", &"x".repeat(8_000)] {
        let text = edited("task sampler", &format!("task {name}")).replace("chain sampler", &format!("chain {name}"));
        says(&text, &old_radio());
        wrong(&text.replace(&format!("chain {name}"), "chain nobody"), "mistake 20 line 5 column 7");
    }
    for name in ["edition", "task", "period", "budget", "rank", "chain", "limit", "1", "007", "a.b", "é", "a,", "'a'", "a\0"] {
        wrong(&edited("task sampler", &format!("task {name}")), "mistake 7 line 2 column 6");
    }
    wrong(&edited("task corrector", "task sampler"), "mistake 19 line 3 column 6");
    wrong(&edited("task stamper", "task\tsampler"), "mistake 19 line 4 column 6");
    wrong(&edited("chain sampler corrector", "chain sampler Corrector"), "mistake 20 line 5 column 15");
    wrong(&edited("chain sampler corrector", "chain sampler correct"), "mistake 20 line 5 column 15");
    wrong(&edited("chain sampler", "chain limit 5 smapler"), "mistake 20 line 5 column 15");
}

#[test]
fn fields() {
    for (old, new, expected) in [
        ("period 20", "period 0", "refused 3 line 2 column 21"),
        ("period 20", "period 100001", "refused 3 line 2 column 21"),
        ("period 20", "period 4294967316", "refused 3 line 2 column 21"),
        ("period 20", "period 18446744073709551636", "refused 3 line 2 column 21"),
        ("period 20", "period +20", "mistake 9 line 2 column 21"),
        ("budget 5", "budget 0", "refused 4 line 2 column 31"),
        ("budget 5", "budget 21", "refused 4 line 2 column 31"),
        ("budget 5", "budget 4294967297", "refused 4 line 2 column 31"),
        ("budget 5", "budget -5", "mistake 11 line 2 column 31"),
        ("rank 3", "rank 1", "refused 5 line 3 column 39"),
        ("rank 3", "rank 01", "refused 5 line 3 column 39"),
        ("rank 3", "rank 256", "mistake 21 line 3 column 39"),
        ("rank 3", "rank 257", "mistake 21 line 3 column 39"),
        ("rank 3", "rank 4294967297", "mistake 21 line 3 column 39"),
        ("chain", "chain limit 4000001", "refused 13 line 5 column 13"),
        ("chain", "chain limit 4294968296", "refused 13 line 5 column 13"),
        ("chain sampler corrector", "chain 3 4", "refused 7 line 5 column 7"),
        ("chain sampler corrector", "chain 4294967296", "refused 7 line 5 column 7"),
        ("chain sampler corrector", "chain sampler 3", "refused 7 line 5 column 15"),
        ("chain sampler corrector", "chain sampler sampler", "refused 8 line 5 column 15"),
        ("chain sampler corrector", "chain sampler 0", "refused 8 line 5 column 15"),
        ("corrector stamper", "corrector 0", "refused 8 line 5 column 25"),
        ("corrector stamper", "corrector stamper 3", "refused 6 line 5 column 33"),
        ("corrector stamper", "corrector stamper sampler", "refused 6 line 5 column 33"),
        ("corrector stamper", "corrector stamper nobody", "mistake 20 line 5 column 33"),
        ("corrector stamper", "corrector stamper limit", "mistake 18 line 5 column 33"),
    ] {
        wrong(&edited(old, new), expected);
    }
    says("task a period 100000 budget 100000 rank 255\nchain a", &memory(&[Task { period: 100_000, budget: 100_000, rank: 255 }], &[0]));
    // The first wrong word counts.
    wrong("task a period 0 budget 9 rank 999 x\nchain b\n", "refused 3 line 1 column 15");
    wrong("task a period 5 budget 9 rank 999 x\nchain b\n", "refused 4 line 1 column 24");
}

#[test]
fn counts() {
    let task = |i: usize| format!("task t{i} period 100 budget 1 rank {i}\n");
    let tasks: String = (0..16).map(task).collect();
    let all: String = (0..16).map(|i| format!(" t{i}")).collect();
    let sixteen: Vec<Task> = (0..16).map(|rank| Task { period: 100, budget: 1, rank }).collect();
    let entries: Vec<u8> = (0..16).collect();
    says(&format!("{tasks}chain{all}\n"), &memory(&sixteen, &entries));
    wrong(&format!("{tasks}{}chain t0\n", task(16)), "refused 2 line 17 column 1");
    wrong(&format!("{tasks}\n  task rank rank\nchain t0\n"), "refused 2 line 18 column 3");
    wrong(&format!("{tasks}chain{all} 0\n"), &format!("refused 6 line 17 column {}", 7 + all.len()));
    let chains = |n: usize| (0..n).map(|i| format!("chain limit {i} t{i}\n")).collect::<String>();
    says(&format!("{tasks}{}", chains(8)), &suite(&sixteen, &(0..8).map(|i| chain(i.into(), &[i])).collect::<Vec<_>>()));
    wrong(&format!("{tasks}{}", chains(9)), "refused 17 line 25 column 1");
    wrong(&format!("{tasks}{}chain", chains(8)), "refused 17 line 25 column 1");
}

#[test]
fn lengths() {
    let filled = |length: usize| format!("{RADIO}#{}", "x".repeat(length - RADIO.len() - 1));
    says(&filled(MOST), &old_radio());
    wrong(&filled(MOST + 1), &format!("mistake 24 line 6 column {}", MOST + 1 - RADIO.len()));
    wrong(&filled(65_536), &format!("mistake 24 line 6 column {}", MOST + 1 - RADIO.len()));
    says(&format!("{}{RADIO}", "\n".repeat(MOST - RADIO.len())), &old_radio());
    wrong(&"\n".repeat(MOST), "mistake 1 line 16385 column 1");
    wrong(&"\n".repeat(MOST + 1), "mistake 24 line 16385 column 1");
    wrong(&" ".repeat(MOST + 1), "mistake 24 line 1 column 16385");
    // Before all else.
    wrong(&"?".repeat(MOST + 1), "mistake 24 line 1 column 16385");
    wrong(&"?".repeat(MOST), "mistake 1 line 1 column 1");
}

/// A text stands beside each sheet that is well formed, and says that sheet; so does what is shown of it.
#[test]
fn samples() {
    let folder = concat!(env!("CARGO_MANIFEST_DIR"), "/../samples");
    let mut count = 0;
    for entry in std::fs::read_dir(folder).unwrap() {
        let path = entry.unwrap().path();
        if path.extension().map_or(true, |x| x != "sheet") {
            continue;
        }
        let text = std::fs::read(path.with_extension("txt")).ok();
        match read(&std::fs::read(&path).unwrap()) {
            Err(_) => assert_eq!(None, text, "{path:?}"),
            Ok(s) => {
                assert_eq!(Ok(s), parse(&text.expect("a text is there")), "{path:?}");
                assert_eq!(Ok(s), parse(shown(&s).unwrap().as_bytes()), "{path:?}");
                count += 1;
            }
        }
    }
    assert!(count > 20);
}

/// Reading the shown text gives back the same sheet, and so does the sheet typed in any other way.
#[test]
fn shown_and_read() {
    let mut r = Random::new(25);
    let mut suites = BTreeSet::new();
    for _ in 0..3_000 {
        let s = any_sheet(&mut r);
        suites.insert((s.edition, s.chain_count()));
        assert_eq!(Ok(s), parse(shown(&s).unwrap().as_bytes()));
        let text = typed(&mut r, &s);
        assert_eq!(Ok(s), parse(&text), "{}", String::from_utf8_lossy(&text));
    }
    assert_eq!(9, suites.len());
    let names: Vec<String> = (0..16).map(|i| format!("n{i}")).collect();
    let s = old_radio();
    assert_eq!(Ok(s), parse(named(&s, &names.iter().map(String::as_str).collect::<Vec<_>>()).as_bytes()));
}

#[test]
fn refused_sheets_are_not_shown() {
    let mut r = Random::new(26);
    for spoil in [
        |s: &mut Memory| s.count = 0,
        |s: &mut Memory| s.tasks[0].period = 100_001,
        |s: &mut Memory| s.chains[0].length = 17,
        |s: &mut Memory| s.edition = 3,
        |s: &mut Memory| s.chains[0].entries[0] = 16,
    ] {
        let mut s = any_sheet(&mut r);
        spoil(&mut s);
        assert_eq!(judge(&s).err(), shown(&s).err());
        assert!(shown(&s).is_err());
    }
}

/// A sheet with one field that is not allowed gets the number that it gets in memory, wherever the text's words stand.
#[test]
fn one_bad_field() {
    let mut r = Random::new(27);
    let mut met = BTreeSet::new();
    for _ in 0..4_000 {
        let mut s = any_sheet(&mut r);
        let task = r.between(0, u32::from(s.count) - 1) as usize;
        let last = u32::from(s.chain_count()) - 1;
        let c = &mut s.chains[r.between(0, last) as usize];
        let (place, other) = (r.between(0, u32::from(c.length) - 1) as usize, r.between(0, u32::from(c.length) - 1) as usize);
        match r.between(0, 5) {
            0 => s.tasks[task].period = r.pick(&[0, 100_001, u32::MAX]),
            1 => s.tasks[task].budget = r.pick(&[0, s.tasks[task].period + 1, u32::MAX]),
            2 => s.tasks[task].rank = s.tasks[0].rank,
            3 => c.limit = r.pick(&[4_000_001, u32::MAX]),
            4 => c.entries[place] = r.pick(&[s.count, 200]),
            _ => c.entries[place] = c.entries[other],
        }
        // An old sheet has no limits.
        s.chains[0].limit = if s.edition == 1 { 0 } else { s.chains[0].limit };
        let text = typed(&mut r, &s);
        let expected = judge(&s).err().map(|r| Fault::Refused(r.number));
        assert_eq!(expected, parse(&text).err().map(|wrong| wrong.fault), "{}", String::from_utf8_lossy(&text));
        met.extend(judge(&s).err().map(|r| r.number));
    }
    assert_eq!(BTreeSet::from([3, 4, 5, 7, 8, 13]), met);
}

/// Where in the text a place is.
fn offset(text: &[u8], wrong: &Wrong) -> usize {
    let lines: Vec<&[u8]> = text.split(|&b| b == b'\n').collect();
    assert!(wrong.column <= lines[wrong.line - 1].len() + 1, "{wrong}");
    lines[..wrong.line - 1].iter().map(|line| line.len() + 1).sum::<usize>() + wrong.column - 1
}

/// What is typed before the place is fine so far: cut there, the text ends too early and not at an earlier word; and what comes after the
/// word does not count.
#[test]
fn texts_by_chance() {
    let mut r = Random::new(28);
    let (mut fine, mut faults) = (0, BTreeSet::new());
    for _ in 0..20_000 {
        let text = any_text(&mut r);
        let readable = String::from_utf8_lossy(&text);
        match parse(&text) {
            Ok(s) => {
                fine += 1;
                assert_eq!(Ok(()), judge(&s), "{readable}");
                assert_eq!(Ok(s), parse(shown(&s).unwrap().as_bytes()));
                assert_eq!(Ok(s), read(&unjudged(&s)));
            }
            Err(wrong) => {
                let place = offset(&text, &wrong);
                faults.insert(format!("{:?}", wrong.fault));
                if wrong.fault == Fault::Mistake(24) {
                    assert_eq!(MOST, place);
                    continue;
                }
                if let Err(earlier) = parse(&text[..place]) {
                    assert_eq!(place, offset(&text[..place], &earlier), "{readable}");
                }
                let word = text[place..].iter().take_while(|b| !b" \t\r\n#".contains(b)).count();
                let other = [&text[..place + word], b"\n# more\nchain task\n"].concat();
                if place < text.len() && other.len() <= MOST {
                    assert_eq!(Err(wrong), parse(&other), "{readable}");
                }
            }
        }
    }
    assert!(fine > 5_000, "{fine}");
    assert!(faults.len() >= 24 + 10 - 1, "{faults:?}");
}
