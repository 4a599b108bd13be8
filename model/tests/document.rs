//! The model against the figures that documents 01 and 02 print and the places that document 02 names.

use model::chain::{default_margin, delay, figures, margin};
use model::report::report;
use model::schedule::{night, responses};
use model::sheet::{encoded, judge, memory, read, to_second, unjudged, write, Chain, Memory, Task};
use model::Refusal;

fn sheet(tasks: &[(u32, u32, u8)], chain: &[u8]) -> Memory {
    let tasks: Vec<Task> = tasks.iter().map(|&(period, budget, rank)| Task { period, budget, rank }).collect();
    memory(&tasks, chain)
}

const TRIO: &[(u32, u32, u8)] = &[(8, 1, 1), (2, 1, 3), (4, 1, 2)];
const RADIO: &[(u32, u32, u8)] = &[(20, 5, 1), (6, 1, 3), (12, 3, 2)];
const QUARTET: &[(u32, u32, u8)] = &[(6, 1, 4), (6, 1, 3), (3, 1, 2), (6, 1, 1)];

/// What counts from a flag: worst, bound, and the margin of the report.
fn from_a_flag(s: &Memory) -> (u32, u32, i64) {
    let (_, f) = figures(s, 1, &mut [0; 8_192]).unwrap();
    (f.worst, f.bound, f.margin)
}

/// What counts from a release: the sampling figure, its release and its bound.
fn from_a_release(s: &Memory, table: &mut [u32]) -> (u32, u32, u32) {
    let (_, f) = figures(s, 1, table).unwrap();
    (f.sampling, f.release, f.sampling_bound)
}

#[test]
fn trio() {
    let s = sheet(TRIO, &[0, 1, 2]);
    let mut table = [0; 7];
    let w = responses(&s, &mut table).unwrap();
    assert_eq!((8, 7, 1), (w.hyperperiod, w.jobs, w.idle));
    assert_eq!([4, 1, 1, 1, 1, 2, 2], table);
    assert_eq!((6, 0, 8), from_a_release(&s, &mut table));
    // "Document 002 prints 14 and 16", as strict limits: in whole ticks one less each.
    assert_eq!((14 - 1, 16 - 1, 987), from_a_flag(&s));
}

#[test]
fn radio() {
    let s = sheet(RADIO, &[0, 1, 2]);
    let mut table = [0; 18];
    let w = responses(&s, &mut table).unwrap();
    assert_eq!((60, 18, 20), (w.hyperperiod, w.jobs, w.idle));
    assert_eq!([10, 9, 6, 1, 1, 1, 1, 1, 1, 1, 1, 1, 1, 4, 4, 4, 4, 4], table);
    assert_eq!([Ok(16), Ok(20), Ok(12)], [0, 20, 40].map(|r| delay(&s, 1, r, &mut table)));
    assert_eq!((20, 20, 24), from_a_release(&s, &mut table));
    assert_eq!((39, 43, 961), from_a_flag(&s));
    assert_eq!([Ok(961), Ok(0), Ok(-39)], [1_000, 39, 0].map(|limit| margin(&s, 1, limit, &mut table)));
    let short = sheet(RADIO, &[0, 1]);
    assert_eq!([Ok(13), Ok(11), Ok(9)], [0, 20, 40].map(|r| delay(&short, 1, r, &mut table)));
    assert_eq!((13, 0, 15), from_a_release(&short, &mut table));
    assert_eq!((13 + 19, 15 + 19, 968), from_a_flag(&short));
}

/// "The margin call without a limit should use 500 ticks. The report on an old sheet and the conversion of old sheets must pass 1,000 by name".
/// A task alone, of budget 1, has its period for its worst: 501 to 1,000 ticks are kept by the one limit and not by the other.
#[test]
fn half_a_second() {
    for (period, by_default, reported) in [(500, 0, 500), (501, -1, 499), (1_000, -500, 0), (1_001, -501, -1)] {
        let old = sheet(&[(period, 1, 1)], &[0]);
        for s in [old, to_second(&old).unwrap()] {
            assert_eq!(Ok(by_default), default_margin(&s, 1, &mut [0]));
            assert_eq!((period, period, reported), from_a_flag(&s));
        }
    }
    let radio = sheet(RADIO, &[0, 1, 2]);
    assert_eq!(Ok(461), default_margin(&radio, 1, &mut [0; 18]));
    assert_eq!(1_000, to_second(&radio).unwrap().chains[0].limit);
}

/// "T − 1 of the first task": nothing where it is released at every tick.
#[test]
fn first_periods() {
    for (period, worst) in [(1, 1), (2, 2), (99_999, 99_999), (100_000, 100_000)] {
        let s = sheet(&[(period, 1, 2)], &[0]);
        assert_eq!((1, 0, 1), from_a_release(&s, &mut [0]));
        assert_eq!((worst, worst, 1_000 - i64::from(worst)), from_a_flag(&s));
    }
    // The first task of the chain, wherever it stands on the sheet and whatever comes after it.
    let pair = |chain| from_a_flag(&sheet(&[(2_000, 1_500, 2), (100_000, 20_000, 1)], chain));
    assert_eq!((81_500 + 99_999, 81_500 + 99_999, -180_499), pair(&[1, 0]));
    assert_eq!((1_500 + 1_999, 1_500 + 1_999, -2_499), pair(&[0]));
}

#[test]
fn quartet() {
    let s = sheet(QUARTET, &[2, 3]);
    let mut table = [0; 5];
    assert_eq!((8, 3, 8), from_a_release(&s, &mut table));
    // Its one schedule: the job of task 2 released at 0 writes at 3, task 3 starts then and finishes at 5; the one released at 3
    // writes at 4, task 3 starts at 4 and finishes at 5.
    let n = night(&s.tasks[..4], 6, |_, _| 1);
    assert_eq!(vec![Some(3), Some(4)], n.finishes[2]);
    assert_eq!(vec![Some(5)], n.finishes[3]);
}

#[test]
fn the_others() {
    let lone = sheet(&[(5, 5, 1)], &[0]);
    let mut table = [1; 9_000];
    assert_eq!((5, 0, 5), from_a_release(&lone, &mut table));
    assert_eq!(vec![0x08, 0x00, 0x14, 0x00, 0x0A, 0x02, 0x10], encoded(&lone.tasks[..1], &[0]));
    let late = responses(&sheet(&[(2, 1, 2), (3, 2, 1)], &[0]), &mut table).err().unwrap();
    assert_eq!((15, Some(1)), (late.number, late.value));
    assert_eq!([0, 0, 0, 0, 0, 1], [table[0], table[1], table[2], table[3], table[4], table[5]]);
    let pair = |a, b| responses(&sheet(&[(a, 1, 2), (b, 1, 1)], &[0]), &mut [0; 9_000]);
    assert_eq!(999_000, pair(1_000, 999).unwrap().hyperperiod);
    assert_eq!(Some(10.into()), pair(1_000, 1_001).err());
    assert_eq!(8_192, pair(2, 16_382).unwrap().jobs);
    assert_eq!(Some(11.into()), pair(2, 16_384).err());
}

#[test]
fn radio_report() {
    let expected = "\
tasks 3 hyperperiod 60 jobs 18 idle 20
task 0 response 10
task 1 response 1
task 2 response 4
chain 0 1 2
worst 39 from 20
bound 43
margin 961
";
    assert_eq!(expected, report(&encoded(&sheet(RADIO, &[]).tasks[..3], &[0, 1, 2])));
}

#[test]
fn refusals_in_the_report() {
    let lone = [0x08, 0x00, 0x14, 0x00, 0x0A, 0x02, 0x10];
    let late = sheet(&[(2, 1, 2), (3, 2, 1)], &[]);
    let long = sheet(&[(1_000, 1, 2), (1_001, 1, 1)], &[]);
    assert_eq!("refused 1 bit 0\n", report(&[]));
    assert_eq!("refused 4 bit 22\n", report(&encoded(&sheet(&[(5, 6, 1)], &[]).tasks[..1], &[0])));
    assert_eq!("refused 9 bit 56\n", report(&[&lone[..], &[0]].concat()));
    assert_eq!("refused 10\n", report(&encoded(&long.tasks[..2], &[0])));
    assert_eq!("refused 15 task 1\n", report(&encoded(&late.tasks[..2], &[0])));
}

/// The sixteen tasks and the chain of sixteen in which one field is then made bad.
fn largest() -> Memory {
    let tasks: Vec<_> = (0..16).map(|i| (100, 10, i)).collect();
    sheet(&tasks, &(0..16).collect::<Vec<_>>())
}

/// The same refusal in memory, by the writer, which leaves its buffer, and of the bytes.
fn refused(s: &Memory, number: u8, bit: usize) {
    refused_in_memory(s, number, bit);
    assert_eq!(Err(Refusal::with(number, bit)), read(&unjudged(s)));
}

fn refused_in_memory(s: &Memory, number: u8, bit: usize) {
    let mut buffer = [7; 100];
    assert_eq!(Err(Refusal::with(number, bit)), judge(s));
    assert_eq!(Err(Refusal::with(number, bit)), write(s, &mut buffer));
    assert_eq!([7; 100], buffer);
}

/// "count at 0, T of task i at 5 + 42·i, C at 22 + 42·i, rank at 39 + 42·i"
#[test]
fn bits_of_tasks() {
    for count in [0, 17, 30] {
        refused(&Memory { count, ..largest() }, 2, 0);
    }
    refused_in_memory(&Memory { count: 31, ..largest() }, 2, 0);
    for i in 0..16 {
        let with = |period, budget, rank| {
            let mut s = largest();
            s.tasks[i] = Task { period, budget, rank };
            s
        };
        refused(&with(0, 10, 200), 3, 5 + 42 * i);
        refused(&with(100_001, 10, 200), 3, 5 + 42 * i);
        refused(&with(100, 0, 200), 4, 22 + 42 * i);
        refused(&with(100, 101, 200), 4, 22 + 42 * i);
        // The 17 bits of these numbers would be allowed.
        refused_in_memory(&with(131_072 + 100, 10, 200), 3, 5 + 42 * i);
        refused_in_memory(&with(100, 131_072 + 10, 200), 4, 22 + 42 * i);
        if i > 0 {
            refused(&with(100, 10, i as u8 - 1), 5, 39 + 42 * i);
        }
    }
}

/// "chain length at 5 + 42·n, entry j at 10 + 42·n + 4·j"
#[test]
fn bits_of_chains() {
    for n in 1..=16 {
        let of_length = |length| {
            let mut s = Memory { count: n as u8, ..largest() };
            s.chains[0] = Chain { length, ..s.chains[0] };
            s
        };
        for length in [0, n as u8 + 1, 31] {
            refused(&of_length(length), 6, 5 + 42 * n);
        }
        for j in 0..n {
            let with = |entry: usize| {
                let mut s = of_length(n as u8);
                s.chains[0].entries[j] = entry as u8;
                s
            };
            if n < 16 {
                refused(&with(n), 7, 10 + 42 * n + 4 * j);
            }
            refused_in_memory(&with(16), 7, 10 + 42 * n + 4 * j);
            if j > 0 {
                refused(&with(j - 1), 8, 10 + 42 * n + 4 * j);
            }
        }
    }
}

/// The field in which the bytes end: of all places where a field begins the last that leaves it too few.
#[test]
fn bits_of_ends() {
    let whole = unjudged(&largest());
    let mut begins: Vec<usize> = (0..16).flat_map(|i| [5, 22, 39].map(|k| k + 42 * i)).chain([0, 677]).collect();
    begins.extend((0..16).map(|j| 682 + 4 * j));
    begins.sort();
    let ends: Vec<usize> = begins[1..].iter().copied().chain([746]).collect();
    for size in 0..94 {
        let cut = begins.iter().zip(&ends).find(|(_, end)| 8 * size < **end).unwrap();
        assert_eq!(Err(Refusal::with(1, *cut.0)), read(&whole[..size]), "{size} bytes");
    }
    assert_eq!(Ok(largest()), read(&whole));
}

/// Its fields end at 746, its bytes at 752: "the earlier of the first wrong bit and the first bit of the surplus byte".
#[test]
fn bits_after_the_last_field() {
    let whole = unjudged(&largest());
    for bit in 746..752 {
        for later in bit..752 {
            let mut wrong = whole.clone();
            wrong[93] |= 128 >> (bit % 8) | 128 >> (later % 8);
            for surplus in [&[][..], &[0], &[128], &[1, 0]] {
                assert_eq!(Err(Refusal::with(9, bit)), read(&[&wrong, surplus].concat()));
            }
        }
    }
    for surplus in [&[0][..], &[128], &[1], &[0, 1], &[0; 4_000]] {
        assert_eq!(Err(Refusal::with(9, 752)), read(&[&whole, surplus].concat()));
    }
}

/// Where a table of docs/FORMAT.md says that a field begins, with the letters as given.
fn place_in(table: &str, field: &str, letters: &[(&str, usize)]) -> usize {
    let page = include_str!("../../docs/FORMAT.md");
    let (_, section) = page.split_once(&format!("\n| {table} | begins at bit |")).expect("the table is there");
    let row = section.lines().find(|line| line.starts_with(&format!("| {field} | "))).expect(field);
    let factor = |text: &str| match letters.iter().find(|(letter, _)| *letter == text) {
        Some((_, value)) => *value,
        None => text.parse().expect("a letter that is given, or a number"),
    };
    let terms = row.split(" | ").nth(1).unwrap().split(" + ");
    terms.map(|term| term.split('·').map(factor).product::<usize>()).sum()
}

/// The places of the second edition: chains are as long as they can be, so each takes 27 + 4·n bits.
#[test]
fn the_page_says_the_same_places_in_edition_2() {
    let place = |field, letters: &[(&str, usize)]| place_in("field in edition 2", field, letters);
    assert_eq!([0, 5, 9], ["mark", "edition", "number of tasks n"].map(|field| place(field, &[])));
    for i in 0..16 {
        assert_eq!(14 + 42 * i, place("period T of task i", &[("i", i)]));
        assert_eq!(31 + 42 * i, place("budget C of task i", &[("i", i)]));
        assert_eq!(48 + 42 * i, place("rank of task i", &[("i", i)]));
    }
    for n in 1..=16 {
        assert_eq!(14 + 42 * n, place("number of chains", &[("n", n)]));
        let mut p = 18 + 42 * n;
        for _ in 0..8 {
            assert_eq!(p, place("limit of a chain", &[("p", p)]));
            assert_eq!(p + 22, place("length m of a chain", &[("p", p)]));
            for j in 0..n {
                assert_eq!(p + 27 + 4 * j, place("entry j of a chain", &[("p", p), ("j", j)]));
            }
            p = place("the next chain, or the bits that fill the last byte", &[("p", p), ("m", n)]);
        }
        assert_eq!(18 + 42 * n + 8 * (27 + 4 * n), p);
    }
}

#[test]
fn the_page_says_the_same_places() {
    let place_in_page = |field, letters: &[(&str, usize)]| place_in("field", field, letters);
    assert_eq!(0, place_in_page("number of tasks n", &[]));
    for i in 0..16 {
        assert_eq!(5 + 42 * i, place_in_page("period T of task i", &[("i", i)]));
        assert_eq!(22 + 42 * i, place_in_page("budget C of task i", &[("i", i)]));
        assert_eq!(39 + 42 * i, place_in_page("rank of task i", &[("i", i)]));
    }
    for n in 1..=16 {
        assert_eq!(5 + 42 * n, place_in_page("chain length m", &[("n", n)]));
        for j in 0..n {
            assert_eq!(10 + 42 * n + 4 * j, place_in_page("chain entry j", &[("n", n), ("j", j)]));
            assert_eq!(14 + 42 * n + 4 * j, place_in_page("the bits that fill the last byte", &[("n", n), ("m", j + 1)]));
        }
    }
}
