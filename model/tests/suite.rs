//! The second edition of the sheet against the words of document 02's P3: its sizes, the places of its fields, its refusals in order, chain
//! numbers and conversions.

use model::chain::{default_margin, delay, figures, margin, suite as all_chains};
use model::generate::sheet as any_sheet;
use model::random::Random;
use model::recurrence::quick;
use model::report::{bound, converted, report};
use model::sheet::{
    chain, encoded, judge, marked_bits, memory, numbered, packed, read, suite, to_first, to_second, unjudged, write, Chain, Memory, Task,
};
use model::Refusal;

const RADIO: [Task; 3] = [
    Task { period: 20, budget: 5, rank: 1 },
    Task { period: 6, budget: 1, rank: 3 },
    Task { period: 12, budget: 3, rank: 2 },
];

/// n tasks and so many chains, each of all tasks in an order of its own.
fn largest(n: u8, chains: u8) -> Memory {
    let tasks: Vec<Task> = (0..n).map(|rank| Task { period: 100, budget: 1, rank }).collect();
    let entries = |c: u8| (0..n).map(|i| (i + c) % n).collect::<Vec<_>>();
    suite(&tasks, &(0..chains).map(|c| chain(1_000 + u32::from(c), &entries(c))).collect::<Vec<_>>())
}

fn at(number: u8, bit: usize) -> Refusal {
    Refusal::with(number, bit)
}

fn alone(number: u8) -> Refusal {
    number.into()
}

/// The same refusal in memory, by the writer, which leaves its buffer, by both conversions, and of the bytes.
fn refused(s: &Memory, expected: Refusal) {
    refused_in_memory(s, expected);
    assert_eq!(Err(expected), read(&unjudged(s)));
}

fn refused_in_memory(s: &Memory, expected: Refusal) {
    let mut buffer = [7; 200];
    assert_eq!(Err(expected), judge(s));
    assert_eq!(Err(expected), write(s, &mut buffer));
    assert_eq!([7; 200], buffer);
    assert_eq!(Err(expected), to_second(s));
    assert_eq!(Err(expected), to_first(s));
    for number in [0, 1, 255] {
        assert_eq!(Some(expected), figures(s, number, &mut []).err());
        assert_eq!(Some(expected), quick(s, number).err());
    }
}

fn spoilt(mut s: Memory, spoil: impl Fn(&mut Memory)) -> Memory {
    spoil(&mut s);
    s
}

fn written(s: &Memory) -> Vec<u8> {
    let mut buffer = [0; 200];
    let size = write(s, &mut buffer).unwrap();
    buffer[..size].to_vec()
}

/// "five bits of 31, four bits holding 2, task count and tasks as before, a chain count of four bits (1 to 8), then per chain a limit of 22
/// bits, its length and its entries"
#[test]
fn bits_of_lone() {
    let lone = suite(&[Task { period: 5, budget: 5, rank: 1 }], &[chain(1_000, &[0])]);
    let text = ["11111", "0010", "00001", "00000000000000101", "00000000000000101", "00000001", "0001", "0000000000001111101000", "00001", "0000"];
    assert_eq!(packed(&text.concat()), written(&lone));
    assert_eq!([0xF9, 0x04, 0x00, 0x0A, 0x00, 0x05, 0x01, 0x10, 0x00, 0xFA, 0x02, 0x00], written(&lone)[..]);
    assert_eq!(Ok(lone), read(&written(&lone)));
}

#[test]
fn sizes() {
    for n in 1..=16 {
        for chains in 1..=8 {
            let s = largest(n, chains);
            let bits = 18 + 42 * usize::from(n) + usize::from(chains) * (27 + 4 * usize::from(n));
            let bytes = written(&s);
            assert_eq!(bits.div_ceil(8), bytes.len());
            assert_eq!(Ok(s), read(&bytes));
        }
    }
    assert_eq!((12, 178), (written(&largest(1, 1)).len(), written(&largest(16, 8)).len()));
    let mut buffer = [7; 180];
    assert_eq!(Err(alone(14)), write(&largest(16, 8), &mut buffer[..177]));
    assert_eq!([7; 180], buffer);
    assert_eq!(Ok(178), write(&largest(16, 8), &mut buffer[..178]));
    assert_eq!([7, 7], buffer[178..]);
}

#[test]
fn editions() {
    let s = largest(3, 2);
    for edition in 0..16 {
        let expected = if edition == 2 { Ok(s) } else { Err(alone(16)) };
        assert_eq!(expected, read(&packed(&marked_bits(edition, &s))), "edition {edition}");
    }
    for edition in (0..=255).filter(|edition| ![1, 2].contains(edition)) {
        refused_in_memory(&Memory { edition, ..s }, alone(16));
    }
    // "Other first bits mean an old sheet": a task count.
    for mark in 0..31 {
        let bytes = packed(&format!("{mark:05b}{}", &marked_bits(2, &s)[5..]));
        assert_eq!(mark == 0 || mark > 16, read(&bytes) == Err(at(2, 0)), "first bits {mark}");
    }
    // An old sheet ignores count and limits, which are read as zero; its other chains are unused.
    let old = memory(&RADIO, &[0, 1, 2]);
    let noise = Chain { limit: u32::MAX, length: 255, entries: [255; 16] };
    let noisy = spoilt(Memory { suite: 255, chains: [noise; 8], ..old }, |s| s.chains[0] = Chain { limit: u32::MAX, ..old.chains[0] });
    assert_eq!(encoded(&RADIO, &[0, 1, 2]), written(&noisy));
    assert_eq!(Ok(old), read(&written(&noisy)));
    assert_eq!((0, 0), (old.suite, old.chains[0].limit));
}

/// "task count and tasks as before", nine bits later.
#[test]
fn bits_of_tasks() {
    for count in [0, 17, 31] {
        refused(&Memory { count, ..largest(16, 8) }, at(2, 9));
    }
    for i in 0..16 {
        let with = |period, budget, rank| spoilt(largest(16, 8), |s| s.tasks[i] = Task { period, budget, rank });
        refused(&with(0, 1, 200), at(3, 14 + 42 * i));
        refused(&with(100_001, 1, 200), at(3, 14 + 42 * i));
        refused(&with(100, 0, 200), at(4, 31 + 42 * i));
        refused(&with(100, 101, 200), at(4, 31 + 42 * i));
        refused_in_memory(&with(131_072 + 100, 1, 200), at(3, 14 + 42 * i));
        if i > 0 {
            refused(&with(100, 1, i as u8 - 1), at(5, 48 + 42 * i));
        }
    }
}

/// 17 and 13 come without a bit; "P1's offsets hold for 1 to 9": a chain begins where the one before it ends.
#[test]
fn bits_of_chains() {
    for n in [1, 2, 15, 16] {
        for suite in [0, 9, 15] {
            refused(&Memory { suite, ..largest(n, 8) }, alone(17));
        }
        refused_in_memory(&Memory { suite: 16 + 1, ..largest(n, 8) }, alone(17));
        for c in 0..8 {
            let of_chain = |spoil: &dyn Fn(&mut Chain)| spoilt(largest(n, 8), |s| spoil(&mut s.chains[c]));
            let n = usize::from(n);
            let begin = 18 + 42 * n + c * (27 + 4 * n);
            refused(&of_chain(&|chain| chain.limit = 4_000_001), alone(13));
            refused(&of_chain(&|chain| chain.limit = (1 << 22) - 1), alone(13));
            refused_in_memory(&of_chain(&|chain| chain.limit = (1 << 22) + 1_000), alone(13));
            assert_eq!(Ok(()), judge(&of_chain(&|chain| chain.limit = 4_000_000)));
            assert_eq!(Ok(()), judge(&of_chain(&|chain| chain.limit = 0)));
            refused(&of_chain(&|chain| chain.length = 0), at(6, begin + 22));
            refused(&of_chain(&|chain| chain.length = n as u8 + 1), at(6, begin + 22));
            for j in 0..n {
                if n < 16 {
                    refused(&of_chain(&|chain| chain.entries[j] = n as u8), at(7, begin + 27 + 4 * j));
                }
                refused_in_memory(&of_chain(&|chain| chain.entries[j] = 16), at(7, begin + 27 + 4 * j));
                if j > 0 {
                    refused(&of_chain(&|chain| chain.entries[j] = chain.entries[j - 1]), at(8, begin + 27 + 4 * j));
                }
            }
        }
    }
    // "8 looks at its own chain alone"
    let alike = suite(&RADIO, &[chain(0, &[0, 1]), chain(0, &[0, 1]), chain(0, &[1])]);
    assert_eq!(Ok(alike), read(&written(&alike)));
}

/// Each fault with the one that comes after it in field order, and the last with what follows the fields: the first counts.
#[test]
fn refusals_in_field_order() {
    let faults: [(Refusal, fn(&mut Memory)); 12] = [
        (alone(16), |s| s.edition = 3),
        (at(2, 9), |s| s.count = 17),
        (at(3, 14), |s| s.tasks[0].period = 0),
        (at(4, 31), |s| s.tasks[0].budget = 0),
        (at(5, 90), |s| s.tasks[1].rank = 0),
        (alone(17), |s| s.suite = 9),
        (alone(13), |s| s.chains[0].limit = 4_000_001),
        (at(6, 124), |s| s.chains[0].length = 3),
        (at(7, 129), |s| s.chains[0].entries[0] = 2),
        (at(8, 133), |s| s.chains[0].entries[1] = s.chains[0].entries[0]),
        (alone(13), |s| s.chains[1].limit = 4_000_001),
        (at(6, 159), |s| s.chains[1].length = 0),
    ];
    for (i, fault) in faults.iter().enumerate() {
        refused(&spoilt(largest(2, 2), fault.1), fault.0);
        for later in &faults[i + 1..] {
            // The earlier fault last: a repeated entry repeats what stands there then.
            let both = |s: &mut Memory| {
                later.1(s);
                fault.1(s);
            };
            refused(&spoilt(largest(2, 2), both), fault.0);
        }
        let mut bytes = unjudged(&spoilt(largest(2, 2), fault.1));
        bytes.push(1);
        assert_eq!(Err(fault.0), read(&bytes));
    }
}

/// The field in which the bytes end, before the field's own number.
#[test]
fn bits_of_ends() {
    for (n, chains) in [(1, 1), (2, 3), (16, 8)] {
        let whole = unjudged(&largest(n, chains));
        let (n, chains) = (usize::from(n), usize::from(chains));
        let mut begins = vec![0, 5, 9];
        begins.extend((0..n).flat_map(|i| [14, 31, 48].map(|k| k + 42 * i)));
        begins.push(14 + 42 * n);
        for begin in (0..chains).map(|c| 18 + 42 * n + c * (27 + 4 * n)) {
            begins.extend([begin, begin + 22]);
            begins.extend((0..n).map(|j| begin + 27 + 4 * j));
        }
        let end = 18 + 42 * n + chains * (27 + 4 * n);
        let ends: Vec<usize> = begins[1..].iter().copied().chain([end]).collect();
        for size in 0..whole.len() {
            let cut = begins.iter().zip(&ends).find(|(_, end)| 8 * size < **end).unwrap();
            assert_eq!(Err(at(1, *cut.0)), read(&whole[..size]), "{size} bytes");
        }
        for bit in end..8 * whole.len() {
            let mut wrong = whole.clone();
            wrong[bit / 8] |= 128 >> (bit % 8);
            assert_eq!(Err(at(9, bit)), read(&wrong));
            wrong.push(255);
            assert_eq!(Err(at(9, bit)), read(&wrong));
        }
        for surplus in [&[0][..], &[128], &[0, 1], &[0; 4_000]] {
            assert_eq!(Err(at(9, 8 * whole.len())), read(&[&whole, surplus].concat()));
        }
    }
    // Of the mark with an edition that is none one byte has five bits and three of the four.
    assert_eq!(Err(at(1, 5)), read(&[0xFF]));
    assert_eq!(Err(alone(16)), read(&[0xFF, 0xFF]));
}

/// "calls name their chain from 1"; "17 for a chain number the sheet lacks, before 10".
#[test]
fn chain_numbers() {
    let stamp = chain(1_000, &[0, 1, 2]);
    let lacking = |s: &Memory, number: u8| {
        assert_eq!(Err(alone(17)), numbered(s, number));
        let mut table = [7; 20];
        assert_eq!(Err(alone(17)), delay(s, number, 1, &mut table));
        assert_eq!(Err(alone(17)), margin(s, number, 4_000_001, &mut table));
        assert_eq!(Err(alone(17)), default_margin(s, number, &mut table));
        assert_eq!(Some(alone(17)), figures(s, number, &mut table).err());
        assert_eq!(Some(alone(17)), quick(s, number).err());
        assert_eq!([7; 20], table);
    };
    for count in 1..=8 {
        let s = suite(&RADIO, &vec![stamp; count.into()]);
        for number in [0, count + 1, 128, 255] {
            lacking(&s, number);
        }
        for number in 1..=count {
            assert_eq!(Ok(()), numbered(&s, number));
            assert_eq!(Ok(20), delay(&s, number, 20, &mut [0; 18]));
        }
    }
    for count in [0, 1, 2, 8, 255] {
        let old = Memory { suite: count, ..memory(&RADIO, &[0, 1, 2]) };
        assert_eq!(Ok(461), default_margin(&old, 1, &mut [0; 18]));
        for number in [0, 2, 255] {
            lacking(&old, number);
        }
    }
    // Before 10, 11, 14 and 15, after the fields.
    let pair = |a, b, budget| [Task { period: a, budget: 1, rank: 2 }, Task { period: b, budget, rank: 1 }];
    for tasks in [pair(1_000, 1_001, 1), pair(2, 16_384, 1), pair(2, 3, 2)] {
        lacking(&suite(&tasks, &[chain(0, &[0])]), 2);
        lacking(&memory(&tasks, &[0]), 2);
    }
    refused_in_memory(&suite(&RADIO, &[stamp, chain(0, &[1, 1])]), at(8, 18 + 42 * 3 + 39 + 31));
}

/// Radio's two chains on one sheet, and two more: each by itself what it is on a sheet of its own, "with the margin under its limit".
#[test]
fn figures_of_each_chain() {
    let chains: [&[u8]; 4] = [&[0, 1, 2], &[0, 1], &[2, 0], &[1]];
    let limits = [39, 1_000, 0, 4_000_000];
    let s = suite(&RADIO, &[0, 1, 2, 3].map(|c| chain(limits[c], chains[c])));
    let (worked, each) = all_chains(&s, &mut [0; 18]).unwrap();
    assert_eq!((60, 18, 20, 4), (worked.hyperperiod, worked.jobs, worked.idle, each.len()));
    for (c, number) in (0..4).zip(1..) {
        let own = figures(&s, number, &mut [0; 18]).unwrap().1;
        let old = figures(&memory(&RADIO, chains[c]), 1, &mut [0; 18]).unwrap().1;
        let of = |f: &model::chain::Figures| (f.sampling, f.release, f.sampling_bound, f.worst, f.bound);
        assert_eq!((of(&old), of(&old)), (of(&own), of(&each[c])));
        assert_eq!(i64::from(limits[c]) - i64::from(old.worst), each[c].margin);
        assert_eq!(own.margin, each[c].margin);
        assert_eq!(1_000 - i64::from(old.worst), old.margin);
        assert_eq!(Ok(500 - i64::from(old.worst)), default_margin(&s, number, &mut [0; 18]));
        assert_eq!(quick(&memory(&RADIO, chains[c]), 1), quick(&s, number));
    }
    assert_eq!((0, 968), (each[0].margin, each[1].margin));
    let expected = "\
tasks 3 hyperperiod 60 jobs 18 idle 20
task 0 response 10
task 1 response 1
task 2 response 4
chain 0 1 2
worst 39 from 20
bound 43
margin 0
chain 0 1
worst 32 from 0
bound 34
margin 968
";
    let both = suite(&RADIO, &s.chains[..2]);
    assert_eq!(expected, report(&written(&both)));
    let bounds = "task 0 response 10\ntask 1 response 1\ntask 2 response 4\nchain 0 1 2\nbound 43\nchain 0 1\nbound 34\n";
    assert_eq!(bounds, bound(&written(&both)));
}

#[test]
fn conversions() {
    let old = memory(&RADIO, &[0, 1, 2]);
    let new = suite(&RADIO, &[chain(1_000, &[0, 1, 2])]);
    assert_eq!((Ok(new), Ok(old)), (to_second(&old), to_first(&new)));
    assert_eq!((Ok(old), Ok(new)), (to_first(&old), to_second(&new)));
    // 18, "exactly when the count is not 1 or the limit not 1,000"
    let one = |limit| suite(&RADIO, &[chain(limit, &[0])]);
    let two = |limit| suite(&RADIO, &[chain(limit, &[0]), chain(1_000, &[1])]);
    for s in [one(999), one(1_001), one(500), one(0), one(4_000_000), two(1_000), two(999), largest(16, 8)] {
        assert_eq!((Ok(s), Err(alone(18))), (to_second(&s), to_first(&s)));
    }
    // "A conversion judges the fields and 18 only": H, J and lateness are no matter.
    for (a, b, budget) in [(1_000, 1_001, 1), (2, 16_384, 1), (2, 3, 2)] {
        let tasks = [Task { period: a, budget: 1, rank: 2 }, Task { period: b, budget, rank: 1 }];
        assert_eq!(Ok(memory(&tasks, &[1])), to_first(&to_second(&memory(&tasks, &[1])).unwrap()));
    }
    assert_eq!(Err(at(8, 18 + 42 * 3 + 31)), to_first(&suite(&RADIO, &[chain(5, &[1, 1])])));
    assert_eq!(Err(alone(13)), to_first(&one(4_000_001)));
    assert_eq!(Err(alone(17)), to_first(&Memory { suite: 0, ..one(999) }));
    assert_eq!(Err(alone(16)), to_first(&Memory { edition: 0, ..one(999) }));
}

/// "there and back gives the same bytes", and the report of an old sheet is that of the converted one.
#[test]
fn there_and_back() {
    let mut random = Random::new(9);
    let (mut old, mut new, mut stay) = (0, 0, 0);
    for _ in 0..1_000 {
        let s = any_sheet(&mut random);
        let bytes = written(&s);
        let (second, first) = (converted(2, &bytes).unwrap(), converted(1, &bytes));
        if s.edition == 1 {
            assert_eq!(Ok(bytes.clone()), converted(1, &second));
            assert_eq!((0xF9, Ok(&bytes)), (second[0], first.as_ref()));
            if s.tasks().iter().all(|t| t.period <= 100) {
                assert_eq!(report(&bytes), report(&second));
            }
            old += 1;
        } else {
            assert_eq!(bytes, second);
            match first {
                Ok(first) => {
                    assert_eq!(Ok(bytes), converted(2, &first));
                    assert_eq!((1, 1_000), (s.suite, s.chains[0].limit));
                    new += 1;
                }
                Err(r) => {
                    assert_eq!(alone(18), r);
                    assert!(s.suite != 1 || s.chains[0].limit != 1_000);
                    stay += 1;
                }
            }
        }
    }
    assert!(old > 100 && new > 20 && stay > 100, "{old} {new} {stay}");
}
