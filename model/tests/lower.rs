//! Document 02, P10, by experiment: wherever two sheets by chance differ only below chain one, its figures and responses are the same, whatever
//! the hyperperiods; and the condition asks for nothing that could be left out.

use model::chain::figures;
use model::generate::{sheet, some_chain};
use model::lower::{compare, Comparison};
use model::random::Random;
use model::sheet::{chain, suite, Memory, Task};

fn tasks(list: &[(u32, u32, u8)]) -> Vec<Task> {
    list.iter().map(|&(period, budget, rank)| Task { period, budget, rank }).collect()
}

fn one(list: &[(u32, u32, u8)], entries: &[u8]) -> Memory {
    suite(&tasks(list), &[chain(1_000, entries)])
}

/// What is said of chain one, or nothing of a sheet that is refused.
fn said(s: &Memory) -> Option<[u32; 5]> {
    let (_, f) = figures(s, 1, &mut [0; 8_192]).ok()?;
    Some([f.sampling, f.release, f.sampling_bound, f.worst, f.bound])
}

fn responses(s: &Memory) -> Vec<u32> {
    let (worked, _) = figures(s, 1, &mut [0; 8_192]).expect("the sheet is accepted");
    let all = worked.greatest_responses();
    s.chain(1).iter().map(|&c| all[usize::from(c)]).collect()
}

const RADIO: [(u32, u32, u8); 3] = [(20, 5, 10), (6, 1, 30), (12, 3, 20)];

fn found(list: &[(u32, u32, u8)], entries: &[u8]) -> Comparison {
    compare(&one(&RADIO, &[0, 1, 2]), &one(list, entries))
}

#[test]
fn radio() {
    let [a, b, c] = RADIO;
    assert_eq!(Comparison::Applies, found(&[a, b, c, (40, 9, 0)], &[0, 1, 2]));
    assert_eq!(Comparison::Applies, found(&[a, b, c, (40, 9, 9)], &[0, 1, 2]));
    assert_eq!(Comparison::Task(3, "new only"), found(&[a, b, c, (40, 1, 11)], &[0, 1, 2]));
    assert_eq!(Comparison::Task(0, "period"), found(&[(40, 5, 10), b, c], &[0, 1, 2]));
    assert_eq!(Comparison::Task(1, "budget"), found(&[a, (6, 2, 30), (12, 3, 21)], &[0, 1, 2]));
    assert_eq!(Comparison::Task(2, "rank"), found(&[a, b, (12, 3, 21)], &[0, 1, 2]));
    assert_eq!(Comparison::Chain, found(&RADIO, &[0, 2, 1]));
    assert_eq!(Comparison::Chain, found(&RADIO, &[0, 1]));
    assert_eq!(Comparison::Task(2, "old only"), compare(&one(&RADIO, &[0, 1]), &one(&[a, b], &[0, 1])));
}

/// A second sheet for a first: tasks come, go and change, mostly below chain one.
fn changed(r: &mut Random, old: &Memory) -> Memory {
    let lowest = old.chain(1).iter().map(|&c| old.tasks[usize::from(c)].rank).min().expect("a chain has a task");
    let mut list = old.tasks().to_vec();
    for _ in 0..r.between(1, 3) {
        let rank = if r.one_in(5) { r.between(0, 255) as u8 } else { r.between(0, u32::from(lowest)) as u8 };
        if list.iter().any(|t| t.rank == rank) {
            continue;
        }
        let period = r.pick(&[6, 10, 12, 15, 20, 24, 30, 36, 40, 60, 90, 120, 210]);
        let task = Task { period, budget: r.between(1, 1 + period / 12), rank };
        let i = r.between(0, list.len() as u32) as usize;
        if i == list.len() {
            list.truncate(15);
            list.push(task);
        } else if list[i].rank < lowest || r.one_in(6) {
            list[i] = task;
        }
    }
    if list.len() > 1 && list.last().is_some_and(|t| t.rank < lowest) && r.one_in(3) {
        list.pop();
    }
    if r.one_in(5) {
        let i = r.between(0, list.len() as u32 - 1) as usize;
        list[i].budget = r.between(1, list[i].budget);
    }
    suite(&list, &[chain(1_000, old.chain(1))])
}

/// The condition with one thing left out: chain task 0 alone, ranks that may be equal, or budgets not looked at.
fn applies_without(old: &Memory, new: &Memory, left_out: usize) -> bool {
    let counting = |s: &Memory, i: usize| {
        let entries = if left_out == 0 { &s.chain(1)[..1] } else { s.chain(1) };
        let rank = |c: &u8| s.tasks[usize::from(*c)].rank;
        i < s.tasks().len() && !entries.iter().all(|c| rank(c) > s.tasks[i].rank || (left_out == 1 && rank(c) == s.tasks[i].rank))
    };
    let same = |i: usize| {
        let (a, b) = (old.tasks[i], new.tasks[i]);
        i < old.tasks().len() && i < new.tasks().len() && a.period == b.period && a.rank == b.rank && (left_out == 2 || a.budget == b.budget)
    };
    old.chain(1) == new.chain(1) && (0..16).all(|i| same(i) || !(counting(old, i) || counting(new, i)))
}

#[test]
fn by_chance() {
    let mut r = Random::new(26);
    let (mut applies, mut other_hyperperiods, mut differs, mut moved) = (0, 0, 0, 0);
    let mut wrong = [0; 3];
    for _ in 0..1_200 {
        let s = sheet(&mut r);
        let number = some_chain(&mut r, &s);
        if said(&s).is_none() || s.tasks().iter().any(|t| t.period > 2_000) || !(1..=s.chain_count()).contains(&number) {
            continue;
        }
        let old = suite(s.tasks(), &[chain(1_000, s.chain(number))]);
        let new = changed(&mut r, &old);
        let (Some(before), Some(after)) = (said(&old), said(&new)) else { continue };
        match compare(&old, &new) {
            Comparison::Applies => {
                assert_eq!(before, after, "{old:?} {new:?}");
                assert_eq!(responses(&old), responses(&new), "{old:?} {new:?}");
                applies += 1;
                let hyperperiod = |s: &Memory| figures(s, 1, &mut [0; 8_192]).map(|(worked, _)| worked.hyperperiod).ok();
                other_hyperperiods += usize::from(hyperperiod(&old) != hyperperiod(&new));
            }
            _ => {
                differs += 1;
                moved += usize::from(before != after);
                for (left_out, count) in wrong.iter_mut().enumerate() {
                    *count += usize::from(before != after && applies_without(&old, &new, left_out));
                }
            }
        }
    }
    println!("{applies} apply, {other_hyperperiods} of them with other hyperperiods, {differs} differ, {moved} of them in a figure, {wrong:?}");
    assert!(applies > 50 && other_hyperperiods > 10 && differs > 20 && moved > 10);
    assert!(wrong.iter().all(|&count| count > 0), "no pair needs what was left out: {wrong:?}");
}
