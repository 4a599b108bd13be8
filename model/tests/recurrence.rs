//! The recurrence of document 02 against figures worked out by hand, against its own search, and against schedules.

use model::chain::figures;
use model::generate::{odd_sheet, sheet, some_chain};
use model::random::Random;
use model::recurrence::{climb, quick, response, Quick};
use model::report::{bound, report};
use model::schedule::{hyperperiod, night};
use model::sheet::{encoded, memory, Memory, Task};
use model::Refusal;

fn tasks(list: &[(u32, u32, u8)]) -> Vec<Task> {
    list.iter().map(|&(period, budget, rank)| Task { period, budget, rank }).collect()
}

fn of(list: &[(u32, u32, u8)], chain: &[u8]) -> Result<Quick, Refusal> {
    quick(&memory(&tasks(list), chain), 1)
}

fn answered(responses: &[u32], sampling_bound: u32, bound: u32) -> Result<Quick, Refusal> {
    Ok(Quick { responses: responses.to_vec(), sampling_bound, bound })
}

fn late(task: usize) -> Result<Quick, Refusal> {
    Err(Refusal::with(15, task))
}

/// "Periods 997, 1,009 and 1,013 are refused with 10": no two have a common divisor, so a pair adds T − 1 of the consumer and, where it
/// outranks the producer, R of the producer.
#[test]
fn odd_periods() {
    let budgets = |a, b, c| [(997, a, 3), (1_009, b, 2), (1_013, c, 1)];
    let bytes = encoded(&tasks(&budgets(100, 200, 300)), &[2, 1, 0]);
    assert_eq!("refused 10\n", report(&bytes));
    assert_eq!("task 0 response 100\ntask 1 response 300\ntask 2 response 600\nchain 2 1 0\nbound 4016\n", bound(&bytes));
    assert_eq!(answered(&[100, 300, 600], 600 + 1_008 + 300 + 996 + 100, 4_016), of(&budgets(100, 200, 300), &[2, 1, 0]));
    assert_eq!(answered(&[100, 300, 600], 1_008 + 1_012 + 600, 2_620 + 996), of(&budgets(100, 200, 300), &[0, 1, 2]));
    assert_eq!(answered(&[1, 2, 3], 3, 3 + 1_012), of(&budgets(1, 1, 1), &[2]));
    // With 347 it is 997, the first task's next release; with 348 another 300 come before the job is done.
    assert_eq!(answered(&[300, 650, 700], 700, 700 + 1_012), of(&budgets(300, 350, 50), &[2]));
    assert_eq!(answered(&[300, 650, 997], 997, 997 + 1_012), of(&budgets(300, 350, 347), &[2]));
    assert_eq!(late(2), of(&budgets(300, 350, 348), &[2]));
    assert_eq!(answered(&[997], 997, 997 + 996), of(&[(997, 997, 0)], &[0]));
    // Nothing is left for the others, of which the greater-ranked is named.
    assert_eq!(late(1), of(&budgets(997, 1, 1), &[0]));
}

/// 983, 998 with one job of each, 1,010 with two of the first, 1,013 with two of both: the value is the period, and with a tick more it is past.
#[test]
fn just_fits() {
    let last = |budget| tasks(&[(997, 12, 3), (1_009, 3, 2), (1_013, budget, 1)]);
    assert_eq!(vec![983, 998, 1_010, 1_013], climb(&last(983), 2));
    assert_eq!(Some(1_013), response(&last(983), 2));
    assert_eq!(vec![984, 999, 1_011, 1_014], climb(&last(984), 2));
    assert_eq!(None, response(&last(984), 2));
    assert_eq!(vec![2, 3, 4], climb(&tasks(&[(2, 1, 2), (4, 2, 1)]), 1));
    assert_eq!(answered(&[1, 4], 4, 7), of(&[(2, 1, 2), (4, 2, 1)], &[1]));
    assert_eq!(late(1), of(&[(2, 1, 2), (3, 2, 1)], &[1]));
}

#[test]
fn sheets_of_document_01() {
    let radio = [(20, 5, 1), (6, 1, 3), (12, 3, 2)];
    assert_eq!(answered(&[4, 1, 2], 8, 15), of(&[(8, 1, 1), (2, 1, 3), (4, 1, 2)], &[0, 1, 2]));
    assert_eq!(answered(&[10, 1, 4], 24, 43), of(&radio, &[0, 1, 2]));
    assert_eq!(answered(&[10, 1, 4], 15, 34), of(&radio, &[0, 1]));
    assert_eq!(answered(&[1, 2, 3, 5], 8, 10), of(&[(6, 1, 4), (6, 1, 3), (3, 1, 2), (6, 1, 1)], &[2, 3]));
    assert_eq!(answered(&[5], 5, 9), of(&[(5, 5, 1)], &[0]));
    assert_eq!(Err(Refusal::with(4, 22)), of(&[(5, 6, 1)], &[0]));
    assert_eq!(late(1), of(&[(2, 1, 2), (3, 2, 1)], &[0]));
    for (first, second) in [(1_000, 999), (1_000, 1_001), (2, 16_382), (2, 16_384)] {
        assert_eq!(answered(&[1, 2], 1, first), of(&[(first, 1, 2), (second, 1, 1)], &[0]));
    }
}

#[test]
fn the_order_of_refusals() {
    // A field before 15, and of two late tasks the greater-ranked, wherever it stands.
    assert_eq!(Err(Refusal::with(8, 98)), of(&[(2, 1, 2), (3, 2, 1)], &[0, 0]));
    assert_eq!(late(0), of(&[(3, 1, 2), (10, 6, 1), (2, 2, 3)], &[0]));
    assert_eq!(late(1), of(&[(10, 6, 1), (3, 1, 2), (2, 2, 3)], &[0]));
}

/// The search rises, and ends at the least fixed point or past the period.
#[test]
fn the_search_finds_the_least() {
    let mut random = Random::new(4);
    for _ in 0..2_000 {
        let s = odd_sheet(&mut random);
        let tasks = s.tasks();
        for i in 0..tasks.len() {
            let values = climb(tasks, i);
            assert!(values.windows(2).all(|pair| pair[0] < pair[1]));
            let last = *values.last().unwrap();
            assert_eq!(response(tasks, i), (last <= tasks[i].period.into()).then_some(last as u32));
        }
    }
}

/// "On each sheet the full calculation accepts, this number is proved to be the greatest response in that task's row", and 15 names the same task.
#[test]
fn with_and_without_a_table() {
    let mut random = Random::new(5);
    let (mut accepted, mut refused) = (0, 0);
    while accepted < 1_000 || refused < 200 {
        let s = sheet(&mut random);
        if hyperperiod(s.tasks()).map_or(true, |h| h > 3_000) {
            continue;
        }
        let chain = some_chain(&mut random, &s);
        match figures(&s, chain, &mut [0; 8_192]) {
            Ok((w, f)) => {
                let responses = w.greatest_responses();
                assert_eq!(Ok(Quick { responses, sampling_bound: f.sampling_bound, bound: f.bound }), quick(&s, chain), "{s:?}");
                accepted += 1;
            }
            Err(r) => {
                assert_eq!(15, r.number);
                assert_eq!(Err(r), quick(&s, chain), "{s:?}");
                refused += 1;
            }
        }
    }
}

/// Whatever the hyperperiod: the first job takes exactly the value, and no later one longer; where the value passes the period, the first
/// job is late.
#[test]
fn beyond_the_hyperperiod() {
    let mut random = Random::new(6);
    for _ in 0..300 {
        let s = odd_sheet(&mut random);
        let tasks = s.tasks().to_vec();
        let greatest = tasks.iter().map(|t| t.period).max().unwrap();
        if greatest > 5_000 {
            continue;
        }
        let n = night(&tasks, 5 * greatest, |i, _| tasks[i].budget);
        for (i, t) in tasks.iter().enumerate() {
            let taken = |k: usize| n.finishes[i][k].map(|finish| finish - k as u32 * t.period);
            let value = response(&tasks, i);
            assert_eq!(value, taken(0).filter(|&first| first <= t.period));
            if let Some(value) = value {
                assert!((0..n.finishes[i].len()).all(|k| taken(k).map_or(true, |response| response <= value)), "{s:?}");
            }
        }
    }
}

/// A sheet at random has all that the tests above are about.
#[test]
fn odd_sheets_are_of_every_kind() {
    let mut random = Random::new(7);
    let sheets: Vec<Memory> = (0..2_000).map(|_| odd_sheet(&mut random)).collect();
    let tasks = |s: &Memory| s.tasks().to_vec();
    let fits = |s: &Memory| (0..s.count as usize).any(|i| response(&tasks(s), i) == Some(s.tasks[i].period));
    let count = |test: &dyn Fn(&Memory) -> bool| sheets.iter().filter(|s| test(s)).count();
    assert!(count(&|s| quick(s, 1).is_ok() && hyperperiod(&tasks(s)).is_none()) > 500);
    assert!(count(&|s| quick(s, 1).is_err() && hyperperiod(&tasks(s)).is_none()) > 100);
    assert!(count(&|s| quick(s, 1).is_ok() && s.count > 1 && fits(s)) > 50);
}
