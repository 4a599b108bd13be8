//! The experiment on demand 3 passes a true claim and finds each kind of false one, and the model's own figures pass it on sheets by
//! chance.

use model::chain::figures;
use model::experiment::{experiment, experiment_with_bounds, first_from, Claim, Followed};
use model::generate::{odd_sheet, sheet, some_chain};
use model::random::Random;
use model::recurrence::quick;
use model::schedule::night;
use model::sheet::{memory, Memory, Task};

fn tasks(list: &[(u32, u32, u8)]) -> Vec<Task> {
    list.iter().map(|&(period, budget, rank)| Task { period, budget, rank }).collect()
}

const RADIO: &[(u32, u32, u8)] = &[(20, 5, 1), (6, 1, 3), (12, 3, 2)];

/// What is true of sheet Radio with chain 0 1, along which ranks rise.
const TRUE: Claim = Claim { sampling: 13, release: 0, sampling_bound: 15, worst: 32, bound: 34 };

fn radio(claim: Claim) -> Result<Followed, String> {
    experiment(&memory(&tasks(RADIO), &[0, 1]), 1, claim, &mut Random::new(1))
}

fn trouble(claim: Claim) -> String {
    radio(claim).err().expect("the claim is false")
}

#[test]
fn true_claim() {
    let followed = radio(TRUE).unwrap();
    assert_eq!((15, 1, 300), (followed.paths, followed.rising, followed.flags));
    assert!(followed.reached >= 1);
    assert!(followed.latest >= 1);
}

#[test]
fn figure_too_low() {
    assert!(trouble(Claim { sampling: 12, ..TRUE }).contains("released at 0 is not there at 12"));
}

/// With full budgets the job released at 40 starts then; the next is released at 60 and takes 13.
#[test]
fn worst_too_low() {
    assert!(trouble(Claim { worst: 31, ..TRUE }).contains("Full demands: the flag raised at 41 is not stamped at 72"));
    assert!(trouble(Claim { worst: TRUE.sampling, ..TRUE }).contains("the flag raised at 5 is not stamped at 18"));
}

#[test]
fn figure_above_its_bound() {
    assert!(trouble(Claim { sampling_bound: 12, ..TRUE }).contains("the sampling figure 13 is above its bound 12"));
    assert!(trouble(Claim { bound: 31, ..TRUE }).contains("the worst 32 is above its bound 31"));
}

#[test]
fn figure_not_reached() {
    assert!(trouble(Claim { sampling: 14, ..TRUE }).contains("takes less than 14"));
    assert!(trouble(Claim { release: 20, ..TRUE }).contains("released at 20 takes less than 13"));
}

/// In Radio's full-budget schedule the jobs of task 0 start at 4, 20 and 40. A flag on the tick of a start is taken there; one that is
/// raised while a job waits to start is taken by that job, and one tick after its start by the next.
#[test]
fn the_job_that_takes_a_flag() {
    let radio = tasks(RADIO);
    let night = night(&radio, 120, |i, _| radio[i].budget);
    assert_eq!([Some(4), Some(20), Some(40), Some(64)], night.starts[0][..4]);
    assert_eq!([0, 0, 1, 1, 2, 2, 3, 3], [0, 4, 5, 20, 21, 40, 41, 64].map(|raised| first_from(&night, 0, raised)));
}

fn claim(s: &Memory, chain: u8) -> Option<Claim> {
    let (_, f) = figures(s, chain, &mut [0; 8_192]).ok()?;
    Some(Claim { sampling: f.sampling, release: f.release, sampling_bound: f.sampling_bound, worst: f.worst, bound: f.bound })
}

/// A first task alone that takes one tick: with whatever demands, the flag raised one tick after its start is as late as the worst.
#[test]
fn shortest_and_longest_first_period() {
    for period in [1, 2, 100_000] {
        let s = memory(&tasks(&[(period, 1, 1)]), &[0]);
        let followed = experiment(&s, 1, claim(&s, 1).unwrap(), &mut Random::new(1)).unwrap();
        assert_eq!((5 * u64::from(period), 5), (followed.flags, followed.latest));
    }
}

#[test]
fn figures_of_the_model() {
    let mut random = Random::new(2);
    let mut sum = Followed::default();
    for _ in 0..600 {
        let s = sheet(&mut random);
        let chain = some_chain(&mut random, &s);
        if let Some(claim) = claim(&s, chain) {
            sum.add(&experiment(&s, chain, claim, &mut random).unwrap_or_else(|trouble| panic!("{claim:?} of {s:?}: {trouble}")));
        }
    }
    assert!(sum.flags > 1_000_000 && sum.latest > 0 && sum.rising > 0);
}

/// Bounds are held to the schedules as figures are: Radio's sampling figure with chain 0 1 is 13, its worst 32.
#[test]
fn bounds_too_low() {
    let bounds = |sampling, bound| experiment_with_bounds(&memory(&tasks(RADIO), &[0, 1]), 1, sampling, bound, &mut Random::new(1));
    let followed = bounds(TRUE.sampling_bound, TRUE.bound).unwrap();
    assert_eq!((5 * 3, 5 * 60), (followed.paths, followed.flags));
    assert!(bounds(12, TRUE.bound).err().unwrap().contains("Full demands: the reading released at 0 is not there at 12"));
    assert!(bounds(TRUE.sampling_bound, 31).err().unwrap().contains("Full demands: the flag raised at 41 is not stamped at 72"));
}

/// The model's own quick bounds, of sheets whose hyperperiod is mostly out of reach.
#[test]
fn quick_bounds_of_sheets_by_chance() {
    let mut random = Random::new(8);
    for _ in 0..200 {
        let s = odd_sheet(&mut random);
        let short = s.tasks.iter().all(|t| t.period <= 1_100);
        let chain = some_chain(&mut random, &s);
        if let (true, Ok(q)) = (short, quick(&s, chain)) {
            experiment_with_bounds(&s, chain, q.sampling_bound, q.bound, &mut random).unwrap();
        }
    }
}
