//! The tell-tale against what document 02, P13 says.

use model::random::Random;
use model::telltale::{calls, Call, Call::*, History, Record};
use model::Refusal;

/// What each call answers, and the record after the last.
fn made(history: &mut History, calls: &[Call]) -> (Vec<Result<u32, u8>>, Record) {
    let answers = calls.iter().map(|&call| history.make(call).map_err(|r: Refusal| r.number)).collect();
    (answers, history.record())
}

fn from_fresh(calls: &[Call]) -> (Vec<Result<u32, u8>>, Record) {
    made(&mut History::default(), calls)
}

fn underway(counter: u32, longest: u32, count: u16) -> Record {
    Record { underway: true, counter, longest, count }
}

fn ended(longest: u32, count: u16) -> Record {
    Record { underway: false, counter: 0, longest, count }
}

const HALF: u32 = 2_147_483_648;

#[test]
fn a_fresh_record_has_none_under_way_and_zeros() {
    assert_eq!(from_fresh(&[]), (vec![], ended(0, 0)));
}

#[test]
fn begin_while_one_is_under_way_keeps_the_older_counter() {
    assert_eq!(from_fresh(&[Begin(10), Begin(30)]).1, underway(10, 0, 0));
    assert_eq!(from_fresh(&[Begin(10), Begin(30), Stamp(45)]), (vec![Ok(0), Ok(0), Ok(35)], ended(35, 1)));
}

#[test]
fn a_second_stamp_finds_none_under_way() {
    assert_eq!(from_fresh(&[Stamp(5)]), (vec![Err(25)], ended(0, 0)));
    assert_eq!(from_fresh(&[Begin(10), Stamp(45), Stamp(50)]), (vec![Ok(0), Ok(35), Err(25)], ended(35, 1)));
}

#[test]
fn elapsed_ticks_are_taken_across_the_rollover() {
    assert_eq!(from_fresh(&[Begin(4_294_967_290), Stamp(4)]), (vec![Ok(0), Ok(10)], ended(10, 1)));
    assert_eq!(from_fresh(&[Begin(u32::MAX), Stamp(0)]).1, ended(1, 1));
}

#[test]
fn the_limit_is_2_147_483_648() {
    assert_eq!(from_fresh(&[Begin(5), Stamp(HALF + 4)]), (vec![Ok(0), Ok(HALF - 1)], ended(HALF - 1, 1)));
    assert_eq!(from_fresh(&[Begin(5), Stamp(HALF + 5)]), (vec![Ok(0), Err(26)], underway(5, 0, 0)));
    assert_eq!(from_fresh(&[Begin(HALF + 5), Stamp(5)]), (vec![Ok(0), Err(26)], underway(HALF + 5, 0, 0)));
    // The reading stays under way, and a later stamp may still end it.
    assert_eq!(from_fresh(&[Begin(5), Stamp(4), Begin(9), Stamp(12)]), (vec![Ok(0), Err(26), Ok(0), Ok(7)], ended(7, 1)));
}

#[test]
fn the_count_stays_at_65_535() {
    for (before, after) in [(65_533, 65_534), (65_534, 65_535), (65_535, 65_535), (65_536, 65_535)] {
        let mut history = History::default();
        for counter in 0..before {
            made(&mut history, &[Begin(counter), Stamp(counter)]);
        }
        assert_eq!(made(&mut history, &[Begin(1), Stamp(4)]), (vec![Ok(0), Ok(3)], ended(3, after)));
    }
}

/// Beside the history, the record kept from call to call as a unit would keep it.
#[test]
fn by_chance_a_record_that_is_kept_says_the_same() {
    let mut random = Random::new(13);
    for _ in 0..20_000 {
        let mut history = History::default();
        let mut kept = Record::default();
        for call in calls(&mut random) {
            let answer = history.make(call).map_err(|r| r.number);
            match (call, kept.underway) {
                (Begin(counter), false) => kept = Record { underway: true, counter, ..kept },
                (Begin(_), true) => {}
                (Stamp(_), false) => assert_eq!(answer, Err(25)),
                (Stamp(counter), true) => match counter.wrapping_sub(kept.counter) {
                    HALF.. => assert_eq!(answer, Err(26)),
                    ticks => {
                        assert_eq!(answer, Ok(ticks));
                        kept = ended(kept.longest.max(ticks), kept.count.saturating_add(1));
                    }
                },
            }
            assert_eq!(history.record(), kept);
        }
    }
}
