//! The probe against the model on requests by chance, and demand 3 by experiment on what the probe answers.
//!
//!     differential [--seed S] [--requests N] [--progress]
//!
//! The same seed repeats the same requests. The first difference is printed in words and ends the run with status 1.

use model::bits::number;
use model::experiment::{experiment, experiment_with_bounds, Claim, Followed};
use model::generate::{odd_sheet, request, sheet, some_chain};
use model::probe::{answer, readable, run_calls, words, Answer, Call, Handed, Lent, Probe, Request, CALLS};
use model::random::Random;
use model::schedule::sizes;
use model::sheet::{judge, Memory, Task};
use model::telltale;
use std::collections::BTreeSet;
use std::process::exit;

/// So many requests meet everything that the calls can answer.
const ENOUGH: u64 = 50_000;

/// Each of 1 to 9 is met at so many bits or more; 2 has one.
const PLACES: usize = 12;

/// The model goes tick by tick, so experiments on sheets of any hyperperiod have no longer periods.
const MOST_ODD: u32 = 1_100;

/// An experiment goes over many hyperperiods, so there is one for so many requests.
const REQUESTS_PER_EXPERIMENT: u64 = 20;

struct Run {
    seed: u64,
    requests: u64,
    progress: bool,
}

fn run() -> Run {
    let mut run = Run { seed: 1, requests: ENOUGH, progress: false };
    let mut words = std::env::args().skip(1);
    while let Some(word) = words.next() {
        let mut number = || words.next().and_then(|n| n.parse().ok()).unwrap_or_else(usage);
        match word.as_str() {
            "--seed" => run.seed = number(),
            "--requests" => run.requests = number(),
            "--progress" => run.progress = true,
            _ => usage(),
        }
    }
    run
}

fn usage<T>() -> T {
    eprintln!("usage: differential [--seed S] [--requests N] [--progress]");
    exit(2)
}

impl Run {
    fn progress(&self, done: u64, all: u64, what: &str) {
        if self.progress && (done % 500 == 0 || done == all) {
            eprint!("\r{done} of {all} {what}{}", if done == all { "\n" } else { "" });
        }
    }
}

/// What was met: for each call the answers without a refusal, and those with each number.
#[derive(Default)]
struct Met {
    accepted: [u64; CALLS.len()],
    refused: [[u64; 22]; CALLS.len()],
    /// Each number that comes with a bit of a sheet, and that bit.
    places: BTreeSet<(u8, u32)>,
    over: u64,
    /// Of the sheets whose fields are fine, in bytes and in memory: edition and number of chains.
    suites: BTreeSet<(bool, u8, u8)>,
    /// Chain numbers that the sheet lacks: one more than the last, 0 and 255.
    one_more: u64,
    zeroth: u64,
    last_number: u64,
    /// Of the sheets that were taken with a table: task count with the length of the chain asked for, and how many have the greatest H and J.
    shapes: BTreeSet<(u8, u8)>,
    greatest_hyperperiod: u64,
    most_jobs: u64,
    /// And how many have a first task with the least and with the greatest period.
    least_first: u64,
    greatest_first: u64,
    /// Of the sheets whose bound was asked for without a table: how many of those whose H or J is over its limit are answered and how many
    /// are late, and how many have an outranked task whose response is its period.
    beyond: u64,
    beyond_late: u64,
    just_fit: u64,
    /// Of the tell-tale's calls: how often 25 and 26, a time across the rollover, the greatest time, and the count that stays.
    none_underway: u64,
    too_long: u64,
    rolled_over: u64,
    greatest_time: u64,
    full_count: u64,
    nights: Nights,
}

/// Of the replays that were answered: how many logs agree and how many break, at the first record and later; how many have a path and how
/// many have none; how many reach the sampling figure; how many roll over, have no record, and have as many as can be. And of the logs that
/// were refused with 1 and with 9, how many.
#[derive(Default)]
struct Nights {
    agree: u64,
    at_once: u64,
    later: u64,
    paths: u64,
    no_path: u64,
    reached: u64,
    rollovers: u64,
    empty: u64,
    longest: u64,
    ended: u64,
    surplus: u64,
}

impl Nights {
    fn note(&mut self, q: &Request, a: &Answer) {
        match (a.refusal, &a.values[..]) {
            (None, &[records, paths, _, delay, _, breaks, record, figure, _]) => {
                self.agree += u64::from(breaks == 0);
                self.at_once += u64::from(breaks == 1 && record == 0);
                self.later += u64::from(record > 0);
                self.paths += u64::from(paths > 0);
                self.no_path += u64::from(paths == 0);
                self.reached += u64::from(paths > 0 && delay == figure);
                let number = |at| number(&q.log, at, 32);
                self.rollovers += u64::from(records > 0 && number(44 + 37 * (records - 1) + 5) < number(0));
                self.empty += u64::from(records == 0);
                self.longest += u64::from(records == 4_095);
            }
            // Bytes of a sheet that are refused are no sheet.
            (Some(r), _) if q.sheet.memory().is_some() => {
                self.ended += u64::from(r.number == 1);
                self.surplus += u64::from(r.number == 9);
            }
            _ => (),
        }
    }

    fn print(&self) {
        println!(
            "  logs: {} agree, {} break at once, {} later; {} with paths, {} without, {} as long as the figure; {} roll over, {} empty, {} longest",
            self.agree, self.at_once, self.later, self.paths, self.no_path, self.reached, self.rollovers, self.empty, self.longest
        );
    }

    fn each(&self) -> [(u64, &'static str); 11] {
        [
            (self.agree, "a log that agrees"),
            (self.at_once, "a log that breaks at its first record"),
            (self.later, "a log that breaks later"),
            (self.paths, "a log with a path"),
            (self.no_path, "a log without a path"),
            (self.reached, "a path as long as the sampling figure"),
            (self.rollovers, "a log that rolls over"),
            (self.empty, "a log of no records"),
            (self.longest, "a log of 4,095 records"),
            (self.ended, "a log that ends inside a field"),
            (self.surplus, "a log with something behind it"),
        ]
    }
}

impl Met {
    fn note(&mut self, q: &Request, a: &Answer) {
        let at = q.call as usize - 1;
        match a.refusal {
            None => self.accepted[at] += 1,
            Some(r) => {
                self.refused[at][r.number as usize] += 1;
                let of_log = q.call == Call::Replay && [1, 9].contains(&r.number);
                self.places.extend(r.value.filter(|_| r.number <= 9 && !of_log).map(|bit| (r.number, bit)));
            }
        }
        self.over += u64::from(q.call == Call::Lcm && a.values[0] == 0);
        if let (Call::Telltale, Handed::Bytes(bytes)) = (q.call, &q.sheet) {
            self.note_run(&run_calls(bytes), &a.values);
        }
        if let (Call::QuickBound, Some(s)) = (q.call, q.sheet.memory()) {
            self.note_quick(&s, a);
        }
        if q.call == Call::Replay {
            self.nights.note(q, a);
        }
        let on_a_sheet = q.call as u32 >= Call::Judge as u32 && q.call != Call::Telltale;
        if let Some(s) = q.sheet.memory().filter(|s| on_a_sheet && judge(s).is_ok()) {
            self.note_sheet(q, &s, a);
        }
    }

    fn note_sheet(&mut self, q: &Request, s: &Memory, a: &Answer) {
        self.suites.insert((matches!(q.sheet, Handed::Bytes(_)), s.edition, s.chain_count()));
        let number = q.numbers[1] as u8;
        if a.refusal == Some(17.into()) {
            self.one_more += u64::from(number == s.chain_count() + 1);
            self.zeroth += u64::from(number == 0);
            self.last_number += u64::from(number == 255);
        }
        let numbers = q.call.refusals();
        if a.refusal.is_none() && numbers.contains(&14) && numbers.contains(&15) {
            let z = sizes(s).expect("a sheet that is taken has sizes");
            self.greatest_hyperperiod += u64::from(z.hyperperiod == 1_000_000);
            self.most_jobs += u64::from(z.jobs == 8_192);
            let chain = s.chain(number.max(1));
            self.shapes.insert((s.count, chain.len() as u8));
            let first = z.tasks[chain[0] as usize].period;
            self.least_first += u64::from(first == 1);
            self.greatest_first += u64::from(first == 100_000);
        }
    }

    fn note_run(&mut self, calls: &[telltale::Call], values: &[u32]) {
        for (call, values) in calls.iter().zip(values.chunks(6)) {
            let (number, ticks, count) = (values[0], values[1], values[5]);
            self.none_underway += u64::from(number == 25);
            self.too_long += u64::from(number == 26);
            self.rolled_over += u64::from(matches!(*call, telltale::Call::Stamp(counter) if counter < ticks));
            self.greatest_time += u64::from(ticks == 2_147_483_647);
            self.full_count += u64::from(count == 65_535);
        }
    }

    fn note_quick(&mut self, s: &Memory, a: &Answer) {
        let beyond = matches!(sizes(s), Err(r) if r.number >= 10);
        self.beyond += u64::from(beyond && a.refusal.is_none());
        self.beyond_late += u64::from(beyond && a.refusal.is_some());
        let fits = |(task, response): (&Task, &u32)| task.budget < *response && *response == task.period;
        self.just_fit += u64::from(a.refusal.is_none() && s.tasks.iter().zip(&a.values[2..]).any(fits));
    }

    fn with_number(&self, number: usize) -> u64 {
        self.refused.iter().map(|numbers| numbers[number]).sum()
    }

    fn bits_with(&self, number: u8) -> usize {
        self.places.iter().filter(|place| place.0 == number).count()
    }

    fn print(&self) {
        for (at, call) in CALLS.iter().enumerate() {
            let (name, accepted) = (format!("{call:?}"), self.accepted[at]);
            let refused: u64 = self.refused[at].iter().sum();
            println!("  {name:<16}{:>7} requests{accepted:>7} accepted{refused:>7} refused", accepted + refused);
        }
        let numbers: Vec<String> = (1..=21).map(|n| format!("{n}: {}", self.with_number(n))).collect();
        println!("  refusals by number: {}", numbers.join(", "));
        let bits: Vec<String> = (1..=9).map(|n| format!("{n}: {}", self.bits_with(n))).collect();
        println!("  different bits by number: {}", bits.join(", "));
        println!(
            "  {} kinds of edition and number of chains; no such chain: number 0 {} times, one too many {}, 255 {}",
            self.suites.len(),
            self.zeroth,
            self.one_more,
            self.last_number
        );
        println!(
            "  {} pairs of task count and chain length taken, {} times H 1,000,000, {} times J 8,192",
            self.shapes.len(),
            self.greatest_hyperperiod,
            self.most_jobs
        );
        println!("  first tasks of period 1 taken {} times, of 100,000 {} times", self.least_first, self.greatest_first);
        println!(
            "  without a table and beyond H or J {} answered, {} late; {} where a task just fits",
            self.beyond, self.beyond_late, self.just_fit
        );
        println!(
            "  tell-tale: 25 {} times, 26 {}, across the rollover {}, the greatest time {}, count 65,535 {}",
            self.none_underway, self.too_long, self.rolled_over, self.greatest_time, self.full_count
        );
        self.nights.print();
    }

    /// Everything that the calls can answer, and that was not met.
    fn missing(&self) -> Vec<String> {
        let mut missing = Vec::new();
        for (at, call) in CALLS.iter().enumerate() {
            if self.accepted[at] == 0 {
                missing.push(format!("{call:?} accepted"));
            }
            let never = call.refusals().into_iter().filter(|&n| self.refused[at][n as usize] == 0);
            missing.extend(never.map(|n| format!("{call:?} refused {n}")));
        }
        let few = (1..=9).filter(|&n| self.bits_with(n) < if n == 2 { 1 } else { PLACES });
        missing.extend(few.map(|n| format!("{n} at {PLACES} bits")));
        let shapes = (1..=16).flat_map(|n| (1..=n).map(move |m| (n, m))).filter(|shape| !self.shapes.contains(shape));
        missing.extend(shapes.map(|(n, m)| format!("{n} tasks with a chain of {m}")));
        let suites = [false, true].into_iter().flat_map(|bytes| (1..=8).map(move |k| (bytes, 2, k)).chain([(bytes, 1, 1)]));
        missing.extend(suites.filter(|kind| !self.suites.contains(kind)).map(|kind| format!("{kind:?}: in bytes, edition, chains")));
        let once = [
            (self.zeroth, "chain number 0"),
            (self.one_more, "a chain number one too great"),
            (self.last_number, "chain number 255"),
            (self.over, "a multiple over its limit"),
            (self.greatest_hyperperiod, "H 1,000,000"),
            (self.most_jobs, "J 8,192"),
            (self.least_first, "a first task of period 1"),
            (self.greatest_first, "a first task of period 100,000"),
            (self.beyond, "a bound beyond H or J"),
            (self.beyond_late, "a late task beyond H or J"),
            (self.just_fit, "a task that just fits"),
            (self.none_underway, "a stamp refused with 25"),
            (self.too_long, "a stamp refused with 26"),
            (self.rolled_over, "an elapsed time across the rollover"),
            (self.greatest_time, "the greatest elapsed time"),
            (self.full_count, "a count of 65,535"),
        ];
        missing.extend(once.into_iter().chain(self.nights.each()).filter(|(times, _)| *times == 0).map(|(_, what)| what.into()));
        missing
    }
}

/// The probe's answer, nothing if it gives none. One request is under way at a time; the model works while the probe does.
fn asked<T>(probe: &mut Probe, q: &Request, meanwhile: impl FnOnce() -> T) -> (Vec<u8>, T) {
    let sent = probe.send(q);
    let done = meanwhile();
    (sent.and_then(|_| probe.receive()).unwrap_or_default(), done)
}

fn compare(probe: &mut Probe, run: &Run) -> Met {
    let mut random = Random::new(run.seed);
    let mut met = Met::default();
    for number in 1..=run.requests {
        let q = request(&mut random);
        let (got, expected) = asked(probe, &q, || answer(&q));
        let expected_bytes = expected.bytes();
        if got != expected_bytes {
            println!("seed {}, request {number}: {q}", run.seed);
            println!("expected {}\ngot      {}", readable(&expected_bytes), readable(&got));
            exit(1);
        }
        met.note(&q, &expected);
        run.progress(number, run.requests, "requests");
    }
    met
}

/// The words of the probe's answer on a chain of a sheet in memory, with a table that is large enough for any.
fn ask(probe: &mut Probe, call: Call, s: &Memory, number: u8) -> Vec<u32> {
    let lent = match call {
        Call::QuickBound => Lent::Bytes(vec![]),
        _ => Lent::Table { room: 8_192, words: vec![] },
    };
    let q = Request { call, numbers: [0, number.into(), 0], sheet: Handed::Memory(*s), log: vec![], lent };
    words(&asked(probe, &q, || ()).0)
}

/// What the probe says of a chain, unless it refuses the sheet.
fn claim(probe: &mut Probe, s: &Memory, number: u8) -> Option<Claim> {
    match ask(probe, Call::Figures, s, number)[..] {
        [_, 0, 0, _, _, _, sampling, release, sampling_bound, worst, bound, ..] => Some(Claim { sampling, release, sampling_bound, worst, bound }),
        _ => None,
    }
}

/// With a table and without: both bounds and the response of each task, or 15 with its task; nothing where H or J is over its limit.
fn agree(probe: &mut Probe, s: &Memory, number: u8) -> bool {
    let (full, quick) = (ask(probe, Call::Figures, s, number), ask(probe, Call::QuickBound, s, number));
    match (&full[1..3], &quick[1..3]) {
        ([0, 0], [0, 0]) => (full[8], full[10], &full[14..30]) == (quick[3], quick[4], &quick[5..]),
        ([10 | 11, 0], [0, 0] | [15, _]) => true,
        (a, b) => a == b,
    }
}

/// What the experiments came to: sheets with and without a table, and what was followed on each.
#[derive(Default)]
struct Tried {
    accepted: u64,
    followed: Followed,
    bounds: u64,
    under_bounds: Followed,
}

/// Claims are the probe's own; each is tried on schedules of the model.
fn try_claims(probe: &mut Probe, run: &Run) -> Tried {
    let mut random = Random::new(!run.seed);
    let mut tried = Tried::default();
    let all = run.requests / REQUESTS_PER_EXPERIMENT;
    for number in 1..=all {
        let fail = |s: &Memory, trouble: String| -> ! {
            println!("seed {}, experiment {number}: {s:?}: {trouble}", run.seed);
            exit(1);
        };
        let s = sheet(&mut random);
        let chain = some_chain(&mut random, &s);
        if !agree(probe, &s, chain) {
            fail(&s, "with a table and without the answers differ".into());
        }
        if let Some(claim) = claim(probe, &s, chain) {
            let followed = experiment(&s, chain, claim, &mut random).unwrap_or_else(|trouble| fail(&s, format!("{claim:?}: {trouble}")));
            tried.accepted += 1;
            tried.followed.add(&followed);
        }
        let s = odd_sheet(&mut random);
        let chain = some_chain(&mut random, &s);
        if let (&[_, 0, 0, sampling_bound, bound, ..], true) = (&ask(probe, Call::QuickBound, &s, chain)[..], s.tasks.iter().all(|t| t.period <= MOST_ODD)) {
            let followed = experiment_with_bounds(&s, chain, sampling_bound, bound, &mut random);
            tried.bounds += 1;
            tried.under_bounds.add(&followed.unwrap_or_else(|trouble| fail(&s, format!("bounds {sampling_bound} and {bound}: {trouble}"))));
        }
        run.progress(number, all, "experiments");
    }
    tried
}

fn main() {
    let run = run();
    let mut probe = Probe::start();
    let met = compare(&mut probe, &run);
    let tried = try_claims(&mut probe, &run);
    if !probe.end().unwrap_or(false) {
        println!("the probe does not end with its input");
        exit(1);
    }
    met.print();
    if run.requests >= ENOUGH && !met.missing().is_empty() {
        println!("seed {}: never met: {}", run.seed, met.missing().join("; "));
        exit(1);
    }
    println!("differential: seed {}, {} requests as the model says", run.seed, run.requests);
    let Followed { paths, reached, rising, flags, latest } = tried.followed;
    println!(
        "differential: {} accepted sheets, {paths} readings followed, none later than its sampling figure, {reached} as late",
        tried.accepted
    );
    println!("differential: ranks rise along {rising} of the chains, and full budgets reach the sampling figure of each");
    println!("differential: {flags} flags raised, none stamped later than the worst after it, {latest} as late");
    let Followed { paths, flags, .. } = tried.under_bounds;
    println!("differential: {} sheets of any hyperperiod, {paths} readings and {flags} flags, none later than its quick bound", tried.bounds);
}
