//! Sheets and requests by chance: taken and late, at every limit and past it, damaged in a field or in the bytes.

use crate::probe::{fields, run_bytes, Call, Handed, Lent, Request, CALLS};
use crate::random::Random;
use crate::recurrence::response;
use crate::schedule::sizes;
use crate::sheet::{chain as limited, judge, marked_bits, memory, numbered, packed, suite, to_second, unjudged, Chain, Memory, Task, OLD_LIMIT};
use crate::{arith, chain, nights, telltale};

/// Ticks with many divisors, from which periods are taken. The model goes tick by tick, so the last are rare.
const SMALL: [u32; 6] = [6, 12, 24, 36, 48, 60];
const MIDDLE: [u32; 9] = [120, 180, 240, 360, 420, 720, 840, 1_260, 2_520];
const LARGE: [u32; 6] = [5_040, 7_560, 10_080, 20_160, 27_720, 50_400];
const GREATEST: [u32; 4] = [166_320, 498_960, 720_720, 1_000_000];

fn ticks(r: &mut Random) -> u32 {
    match r.between(0, 199) {
        0 => r.pick(&GREATEST),
        1..=19 => r.pick(&LARGE),
        20..=119 => r.pick(&MIDDLE),
        120..=149 => r.between(1, 100),
        _ => r.pick(&SMALL),
    }
}

/// Periods that divide these ticks, none so short that so many tasks could not be on time or would be too many jobs.
fn periods(r: &mut Random, n: u32, ticks: u32) -> Vec<u32> {
    let divisors: Vec<u32> = (1..=ticks.min(100_000)).filter(|t| ticks % t == 0).collect();
    let mut fitting = divisors.clone();
    fitting.retain(|t| *t >= n && ticks / t <= 8_192 / n);
    let from = if fitting.is_empty() { divisors } else { fitting };
    (0..n).map(|_| r.pick(&from)).collect()
}

/// Budgets that load the processor to between a fifth and a little too much.
fn budgets(r: &mut Random, periods: &[u32]) -> Vec<u32> {
    let load = u64::from(r.between(20, 110));
    let shares: Vec<u64> = periods.iter().map(|_| r.between(1, 10).into()).collect();
    let all: u64 = shares.iter().sum();
    periods.iter().zip(shares).map(|(&t, share)| ((u64::from(t) * load * share / (100 * all)) as u32).clamp(1, t)).collect()
}

/// Different ranks; mostly a shorter period has the greater one, as then more sheets are on time.
fn ranks(r: &mut Random, periods: &[u32]) -> Vec<u8> {
    let mut all: Vec<u8> = (0..=255).collect();
    r.shuffle(&mut all);
    let mut ranks = all[..periods.len()].to_vec();
    if !r.one_in(4) {
        let mut order: Vec<usize> = (0..periods.len()).collect();
        order.sort_by_key(|&i| periods[i]);
        let mut falling = ranks.clone();
        falling.sort_by_key(|&rank| std::cmp::Reverse(rank));
        for (i, rank) in order.into_iter().zip(falling) {
            ranks[i] = rank;
        }
    }
    ranks
}

/// Some of the tasks, each once, in any order or with rising ranks.
fn chain_of(r: &mut Random, tasks: &[Task]) -> Vec<u8> {
    let mut chain: Vec<u8> = (0..tasks.len() as u8).collect();
    r.shuffle(&mut chain);
    chain.truncate(r.between(1, tasks.len() as u32) as usize);
    if r.one_in(3) {
        chain.sort_by_key(|&i| tasks[i as usize].rank);
    }
    chain
}

/// A chain's own limit: any that is allowed, its ends, and the one that an old sheet's chain gets.
fn own_limit(r: &mut Random) -> u32 {
    match r.between(0, 4) {
        0 => r.pick(&[0, 1, 3_999_999, 4_000_000]),
        1 => r.between(0, 4_000_000),
        2 => r.between(0, 2_000),
        _ => OLD_LIMIT,
    }
}

/// An old sheet, or one with several chains over the same tasks, some of which may be alike.
fn sheet_of(r: &mut Random, periods: &[u32], budgets: &[u32]) -> Memory {
    let ranks = ranks(r, periods);
    let tasks: Vec<Task> =
        periods.iter().zip(budgets).zip(ranks).map(|((&period, &budget), rank)| Task { period, budget, rank }).collect();
    if r.one_in(2) {
        return memory(&tasks, &chain_of(r, &tasks));
    }
    let count = r.pick(&[1, 1, 2, 3, 4, 5, 6, 7, 8, 8]);
    let chains: Vec<Chain> = (0..count).map(|_| limited(own_limit(r), &chain_of(r, &tasks))).collect();
    suite(&tasks, &chains)
}

/// The number of a chain that the sheet has.
pub fn some_chain(r: &mut Random, s: &Memory) -> u8 {
    r.between(1, s.chain_count().into()) as u8
}

/// A sheet with nothing wrong in its fields; some are late.
pub fn sheet(r: &mut Random) -> Memory {
    let n = r.between(1, 16);
    let ticks = ticks(r);
    let periods = periods(r, n, ticks);
    let budgets = budgets(r, &periods);
    sheet_of(r, &periods, &budgets)
}

/// Periods with nothing to do with each other, so that H is mostly out of reach. The model tries every tick of a period, so long ones are rare.
fn odd_periods(r: &mut Random, n: u32) -> Vec<u32> {
    let (least, most) = match r.between(0, 19) {
        0 => (1, 100_000),
        1..=3 => (3, 40),
        4..=12 => (50, 400),
        _ => (990, 1_100),
    };
    (0..n).map(|_| r.between(least, most)).collect()
}

/// The period of the lowest rank made such that its value just fits, or just does not.
fn tight(r: &mut Random, s: &mut Memory) {
    let tasks = s.tasks();
    let low = (0..tasks.len()).min_by_key(|&i| tasks[i].rank).unwrap();
    if let Some(value) = response(tasks, low) {
        s.tasks[low].period = value.saturating_sub(r.pick(&[0, 0, 1])).max(tasks[low].budget);
    }
}

/// A sheet with nothing wrong in its fields and periods of any kind; some are late.
pub fn odd_sheet(r: &mut Random) -> Memory {
    let n = r.between(1, 16);
    let periods = odd_periods(r, n);
    let budgets = budgets(r, &periods);
    let mut s = sheet_of(r, &periods, &budgets);
    if r.one_in(4) {
        tight(r, &mut s);
    }
    s
}

/// A sheet at the limits of H, of J or of a field, or one past the limits of H and J.
pub fn at_a_limit(r: &mut Random) -> Memory {
    let periods = match r.between(0, 9) {
        0..=4 => {
            let rare = r.between(1, 15);
            let often = r.pick(&[8_191, 8_192, 8_192, 8_193]) - rare;
            let period = r.between(1, 11);
            [vec![period], vec![period * often; rare as usize]].concat()
        }
        // H is 999,999, 1,000,000, 1,000,000, 1,000,005 and 1,001,000; then H and J are too large.
        5..=7 => r.pick(&[[999, 1_001], [62_500, 40_000], [15_625, 320], [2_445, 409], [1_000, 1_001]]).to_vec(),
        8 => vec![1, 1_000, 1_001],
        _ => vec![r.pick(&[1, 100_000]); r.pick(&[1, 16])],
    };
    let budgets = match r.between(0, 3) {
        0 => periods.clone(),
        1 => budgets(r, &periods),
        _ => vec![1; periods.len()],
    };
    sheet_of(r, &periods, &budgets)
}

/// One field set to what is out of its range, at its end, or a repetition.
fn fault(r: &mut Random, s: &mut Memory) {
    let used = u32::from(s.count.clamp(1, 16)) - 1;
    let (i, j) = (r.between(0, used) as usize, r.between(0, used) as usize);
    let (n, period) = (s.count, s.tasks[i].period);
    let last = s.chain_count().clamp(1, 8) - 1;
    let c = &mut s.chains[r.between(0, last.into()) as usize];
    match r.between(0, 10) {
        0 => s.count = r.pick(&[0, 17, 18, 31, 255, n.wrapping_add(1), n.wrapping_sub(1)]),
        1 => s.tasks[i].period = r.pick(&[0, 1, 100_000, 100_001, 131_071, 131_072, u32::MAX]),
        2 => s.tasks[i].budget = r.pick(&[0, 1, period, period.wrapping_add(1), 131_071, 131_073, u32::MAX]),
        3 => s.tasks[i].rank = s.tasks[j].rank,
        4 => c.length = r.pick(&[0, 17, 31, 255, n, n.wrapping_add(1)]),
        5 => c.entries[j] = r.pick(&[0, 15, 16, 255, n, n.wrapping_sub(1)]),
        6 => c.entries[i] = c.entries[j],
        7 => c.limit = r.pick(&[0, 4_000_000, 4_000_001, 4_194_303, 4_194_304, 4_194_304 + 1_000, u32::MAX]),
        8 => s.suite = r.pick(&[0, 1, 8, 9, 15, 16, 17, 255]),
        9 => s.edition = r.pick(&[0, 1, 2, 3, 15, 17, 18, 255]),
        _ => s.tasks[i] = Task { period: r.any_size(), budget: r.any_size(), rank: r.word() as u8 },
    }
}

/// What stands in places that no count reaches, and of an old sheet in what it ignores.
fn noise(r: &mut Random, s: &mut Memory) {
    for i in usize::from(s.count).min(16)..16 {
        s.tasks[i] = Task { period: r.any_size(), budget: r.any_size(), rank: r.word() as u8 };
    }
    if s.edition == 1 {
        s.suite = r.pick(&[0, 1, 2, 8, 9, 255]);
        s.chains[0].limit = r.any_size();
    }
    let used = usize::from(s.chain_count()).min(8);
    for c in &mut s.chains[used..] {
        *c = Chain { limit: r.any_size(), length: r.pick(&[0, 1, 16, 17, 255]), entries: [r.word() as u8; 16] };
    }
    for c in &mut s.chains[..used] {
        for i in usize::from(c.length).min(16)..16 {
            c.entries[i] = r.word() as u8;
        }
    }
}

/// Cut short, longer, other bytes altogether, a bit of the last byte turned and perhaps a byte after it, or some bits anywhere.
fn damage(r: &mut Random, bytes: &mut Vec<u8>) {
    let last = bytes.len() - 1;
    match r.between(0, 5) {
        0 => bytes.truncate(r.between(0, last as u32) as usize),
        1 => bytes.extend(vec![0; r.pick(&[1, 1, 2, 3_900])]),
        2 => {
            let more = r.between(1, 3);
            bytes.extend(r.bytes(more));
        }
        3 => {
            let size = r.between(0, 200);
            *bytes = r.bytes(size);
        }
        4 => {
            bytes[last] ^= 1 << r.between(0, 7);
            bytes.extend(vec![0; r.pick(&[0, 0, 1])]);
        }
        _ => {
            for _ in 0..r.between(1, 3) {
                bytes[r.between(0, last as u32) as usize] ^= 1 << r.between(0, 7);
            }
        }
    }
}

/// Any sheet: most are well formed, many have a fault or several.
fn any_sheet(r: &mut Random) -> Memory {
    let mut s = match r.between(0, 39) {
        0 | 1 => at_a_limit(r),
        2..=5 => odd_sheet(r),
        _ => sheet(r),
    };
    if r.one_in(4) {
        for _ in 0..r.pick(&[1, 1, 2, 3]) {
            fault(r, &mut s);
        }
    }
    s
}

/// The bytes of any sheet, some of them damaged.
pub fn handed_as_bytes(r: &mut Random) -> Vec<u8> {
    let s = any_sheet(r);
    let mut bytes = match r.between(0, 29) {
        0 => packed(&marked_bits(r.pick(&[0, 1, 3, 15]), &s)),
        _ => unjudged(&s),
    };
    if r.one_in(5) {
        damage(r, &mut bytes);
    }
    bytes
}

fn handed(r: &mut Random) -> Handed {
    if r.one_in(3) {
        return Handed::Bytes(handed_as_bytes(r));
    }
    let mut s = any_sheet(r);
    if r.one_in(2) {
        noise(r, &mut s);
    }
    Handed::Memory(s)
}

/// Too short by one, exact, or longer; any length where nothing is known to be needed.
fn length(r: &mut Random, needed: Option<u32>) -> u32 {
    match (needed, r.between(0, 9)) {
        (None, _) => r.between(0, 40),
        (Some(needed), 0) => r.between(0, needed),
        (Some(needed), 1 | 2) => needed - 1,
        (Some(needed), 3..=5) => needed,
        (Some(needed), 6) => needed + 1,
        (Some(needed), _) => needed + r.between(2, 100),
    }
}

fn table(r: &mut Random, needed: Option<u32>) -> Lent {
    let room = length(r, needed);
    let count = r.pick(&[0, 1, 2, 3, 7, room.min(500)]);
    Lent::Table { room: room as usize, words: (0..count).map(|_| r.any_size()).collect() }
}

fn lent(r: &mut Random, call: Call, sheet: &Handed) -> Lent {
    let seen = sheet.memory();
    match call {
        Call::Write => {
            let room = length(r, seen.map(|s| unjudged(&s).len() as u32));
            Lent::Bytes(r.bytes(room))
        }
        Call::Compare => {
            let other = match seen {
                Some(s) => beside(r, &s),
                None => any_sheet(r),
            };
            Lent::Bytes(fields(&other))
        }
        Call::Judge | Call::Sizes | Call::QuickBound | Call::ToSecond | Call::ToFirst | Call::Numbered | Call::ChainCount | Call::QuickSuite => Lent::Bytes(vec![]),
        _ => table(r, seen.and_then(|s| sizes(&s).ok()).map(|z| z.jobs)),
    }
}

/// A sheet to compare with another: mostly the same with tasks that come, go and change, below chain one or not.
fn beside(r: &mut Random, s: &Memory) -> Memory {
    let mut other = *s;
    if r.one_in(8) {
        return any_sheet(r);
    }
    let count = usize::from(s.count).clamp(1, 16);
    let lowest = (0..count).map(|i| s.tasks[i].rank).min().unwrap();
    match r.between(0, 5) {
        0 => fault(r, &mut other),
        1 => other.chains[0] = limited(own_limit(r), &chain_of(r, s.tasks())),
        2 => other.chains[0].limit = own_limit(r),
        _ => {}
    }
    let i = r.between(0, 15).min(count as u32) as usize;
    match r.between(0, 5) {
        0 if i < 16 => other.tasks[i].budget = r.between(1, other.tasks[i].budget.clamp(1, 100_000)),
        1 if i < 16 => other.tasks[i].rank = r.word() as u8,
        2 => other.count = s.count.saturating_sub(1),
        3 | 4 if count < 16 && lowest > 0 => {
            other.tasks[count] = Task { period: r.pick(&[60, 120, 240, 1_000]), budget: 1, rank: r.pick(&[0, lowest - 1, lowest, lowest + 1]) };
            other.count = count as u8 + 1;
        }
        _ => {}
    }
    other
}

/// The number of a chain: mostly one that the sheet has, else one less than the first, one more than the last, or anything.
fn chain_number(r: &mut Random, seen: Option<Memory>) -> u32 {
    let count = u32::from(seen.map_or(1, |s| s.chain_count()));
    match r.between(0, 15) {
        0 => r.pick(&[0, 255]),
        1 => (count + 1).min(255),
        2 => r.between(0, 255),
        3 => count,
        _ => r.between(1, count.max(1)),
    }
}

/// A release: mostly one that the chain's first task has, else near one, at H, past it, or anything.
fn release(r: &mut Random, period: u32, hyperperiod: u32) -> u32 {
    let last = hyperperiod - period;
    match r.between(0, 11) {
        0 => hyperperiod,
        1 => hyperperiod + period * r.between(1, 3),
        2 => r.between(0, last) + r.pick(&[0, 1]),
        3 => r.any_size(),
        4 => last,
        5 => 0,
        _ => r.between(0, last / period) * period,
    }
}

fn limit(r: &mut Random) -> u32 {
    match r.between(0, 5) {
        0 => r.pick(&[3_999_999, 4_000_000, 4_000_001, u32::MAX]),
        1 => r.any_size(),
        2 => r.between(0, 4_000_000),
        _ => r.between(0, 2_000),
    }
}

/// A limit that the worst is, or is off by one.
fn tight_limit(r: &mut Random, s: &Memory, chain: u8) -> u32 {
    match chain::figures(s, chain, &mut [0; 8_192]) {
        Ok((_, figures)) => figures.worst + r.pick(&[0, 1, 2]) - 1,
        Err(_) => limit(r),
    }
}

/// The release or the limit of a call that takes one.
fn number(r: &mut Random, call: Call, seen: Option<Memory>, chain: u8) -> u32 {
    let sized = seen.and_then(|s| Some((s, sizes(&s).ok()?.hyperperiod))).filter(|(s, _)| numbered(s, chain).is_ok());
    match (call, sized) {
        (Call::Delay, Some((s, hyperperiod))) => release(r, s.tasks[s.chain(chain)[0] as usize].period, hyperperiod),
        (Call::Margin, Some((s, hyperperiod))) if hyperperiod <= 3_000 && r.one_in(3) => tight_limit(r, &s, chain),
        (Call::Margin, _) => limit(r),
        _ => r.any_size(),
    }
}

fn of_sheet(r: &mut Random, call: Call) -> Request {
    let sheet = match call {
        Call::ToFirst | Call::Compare => goes_back(r),
        _ => handed(r),
    };
    let lent = lent(r, call, &sheet);
    let chain = if call.names_a_chain() { chain_number(r, sheet.memory()) } else { 0 };
    let number = number(r, call, sheet.memory(), chain as u8);
    Request { call, numbers: [number, chain, 0], sheet, log: vec![], lent }
}

/// A replay of a log that is made for the sheet, or for another where the sheet's fields are refused; some logs are damaged. Most sheets are
/// taken, with a table that is large enough, as else no log is looked at.
fn of_log(r: &mut Random) -> Request {
    let sheet = if r.one_in(2) { handed(r) } else { Handed::Memory(sheet(r)) };
    let jobs = sheet.memory().and_then(|s| sizes(&s).ok()).map_or(20, |z| z.jobs as usize);
    let lent = if r.one_in(3) { lent(r, Call::Replay, &sheet) } else { Lent::Table { room: jobs, words: vec![r.word()] } };
    let seen = sheet.memory().filter(|s| judge(s).is_ok()).unwrap_or_else(|| sheet_of(r, &[20, 6, 12], &[5, 1, 3]));
    let mut log = nights::log(r, seen.tasks());
    if r.one_in(10) {
        damage(r, &mut log);
    }
    Request { call: Call::Replay, numbers: [0; 3], sheet, log, lent }
}

/// Mostly a sheet that was converted, so that it goes back.
fn goes_back(r: &mut Random) -> Handed {
    match handed(r) {
        Handed::Memory(s) if !r.one_in(4) => Handed::Memory(to_second(&s).unwrap_or(s)),
        other => other,
    }
}

/// Two numbers that often have something in common.
fn pair(r: &mut Random) -> (u32, u32) {
    if r.one_in(2) {
        return (r.any_size(), r.any_size());
    }
    let common = r.between(1, 5_000);
    (common * r.between(0, 2_000), common * r.between(0, 2_000))
}

fn of_numbers(r: &mut Random, call: Call) -> [u32; 3] {
    let (a, b) = pair(r);
    match call {
        Call::Lcm => {
            let least = arith::lcm(a, b, u32::MAX).unwrap_or(u32::MAX);
            let near = [least, least.saturating_sub(1), least.saturating_add(1), 1_000_000, r.any_size()];
            [a, b, r.pick(&near)]
        }
        Call::Up if r.one_in(2) && a > 0 => [a, (b / a * a).saturating_add(r.pick(&[0, 1, 2])).saturating_sub(1), 0],
        _ => [a, b, 0],
    }
}

/// A place in or near so many bytes, or far past them; a width; a value.
fn of_bits(r: &mut Random, bytes: u32) -> [u32; 3] {
    let at = if r.one_in(5) { r.any_size() } else { r.between(0, 8 * bytes + 40) };
    let width = if r.one_in(10) { r.any_size() } else { r.between(0, 40) };
    [at, width, r.any_size()]
}

/// Mostly none, and now and then as many as the count has room for, or nearly.
fn readings_before(r: &mut Random) -> u32 {
    if r.one_in(100) { 65_536 - r.between(0, 9) } else { r.between(0, 3) }
}

pub fn request(r: &mut Random) -> Request {
    let call = r.pick(&CALLS);
    let size = r.between(0, 40);
    let plain = Request { call, numbers: [0; 3], sheet: Handed::Bytes(vec![]), log: vec![], lent: Lent::Bytes(vec![]) };
    match call {
        Call::Gcd | Call::Lcm | Call::Up | Call::Magnitude => Request { numbers: of_numbers(r, call), ..plain },
        Call::Number => Request { numbers: of_bits(r, size), sheet: Handed::Bytes(r.bytes(size)), ..plain },
        Call::Put => Request { numbers: of_bits(r, size), lent: Lent::Bytes(r.bytes(size)), ..plain },
        Call::Read => Request { sheet: Handed::Bytes(handed_as_bytes(r)), ..plain },
        Call::Greatest => Request { lent: table(r, None), ..plain },
        Call::Telltale => Request { numbers: [readings_before(r), 0, 0], sheet: Handed::Bytes(run_bytes(&telltale::calls(r))), ..plain },
        Call::Replay => of_log(r),
        _ => of_sheet(r, call),
    }
}
