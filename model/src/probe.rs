//! Requests of crates/probe, what the model answers to each, and the probe itself as a process.

use crate::lower::{compare, Comparison};
use crate::recurrence::{quick, quick_suite};
use crate::replay::{replay, Replay as Replayed};
use crate::schedule::Worked;
use crate::sheet::{judge, numbered, read, to_first, to_second, write, Chain, Memory, Task};
use crate::telltale::{self, History};
use crate::{arith, bits, chain, schedule, Refusal};
use std::fmt;
use std::io::{Read as _, Write as _};
use std::process::{Child, ChildStdin, ChildStdout, Command, Stdio};

/// The calls, by the numbers that the probe knows them by.
#[derive(Clone, Copy, PartialEq, Eq, Debug)]
pub enum Call {
    Gcd = 1,
    Lcm,
    Up,
    Magnitude,
    Number,
    Put,
    Read,
    Greatest,
    Judge,
    Write,
    Sizes,
    Responses,
    TaskResponses,
    Delay,
    Margin,
    DefaultMargin,
    Figures,
    QuickBound,
    Suite,
    ToSecond,
    ToFirst,
    Numbered,
    Telltale,
    Compare,
    ChainCount,
    QuickSuite,
    Replay,
}

use Call::*;

pub const CALLS: [Call; 27] = [
    Gcd, Lcm, Up, Magnitude, Number, Put, Read, Greatest, Judge, Write, Sizes, Responses, TaskResponses, Delay, Margin, DefaultMargin,
    Figures, QuickBound, Suite, ToSecond, ToFirst, Numbered, Telltale, Compare, ChainCount, QuickSuite, Replay,
];

impl Call {
    /// The numbers of refusal that the call can give, of the reader before it too.
    pub fn refusals(self) -> Vec<u8> {
        let fields = (1..=9).chain([13, 16, 17]);
        match self {
            Gcd | Lcm | Up | Magnitude | Number | Put | Greatest | Telltale => vec![],
            Read | Judge | ToSecond | Numbered | ChainCount => fields.collect(),
            ToFirst => fields.chain([18]).collect(),
            Write => fields.chain([14]).collect(),
            Sizes => fields.chain([10, 11]).collect(),
            Responses | TaskResponses | Margin | DefaultMargin | Figures | Suite => fields.chain([10, 11, 14, 15]).collect(),
            Delay => fields.chain([10, 11, 12, 14, 15]).collect(),
            QuickBound | QuickSuite => fields.chain([15]).collect(),
            Compare => fields.chain([10, 11, 15]).collect(),
            Replay => fields.chain([10, 11, 14, 15, 19, 20, 21]).collect(),
        }
    }

    /// Whether a request of the call names a chain.
    pub fn names_a_chain(self) -> bool {
        matches!(self, Delay | Margin | DefaultMargin | Figures | QuickBound | Numbered)
    }
}

/// A sheet as a request has it. Calls that take plain bytes find them here too.
#[derive(Clone)]
pub enum Handed {
    Bytes(Vec<u8>),
    Memory(Memory),
}

impl Handed {
    /// The sheet that the call sees, unless the reader refuses the bytes.
    pub fn memory(&self) -> Option<Memory> {
        match self {
            Handed::Bytes(bytes) => read(bytes).ok(),
            Handed::Memory(s) => Some(*s),
        }
    }
}

/// The memory that a call is lent and what it holds first: bytes, or entries with these words over and over.
#[derive(Clone)]
pub enum Lent {
    Bytes(Vec<u8>),
    Table { room: usize, words: Vec<u32> },
}

/// Of a call on a sheet the first number is a release or a limit, and the second the number of the chain; of a run of the tell-tale's calls,
/// which stands for the sheet, the first is how many readings come before it. A replay alone has a log.
#[derive(Clone)]
pub struct Request {
    pub call: Call,
    pub numbers: [u32; 3],
    pub sheet: Handed,
    pub log: Vec<u8>,
    pub lent: Lent,
}

/// In words that let a reader try it again by hand.
impl fmt::Display for Request {
    fn fmt(&self, f: &mut fmt::Formatter<'_>) -> fmt::Result {
        write!(f, "call {:?}, numbers {:?}", self.call, self.numbers)?;
        if let Handed::Bytes(bytes) = &self.sheet {
            write!(f, "\n  bytes {}", hex(bytes))?;
        }
        if let Some(s) = self.sheet.memory() {
            let tasks: Vec<_> = s.tasks.iter().map(|t| (t.period, t.budget, t.rank)).collect();
            write!(f, "\n  edition {} count {} tasks {tasks:?}\n  chains {}", s.edition, s.count, s.suite)?;
            for c in s.chains {
                write!(f, "\n    limit {} length {} entries {:?}", c.limit, c.length, c.entries)?;
            }
        }
        if self.call == Replay {
            write!(f, "\n  log {}", hex(&self.log))?;
        }
        match &self.lent {
            Lent::Bytes(bytes) => write!(f, "\n  lent {} bytes {}", bytes.len(), hex(bytes)),
            Lent::Table { room, words } => write!(f, "\n  lent {room} entries, over and over {words:?}"),
        }
    }
}

/// In groups of four bytes, which are words where everything before them is.
fn hex(bytes: &[u8]) -> String {
    let groups = bytes.chunks(4).map(|group| group.iter().map(|b| format!("{b:02x}")).collect::<String>());
    groups.collect::<Vec<_>>().join(" ")
}

/// The words of an answer, or of other bytes; the last that make no word are lost.
pub fn words(answer: &[u8]) -> Vec<u32> {
    answer.chunks_exact(4).map(|w| u32::from_be_bytes(w.try_into().unwrap())).collect()
}

/// An answer for a reader: the refusal in words, then the values and the lent memory.
pub fn readable(answer: &[u8]) -> String {
    let verdict = match words(answer)[..] {
        [_, 0, 0, ..] => "accepted".into(),
        [_, number, value, ..] => Refusal { number: number as u8, value: value.checked_sub(1) }.to_string(),
        _ => "no whole answer".to_string(),
    };
    format!("{verdict}, {}", hex(answer.get(12..).unwrap_or(answer)))
}

fn big_endian(words: &[u32]) -> Vec<u8> {
    words.iter().flat_map(|w| w.to_be_bytes()).collect()
}

/// A sheet in memory, field by field.
pub fn fields(s: &Memory) -> Vec<u8> {
    let mut bytes = vec![s.edition, s.count, s.suite];
    for t in s.tasks {
        bytes.extend(big_endian(&[t.period, t.budget]));
        bytes.push(t.rank);
    }
    for c in s.chains {
        bytes.extend(big_endian(&[c.limit]));
        bytes.push(c.length);
        bytes.extend(c.entries);
    }
    bytes
}

/// The sheet of such bytes, the missing ones 0.
fn sheet_in(bytes: &[u8]) -> Memory {
    let byte = |at: usize| bytes.get(at).copied().unwrap_or(0);
    let word = |at: usize| u32::from_be_bytes([byte(at), byte(at + 1), byte(at + 2), byte(at + 3)]);
    let task = |at: usize| Task { period: word(at), budget: word(at + 4), rank: byte(at + 8) };
    let chain = |at: usize| Chain { limit: word(at), length: byte(at + 4), entries: std::array::from_fn(|i| byte(at + 5 + i)) };
    Memory {
        edition: byte(0),
        count: byte(1),
        suite: byte(2),
        tasks: std::array::from_fn(|i| task(3 + 9 * i)),
        chains: std::array::from_fn(|i| chain(147 + 21 * i)),
    }
}

impl Request {
    /// As the probe reads it: eight words, the sheet, the first content of the lent memory. The log of a replay follows the sheet, whose size
    /// is then the first number.
    pub fn bytes(&self) -> Vec<u8> {
        let (form, mut sheet) = match &self.sheet {
            Handed::Bytes(bytes) => (0, bytes.clone()),
            Handed::Memory(s) => (1, fields(s)),
        };
        let (room, content) = match &self.lent {
            Lent::Bytes(bytes) => (0, bytes.clone()),
            Lent::Table { room, words } => (*room as u32, big_endian(&words[..words.len().min(*room)])),
        };
        let [mut a, b, c] = self.numbers;
        if self.call == Replay {
            a = sheet.len() as u32;
            sheet.extend(&self.log);
        }
        let header = [self.call as u32, form, a, b, c, room, sheet.len() as u32, content.len() as u32];
        [big_endian(&header), sheet, content].concat()
    }
}

/// What a call answers, and the lent memory after it.
pub struct Answer {
    pub refusal: Option<Refusal>,
    pub values: Vec<u32>,
    lent: Vec<u8>,
}

impl Answer {
    /// As the probe writes it.
    pub fn bytes(&self) -> Vec<u8> {
        let number = self.refusal.map_or(0, |r| r.number);
        let value = self.refusal.and_then(|r| r.value).map_or(0, |value| value + 1);
        let front = big_endian(&[number.into(), value]);
        let rest = [front, big_endian(&self.values), self.lent.clone()].concat();
        [big_endian(&[rest.len() as u32 + 4]), rest].concat()
    }
}

/// A refusal, or the values of an answer.
type Told = Result<Vec<u32>, Refusal>;

fn long(x: u64) -> Vec<u32> {
    vec![(x >> 32) as u32, x as u32]
}

/// Whether it is below zero, and how far from zero.
fn signed(x: i64) -> Vec<u32> {
    [vec![u32::from(x < 0)], long(x.unsigned_abs())].concat()
}

/// The sheet that a call answers, blank after a refusal: edition and counts, then place by place, entries four to a word.
fn sheet_values(s: &Memory) -> Vec<u32> {
    let tasks = s.tasks.iter().flat_map(|t| [t.period, t.budget, t.rank.into()]);
    let chain = |c: &Chain| [vec![c.limit, c.length.into()], words(&c.entries)].concat();
    [s.edition, s.count, s.suite].map(u32::from).into_iter().chain(tasks).chain(s.chains.iter().flat_map(chain)).collect()
}

fn totals(w: &Worked) -> Vec<u32> {
    vec![w.hyperperiod, w.jobs, w.idle]
}

/// R of each task, in sixteen places.
fn sixteen(mut responses: Vec<u32>) -> Vec<u32> {
    responses.resize(16, 0);
    responses
}

fn greatest(w: &Worked) -> Vec<u32> {
    sixteen(w.greatest_responses())
}

/// Sampling figure, its release and bound, worst, bound and margin.
fn chain_values(f: &chain::Figures) -> Vec<u32> {
    [vec![f.sampling, f.release, f.sampling_bound, f.worst, f.bound], signed(f.margin)].concat()
}

/// What is said of each chain, the totals too, in eight places.
fn eight(totals: &[u32], chains: &[chain::Figures]) -> Vec<u32> {
    let mut values: Vec<u32> = chains.iter().flat_map(|f| [totals, &chain_values(f)].concat()).collect();
    values.resize(8 * 11, 0);
    values
}

/// A run of the tell-tale's calls as a request has it: five bytes each, 0 for begin and 1 for stamp, and the counter.
pub fn run_bytes(calls: &[telltale::Call]) -> Vec<u8> {
    let bytes = |call: &telltale::Call| match *call {
        telltale::Call::Begin(counter) => [vec![0], big_endian(&[counter])].concat(),
        telltale::Call::Stamp(counter) => [vec![1], big_endian(&[counter])].concat(),
    };
    calls.iter().flat_map(bytes).collect()
}

pub fn run_calls(bytes: &[u8]) -> Vec<telltale::Call> {
    let call = |b: &[u8]| {
        let counter = u32::from_be_bytes(b[1..].try_into().unwrap());
        if b[0] == 0 { telltale::Call::Begin(counter) } else { telltale::Call::Stamp(counter) }
    };
    bytes.chunks_exact(5).map(call).collect()
}

/// Of each call after so many readings: the number of its refusal or 0, its ticks, and the four fields of the record that it leaves.
fn run_values(readings: u32, bytes: &[u8]) -> Vec<u32> {
    let mut history = History::after_readings(readings);
    let values = |call| {
        let (number, ticks) = history.make(call).map_or_else(|r| (r.number.into(), 0), |ticks| (0, ticks));
        let left = history.record();
        [number, ticks, left.underway.into(), left.counter, left.longest, left.count.into()]
    };
    run_calls(bytes).into_iter().flat_map(values).collect()
}

const SHEETS: [&str; 2] = ["old", "new"];
const DIFFERENCES: [&str; 5] = ["old only", "new only", "period", "budget", "rank"];

fn place(names: &[&str], name: &str) -> u32 {
    names.iter().position(|n| *n == name).unwrap() as u32
}

/// What was found, the sheet or the index, and what differs there.
fn compared(found: Comparison) -> Told {
    match found {
        Comparison::Applies => Ok(vec![0, 0, 0]),
        Comparison::Edition(which) => Ok(vec![1, place(&SHEETS, which), 0]),
        Comparison::Chain => Ok(vec![2, 0, 0]),
        Comparison::Task(i, difference) => Ok(vec![3, i as u32, place(&DIFFERENCES, difference)]),
        Comparison::Refused(_, refusal) => Err(refusal),
    }
}

/// Records and paths; whether there is a longest delay, it and its job; whether there is a breaking record, and which; the figure.
fn replay_values(r: &Replayed) -> Vec<u32> {
    let (delay, job) = r.longest.unwrap_or_default();
    let (longest, breaking) = (u32::from(r.longest.is_some()), u32::from(r.breaking.is_some()));
    vec![r.records, r.paths, longest, delay, job, breaking, r.breaking.unwrap_or_default(), r.figure.0, r.figure.1]
}

fn of_sheet(q: &Request, s: &Memory, buffer: &mut [u8], table: &mut [u32]) -> Told {
    let (number, chain) = (q.numbers[0], q.numbers[1] as u8);
    match q.call {
        Judge => judge(s).map(|_| vec![]),
        Write => Ok(long(write(s, buffer)? as u64)),
        Sizes => schedule::sizes(s).map(|z| vec![z.hyperperiod, z.jobs]),
        Responses => schedule::responses(s, table).map(|w| totals(&w)),
        TaskResponses => schedule::responses(s, table).map(|w| [totals(&w), greatest(&w)].concat()),
        Delay => chain::delay(s, chain, number, table).map(|d| vec![d]),
        Margin => chain::margin(s, chain, number, table).map(signed),
        DefaultMargin => chain::default_margin(s, chain, table).map(signed),
        Figures => chain::figures(s, chain, table).map(|(w, f)| [totals(&w), chain_values(&f), greatest(&w)].concat()),
        QuickBound => quick(s, chain).map(|q| [vec![q.sampling_bound, q.bound], sixteen(q.responses)].concat()),
        QuickSuite => quick_suite(s).map(|(responses, bounds)| [sixteen(responses), sixteen(bounds.concat())].concat()),
        ChainCount => Ok(vec![s.chain_count().into()]),
        Suite => chain::suite(s, table).map(|(w, chains)| [totals(&w), greatest(&w), eight(&totals(&w), &chains)].concat()),
        ToSecond => to_second(s).map(|s| sheet_values(&s)),
        ToFirst => to_first(s).map(|s| sheet_values(&s)),
        Numbered => numbered(s, chain).map(|_| vec![]),
        Compare => compared(compare(s, &sheet_in(buffer))),
        Replay => replay(s, &q.log, table).map(|r| replay_values(&r)),
        call => unreachable!("{call:?} takes no sheet"),
    }
}

fn told(q: &Request, buffer: &mut [u8], table: &mut [u32]) -> Told {
    let [a, b, c] = q.numbers;
    match (q.call, &q.sheet) {
        (Gcd, _) => Ok(vec![arith::gcd(a, b)]),
        (Lcm, _) => Ok(arith::lcm(a, b, c).map_or(vec![0, 0], |x| vec![1, x])),
        (Up, _) => Ok(long(arith::up(a, b))),
        (Magnitude, _) => Ok(long(i64::from(a as i32).unsigned_abs())),
        (Number, Handed::Bytes(bytes)) => Ok(vec![bits::number(bytes, a, b)]),
        (Put, _) => {
            bits::put(buffer, a, b, c);
            Ok(vec![])
        }
        (Read, Handed::Bytes(bytes)) => Ok(sheet_values(&read(bytes)?)),
        (Telltale, Handed::Bytes(bytes)) => Ok(run_values(a, bytes)),
        (Greatest, _) => Ok(vec![table.iter().copied().max().unwrap_or(0)]),
        (_, Handed::Bytes(bytes)) => of_sheet(q, &read(bytes)?, buffer, table),
        (_, Handed::Memory(s)) => of_sheet(q, s, buffer, table),
    }
}

/// What stands in an answer even after a refusal by the call itself: a blank sheet, or zeros for R and for what is said of each chain.
fn values_of_a_refusal(q: &Request) -> Vec<u32> {
    match q.call {
        Read => sheet_values(&Memory::default()),
        ToSecond | ToFirst if q.sheet.memory().is_some() => sheet_values(&Memory::default()),
        TaskResponses | Figures | QuickBound if q.sheet.memory().is_some() => vec![0; 16],
        QuickSuite if q.sheet.memory().is_some() => vec![0; 32],
        Suite if q.sheet.memory().is_some() => [vec![0; 16], eight(&[], &[])].concat(),
        Compare => match (q.sheet.memory(), &q.lent) {
            (Some(s), Lent::Bytes(other)) => match compare(&s, &sheet_in(other)) {
                Comparison::Refused(which, _) => vec![place(&SHEETS, which)],
                _ => unreachable!("only a refusal is asked about"),
            },
            _ => vec![],
        },
        _ => vec![],
    }
}

pub fn answer(q: &Request) -> Answer {
    let (mut buffer, mut table) = match &q.lent {
        Lent::Bytes(bytes) => (bytes.clone(), vec![]),
        Lent::Table { room, words } if words.is_empty() => (vec![], vec![0; *room]),
        Lent::Table { room, words } => (vec![], words.iter().copied().cycle().take(*room).collect()),
    };
    let told = told(q, &mut buffer, &mut table);
    let lent = [buffer, big_endian(&table)].concat();
    match told {
        Ok(values) => Answer { refusal: None, values, lent },
        Err(r) => Answer { refusal: Some(r), values: values_of_a_refusal(q), lent },
    }
}

/// The probe as a process. It reads a request whole before it answers, so that one request at a time never waits for itself.
pub struct Probe {
    child: Child,
    requests: ChildStdin,
    answers: ChildStdout,
}

impl Probe {
    pub fn start() -> Probe {
        let mut child = Command::new(concat!(env!("CARGO_MANIFEST_DIR"), "/../tools/run"))
            .arg("probe")
            .stdin(Stdio::piped())
            .stdout(Stdio::piped())
            .spawn()
            .expect("the probe can be started");
        let (requests, answers) = (child.stdin.take().unwrap(), child.stdout.take().unwrap());
        Probe { child, requests, answers }
    }

    pub fn send(&mut self, q: &Request) -> std::io::Result<()> {
        self.requests.write_all(&q.bytes())
    }

    /// The answer to the request that was sent last.
    pub fn receive(&mut self) -> std::io::Result<Vec<u8>> {
        let mut size = [0; 4];
        self.answers.read_exact(&mut size)?;
        let mut answer = vec![0; (u32::from_be_bytes(size) as usize).clamp(4, 65_536)];
        answer[..4].copy_from_slice(&size);
        self.answers.read_exact(&mut answer[4..])?;
        Ok(answer)
    }

    /// The run ends with its input, and nothing follows the last answer.
    pub fn end(mut self) -> std::io::Result<bool> {
        drop(self.requests);
        let mut surplus = Vec::new();
        self.answers.read_to_end(&mut surplus)?;
        Ok(self.child.wait()?.success() && surplus.is_empty())
    }
}
