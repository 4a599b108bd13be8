//! The timing sheet in both editions: its bits as text, read and judged field by field.

use crate::bits::{bytes_of, text_of};
use crate::Refusal;

/// "The report on an old sheet and the conversion of old sheets must pass 1,000 by name".
pub const OLD_LIMIT: u32 = 1_000;

/// The first five bits of a sheet that says its edition.
const MARK: u32 = 31;

#[derive(Clone, Copy, Default, PartialEq, Eq, Debug)]
pub struct Task {
    pub period: u32,
    pub budget: u32,
    pub rank: u8,
}

#[derive(Clone, Copy, Default, PartialEq, Eq, Debug)]
pub struct Chain {
    pub limit: u32,
    pub length: u8,
    pub entries: [u8; 16],
}

/// A sheet in memory: all places, used or not, as they stand. An old sheet is edition 1, and uses the first chain without its limit.
#[derive(Clone, Copy, Default, PartialEq, Eq, Debug)]
pub struct Memory {
    pub edition: u8,
    pub count: u8,
    pub tasks: [Task; 16],
    pub suite: u8,
    pub chains: [Chain; 8],
}

impl Memory {
    /// The places that the task count reaches.
    pub fn tasks(&self) -> &[Task] {
        &self.tasks[..usize::from(self.count).min(16)]
    }

    /// How many chains there are: "calls name their chain from 1".
    pub fn chain_count(&self) -> u8 {
        if self.edition == 1 { 1 } else { self.suite }
    }

    /// The entries of the chain with this number.
    pub fn chain(&self, number: u8) -> &[u8] {
        self.chains[usize::from(number) - 1].entries()
    }
}

impl Chain {
    /// The places that the length reaches.
    pub fn entries(&self) -> &[u8] {
        &self.entries[..usize::from(self.length).min(16)]
    }
}

pub fn chain(limit: u32, entries: &[u8]) -> Chain {
    let mut c = Chain { limit, length: entries.len() as u8, ..Chain::default() };
    c.entries[..entries.len()].copy_from_slice(entries);
    c
}

/// An old sheet as it is read.
pub fn memory(tasks: &[Task], entries: &[u8]) -> Memory {
    let mut m = Memory { edition: 1, count: tasks.len() as u8, ..Memory::default() };
    m.tasks[..tasks.len()].copy_from_slice(tasks);
    m.chains[0] = chain(0, entries);
    m
}

/// A sheet of the second edition as it is read.
pub fn suite(tasks: &[Task], chains: &[Chain]) -> Memory {
    let mut m = Memory { edition: 2, suite: chains.len() as u8, ..memory(tasks, &[]) };
    m.chains[..chains.len()].copy_from_slice(chains);
    m
}

pub(crate) fn bits_of(value: u32, width: usize) -> String {
    let text = format!("{value:032b}");
    text[32 - width..].to_string()
}

fn bits_of_tasks(count: u32, tasks: &[Task]) -> String {
    let mut text = bits_of(count, 5);
    for t in tasks {
        text += &bits_of(t.period, 17);
        text += &bits_of(t.budget, 17);
        text += &bits_of(t.rank.into(), 8);
    }
    text
}

fn bits_of_entries(length: u32, entries: &[u8]) -> String {
    let mut text = bits_of(length, 5);
    for &e in entries {
        text += &bits_of(e.into(), 4);
    }
    text
}

/// The bits of an old sheet's fields that need not be allowed: any tasks, any chain, and the counts that are to stand there.
pub fn raw_bits(count: u32, tasks: &[Task], length: u32, entries: &[u8]) -> String {
    bits_of_tasks(count, tasks) + &bits_of_entries(length, entries)
}

/// The bits of fields that need not be allowed, behind a mark with any edition.
pub fn marked_bits(edition: u32, s: &Memory) -> String {
    let mut text = bits_of(MARK, 5) + &bits_of(edition, 4) + &bits_of_tasks(s.count.into(), s.tasks()) + &bits_of(s.suite.into(), 4);
    for c in &s.chains[..usize::from(s.suite).min(8)] {
        text += &bits_of(c.limit, 22);
        text += &bits_of_entries(c.length.into(), c.entries());
    }
    text
}

/// Zero bits to the end of the byte, and the bytes.
pub fn packed(bits: &str) -> Vec<u8> {
    let mut text = bits.to_string();
    while text.len() % 8 != 0 {
        text.push('0');
    }
    bytes_of(&text)
}

/// The bytes of an old sheet.
pub fn encoded(tasks: &[Task], entries: &[u8]) -> Vec<u8> {
    packed(&raw_bits(tasks.len() as u32, tasks, entries.len() as u32, entries))
}

/// The bytes of the fields of a sheet in memory as they stand, allowed or not.
pub fn unjudged(s: &Memory) -> Vec<u8> {
    match s.edition {
        1 => packed(&raw_bits(s.count.into(), s.tasks(), s.chains[0].length.into(), s.chain(1))),
        edition => packed(&marked_bits(edition.into(), s)),
    }
}

/// Bits that are read from the front on, and where the last field that was read begins.
pub(crate) struct Cursor {
    bits: String,
    at: usize,
    begin: usize,
}

impl Cursor {
    pub(crate) fn new(bytes: &[u8]) -> Cursor {
        Cursor { bits: text_of(bytes), at: 0, begin: 0 }
    }

    pub(crate) fn field(&mut self, width: usize) -> Result<u32, Refusal> {
        self.begin = self.at;
        if self.at + width > self.bits.len() {
            return Err(Refusal::at(1, self.begin));
        }
        let text = &self.bits[self.at..self.at + width];
        self.at += width;
        Ok(u32::from_str_radix(text, 2).unwrap())
    }

    /// The last field that was read is judged.
    pub(crate) fn refuse_if(&self, bad: bool, number: u8) -> Result<(), Refusal> {
        if bad {
            return Err(Refusal::at(number, self.begin));
        }
        Ok(())
    }

    /// So many tasks; the count was read last.
    fn tasks(&mut self, n: u32) -> Result<Vec<Task>, Refusal> {
        self.refuse_if(n == 0 || n > 16, 2)?;
        let mut tasks: Vec<Task> = Vec::new();
        for _ in 0..n {
            let period = self.field(17)?;
            self.refuse_if(period == 0 || period > 100_000, 3)?;
            let budget = self.field(17)?;
            self.refuse_if(budget == 0 || budget > period, 4)?;
            let rank = self.field(8)? as u8;
            self.refuse_if(tasks.iter().any(|t| t.rank == rank), 5)?;
            tasks.push(Task { period, budget, rank });
        }
        Ok(tasks)
    }

    /// A length and so many entries, on a sheet of n tasks.
    fn entries(&mut self, n: u32) -> Result<Vec<u8>, Refusal> {
        let m = self.field(5)?;
        self.refuse_if(m == 0 || m > n, 6)?;
        let mut entries: Vec<u8> = Vec::new();
        for _ in 0..m {
            let e = self.field(4)? as u8;
            self.refuse_if(u32::from(e) >= n, 7)?;
            self.refuse_if(entries.contains(&e), 8)?;
            entries.push(e);
        }
        Ok(entries)
    }

    /// An old sheet, whose first field is its task count.
    fn old_sheet(&mut self, n: u32) -> Result<Memory, Refusal> {
        let tasks = self.tasks(n)?;
        let entries = self.entries(n)?;
        Ok(memory(&tasks, &entries))
    }

    /// What follows the mark: "four bits holding 2, task count and tasks as before, a chain count of four bits (1 to 8), then per chain a
    /// limit of 22 bits, its length and its entries".
    fn marked_sheet(&mut self) -> Result<Memory, Refusal> {
        let edition = self.field(4)?;
        self.refuse_if(edition != 2, 16)?;
        let n = self.field(5)?;
        let tasks = self.tasks(n)?;
        let count = self.field(4)?;
        self.refuse_if(count == 0 || count > 8, 17)?;
        let mut chains: Vec<Chain> = Vec::new();
        for _ in 0..count {
            let limit = self.field(22)?;
            self.refuse_if(limit > 4_000_000, 13)?;
            chains.push(chain(limit, &self.entries(n)?));
        }
        Ok(suite(&tasks, &chains))
    }

    /// "the earlier of the first wrong bit and the surplus byte's first"
    pub(crate) fn end(&self) -> Result<(), Refusal> {
        let wrong = self.bits[self.at..].find('1').map(|k| self.at + k);
        let needed = (self.at..).find(|end| end % 8 == 0).unwrap();
        let surplus = Some(needed).filter(|&end| end < self.bits.len());
        match wrong.into_iter().chain(surplus).min() {
            Some(bit) => Err(Refusal::at(9, bit)),
            None => Ok(()),
        }
    }
}

/// The sheet in these bytes, or the first refusal. "Other first bits mean an old sheet."
pub fn read(bytes: &[u8]) -> Result<Memory, Refusal> {
    let mut c = Cursor::new(bytes);
    let s = match c.field(5)? {
        MARK => c.marked_sheet()?,
        n => c.old_sheet(n)?,
    };
    c.end()?;
    Ok(s)
}

/// The bits of fields that were judged. "Sheets in memory report the offset the field would have if written": so many are before it.
struct Draft {
    bits: String,
}

impl Draft {
    fn field(&mut self, value: u32, width: usize, faults: &[(bool, u8)]) -> Result<(), Refusal> {
        if let Some((_, number)) = faults.iter().find(|(bad, _)| *bad) {
            return Err(Refusal::at(*number, self.bits.len()));
        }
        self.bits += &bits_of(value, width);
        Ok(())
    }

    fn tasks(&mut self, s: &Memory) -> Result<(), Refusal> {
        self.field(s.count.into(), 5, &[(s.count == 0 || s.count > 16, 2)])?;
        for (i, t) in s.tasks().iter().enumerate() {
            self.field(t.period, 17, &[(t.period == 0 || t.period > 100_000, 3)])?;
            self.field(t.budget, 17, &[(t.budget == 0 || t.budget > t.period, 4)])?;
            self.field(t.rank.into(), 8, &[(s.tasks[..i].iter().any(|u| u.rank == t.rank), 5)])?;
        }
        Ok(())
    }

    fn entries(&mut self, s: &Memory, c: &Chain) -> Result<(), Refusal> {
        self.field(c.length.into(), 5, &[(c.length == 0 || c.length > s.count, 6)])?;
        for (i, &e) in c.entries().iter().enumerate() {
            self.field(e.into(), 4, &[(e >= s.count, 7), (c.entries[..i].contains(&e), 8)])?;
        }
        Ok(())
    }
}

/// The bits of a sheet in memory, or the first refusal of its fields: "16 edition not 2 (in memory, neither 1 nor 2); 17 chain count 0 or
/// over 8; 13 at the limit field".
fn drafted(s: &Memory) -> Result<String, Refusal> {
    let mut draft = Draft { bits: String::new() };
    if s.edition == 1 {
        draft.tasks(s)?;
        draft.entries(s, &s.chains[0])?;
        return Ok(draft.bits);
    }
    draft.field(MARK, 5, &[])?;
    draft.field(s.edition.into(), 4, &[(s.edition != 2, 16)])?;
    draft.tasks(s)?;
    draft.field(s.suite.into(), 4, &[(s.suite == 0 || s.suite > 8, 17)])?;
    for c in &s.chains[..s.suite.into()] {
        draft.field(c.limit, 22, &[(c.limit > 4_000_000, 13)])?;
        draft.entries(s, c)?;
    }
    Ok(draft.bits)
}

/// A sheet in memory judged in field order.
pub fn judge(s: &Memory) -> Result<(), Refusal> {
    drafted(s).map(|_| ())
}

/// What the writer answers and leaves in a buffer: "the writer uses the edition the sheet carries".
pub fn write(s: &Memory, buffer: &mut [u8]) -> Result<usize, Refusal> {
    let bytes = packed(&drafted(s)?);
    if buffer.len() < bytes.len() {
        return Err(14.into());
    }
    buffer[..bytes.len()].copy_from_slice(&bytes);
    Ok(bytes.len())
}

/// "17 for a chain number the sheet lacks"
pub fn numbered(s: &Memory, number: u8) -> Result<(), Refusal> {
    if number == 0 || number > s.chain_count() {
        return Err(17.into());
    }
    Ok(())
}

/// "Old sheets convert in memory to one chain with limit 1,000"; "a sheet already so is unchanged".
pub fn to_second(s: &Memory) -> Result<Memory, Refusal> {
    judge(s)?;
    if s.edition == 2 {
        return Ok(*s);
    }
    Ok(with_first_limit(Memory { edition: 2, suite: 1, ..*s }, OLD_LIMIT))
}

/// "Only one chain with that limit goes back"; "18, exactly when the count is not 1 or the limit not 1,000 on the way back".
pub fn to_first(s: &Memory) -> Result<Memory, Refusal> {
    judge(s)?;
    if s.edition == 1 {
        return Ok(*s);
    }
    if s.suite != 1 || s.chains[0].limit != OLD_LIMIT {
        return Err(18.into());
    }
    Ok(with_first_limit(Memory { edition: 1, suite: 0, ..*s }, 0))
}

fn with_first_limit(mut s: Memory, limit: u32) -> Memory {
    s.chains[0].limit = limit;
    s
}
