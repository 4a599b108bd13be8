//! Sheets typed as text, by the words of docs/FORMAT.md: lines of words, read one after the other; and a sheet shown so.

use crate::sheet::{chain, judge, memory, suite, Memory, Task, OLD_LIMIT};
use crate::Refusal;

/// Longer texts are not read.
pub const MOST: usize = 16_384;

pub const KEYWORDS: [&str; 7] = ["edition", "task", "period", "budget", "rank", "chain", "limit"];

/// What is wrong with a text: a number of refusal, as of a sheet, or a mistake in the text itself, by its row in docs/FORMAT.md.
#[derive(Clone, Copy, PartialEq, Eq, Debug)]
pub enum Fault {
    Refused(u8),
    Mistake(u8),
}

use Fault::*;

/// Line and column, both counted from 1, the column in bytes.
#[derive(Clone, Copy, PartialEq, Eq, Debug)]
pub struct Wrong {
    pub fault: Fault,
    pub line: usize,
    pub column: usize,
}

/// As the program pack says it.
impl std::fmt::Display for Wrong {
    fn fmt(&self, f: &mut std::fmt::Formatter<'_>) -> std::fmt::Result {
        match self.fault {
            Refused(number) => write!(f, "refused {number}")?,
            Mistake(number) => write!(f, "mistake {number}")?,
        }
        write!(f, " line {} column {}", self.line, self.column)
    }
}

/// The words of a line, each with the column of its first byte: what stands between blanks, up to a comment.
fn words(line: &[u8]) -> Vec<(usize, &[u8])> {
    let end = line.iter().position(|&b| b == b'#').unwrap_or(line.len());
    let mut at = 1;
    let runs = line[..end].split(|b| b" \t\r".contains(b)).map(|run| {
        let column = at;
        at += run.len() + 1;
        (column, run)
    });
    runs.filter(|(_, run)| !run.is_empty()).collect()
}

/// Digits alone; what is too great for 32 bits is the greatest number of 32 bits.
fn number(word: &[u8]) -> Option<u32> {
    if !word.iter().all(u8::is_ascii_digit) {
        return None;
    }
    let digits: String = word.iter().map(|&b| char::from(b)).skip_while(|&d| d == '0').collect();
    Some(format!("0{digits}").parse().unwrap_or(u32::MAX))
}

fn is_name(word: &[u8]) -> bool {
    let letters = word.iter().all(|&b| b.is_ascii_alphanumeric() || b == b'-' || b == b'_');
    letters && number(word).is_none() && !KEYWORDS.iter().any(|keyword| keyword.as_bytes() == word)
}

/// A line that is read word by word. At its end comes no word, with the column after its last byte.
struct Line<'a> {
    number: usize,
    words: std::vec::IntoIter<(usize, &'a [u8])>,
    end: usize,
    column: usize,
}

impl<'a> Line<'a> {
    fn new(number: usize, bytes: &'a [u8]) -> Line<'a> {
        Line { number, words: words(bytes).into_iter(), end: bytes.len() + 1, column: 0 }
    }

    fn next(&mut self) -> Option<&'a [u8]> {
        let (column, word) = self.words.next().map_or((self.end, None), |(column, word)| (column, Some(word)));
        self.column = column;
        word
    }

    /// What is wrong at the word that was read last, or at the end.
    fn wrong(&self, fault: Fault) -> Wrong {
        Wrong { fault, line: self.number, column: self.column }
    }

    fn refuse_if(&self, bad: bool, fault: Fault) -> Result<(), Wrong> {
        if bad {
            return Err(self.wrong(fault));
        }
        Ok(())
    }

    /// This keyword, or else that mistake.
    fn keyword(&mut self, keyword: &str, mistake: u8) -> Result<(), Wrong> {
        let word = self.next();
        self.refuse_if(word != Some(keyword.as_bytes()), Mistake(mistake))
    }

    fn number(&mut self, mistake: u8) -> Result<u32, Wrong> {
        self.next().and_then(number).ok_or_else(|| self.wrong(Mistake(mistake)))
    }

    fn end(&mut self, mistake: u8) -> Result<(), Wrong> {
        let word = self.next();
        self.refuse_if(word.is_some(), Mistake(mistake))
    }
}

/// What was typed so far.
#[derive(Default)]
struct Draft {
    edition: Option<u32>,
    names: Vec<Vec<u8>>,
    tasks: Vec<Task>,
    chains: Vec<(Option<u32>, Vec<u8>)>,
}

impl Draft {
    /// The mistake where a line begins with another word than those that may come now.
    fn wanted(&self) -> u8 {
        match (self.edition, &self.tasks[..], &self.chains[..]) {
            (None, [], []) => 1,
            (_, [], []) => 2,
            (_, _, []) => 3,
            _ => 4,
        }
    }

    fn line(&mut self, l: &mut Line) -> Result<(), Wrong> {
        match (l.next(), self.wanted()) {
            (None, _) => Ok(()),
            (Some(b"edition"), 1) => self.edition(l),
            (Some(b"task"), 1..=3) => self.task(l),
            (Some(b"chain"), 3..=4) => self.chain(l),
            (_, mistake) => Err(l.wrong(Mistake(mistake))),
        }
    }

    fn edition(&mut self, l: &mut Line) -> Result<(), Wrong> {
        let edition = l.number(5)?;
        l.refuse_if(edition != 1 && edition != 2, Refused(16))?;
        self.edition = Some(edition);
        l.end(6)
    }

    fn task(&mut self, l: &mut Line) -> Result<(), Wrong> {
        l.refuse_if(self.tasks.len() == 16, Refused(2))?;
        let name = l.next().filter(|word| is_name(word)).ok_or_else(|| l.wrong(Mistake(7)))?.to_vec();
        l.refuse_if(self.names.contains(&name), Mistake(19))?;
        l.keyword("period", 8)?;
        let period = l.number(9)?;
        l.refuse_if(period == 0 || period > 100_000, Refused(3))?;
        l.keyword("budget", 10)?;
        let budget = l.number(11)?;
        l.refuse_if(budget == 0 || budget > period, Refused(4))?;
        l.keyword("rank", 12)?;
        let rank = l.number(13)?;
        l.refuse_if(rank > 255, Mistake(21))?;
        l.refuse_if(self.tasks.iter().any(|t| u32::from(t.rank) == rank), Refused(5))?;
        self.names.push(name);
        self.tasks.push(Task { period, budget, rank: rank as u8 });
        l.end(14)
    }

    fn chain(&mut self, l: &mut Line) -> Result<(), Wrong> {
        l.refuse_if(self.edition == Some(1) && !self.chains.is_empty(), Mistake(23))?;
        l.refuse_if(self.chains.len() == 8, Refused(17))?;
        let (mut limit, mut mistake, mut entries) = (None, 15, Vec::new());
        let mut word = l.next();
        if word == Some(b"limit") {
            l.refuse_if(self.edition == Some(1), Mistake(22))?;
            let ticks = l.number(16)?;
            l.refuse_if(ticks > 4_000_000, Refused(13))?;
            (limit, mistake, word) = (Some(ticks), 17, l.next());
        }
        while word.is_some() || entries.is_empty() {
            entries.push(self.entry(l, word, &entries, mistake)?);
            (mistake, word) = (18, l.next());
        }
        self.chains.push((limit, entries));
        Ok(())
    }

    /// The task that a word names, after these entries of its chain.
    fn entry(&self, l: &Line, word: Option<&[u8]>, entries: &[u8], mistake: u8) -> Result<u8, Wrong> {
        let word = word.ok_or_else(|| l.wrong(Mistake(mistake)))?;
        let given = number(word);
        l.refuse_if(given.is_none() && !is_name(word), Mistake(mistake))?;
        let index = given.map(|n| n as usize).or_else(|| self.names.iter().position(|name| name == word));
        let index = index.ok_or_else(|| l.wrong(Mistake(20)))?;
        l.refuse_if(entries.len() == self.tasks.len(), Refused(6))?;
        l.refuse_if(index >= self.tasks.len(), Refused(7))?;
        l.refuse_if(entries.contains(&(index as u8)), Refused(8))?;
        Ok(index as u8)
    }

    /// "2 if some chain has a limit or there are several chains, or else 1"
    fn sheet(&self) -> Memory {
        let second = self.chains.len() > 1 || self.chains[0].0.is_some();
        match self.edition.unwrap_or(if second { 2 } else { 1 }) {
            1 => memory(&self.tasks, &self.chains[0].1),
            _ => suite(&self.tasks, &self.chains.iter().map(|(limit, entries)| chain(limit.unwrap_or(OLD_LIMIT), entries)).collect::<Vec<_>>()),
        }
    }
}

/// The first byte too many of a text that is too long.
fn too_long(text: &[u8]) -> Wrong {
    let lines: Vec<&[u8]> = text[..MOST].split(|&b| b == b'\n').collect();
    Wrong { fault: Mistake(24), line: lines.len(), column: lines[lines.len() - 1].len() + 1 }
}

/// The sheet that a text says, or the first thing that is wrong with it.
pub fn parse(text: &[u8]) -> Result<Memory, Wrong> {
    if text.len() > MOST {
        return Err(too_long(text));
    }
    let mut draft = Draft::default();
    let mut end = Wrong { fault: Mistake(1), line: 0, column: 0 };
    for (number, bytes) in (1..).zip(text.split(|&b| b == b'\n')) {
        draft.line(&mut Line::new(number, bytes))?;
        end = Wrong { fault: Mistake(draft.wanted()), line: number, column: bytes.len() + 1 };
    }
    if draft.chains.is_empty() {
        return Err(end);
    }
    Ok(draft.sheet())
}

/// The text of a sheet whose tasks have these names.
pub fn named(s: &Memory, names: &[&str]) -> String {
    let mut text = String::new();
    for (t, name) in s.tasks().iter().zip(names) {
        text += &format!("task {name} period {} budget {} rank {}\n", t.period, t.budget, t.rank);
    }
    for c in &s.chains[..s.chain_count().into()] {
        let limit = if s.edition == 1 { String::new() } else { format!(" limit {}", c.limit) };
        let entries: String = c.entries().iter().map(|&e| format!(" {}", names[usize::from(e)])).collect();
        text += &format!("chain{limit}{entries}\n");
    }
    text
}

/// The text of a sheet in memory, its tasks "`task0`, `task1` and so on", or the first refusal of its fields.
pub fn shown(s: &Memory) -> Result<String, Refusal> {
    judge(s)?;
    let names: Vec<String> = (0..16).map(|i| format!("task{i}")).collect();
    Ok(named(s, &names.iter().map(String::as_str).collect::<Vec<_>>()))
}
