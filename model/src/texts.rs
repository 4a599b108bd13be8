//! Texts by chance: a sheet typed in any way that its grammar allows, the same damaged in words, lines and bytes, and words at random.

use crate::generate::sheet;
use crate::random::Random;
use crate::sheet::{Chain, Memory, OLD_LIMIT};
use crate::text::{Fault, Fault::*, KEYWORDS, MOST};

/// Words that are nearly right, numbers at the ends of ranges, and bytes that belong to no word of a text.
const WORDS: [&str; 41] = [
    "Task", "TASK", "tasks", "edition1", "limit=5", "+5", "-5", "5.0", "0x5", "1e3", "1,000", "a,b", "->", "é", "\u{feff}task", "\0",
    "0", "00", "1", "2", "3", "7", "8", "9", "15", "16", "17", "255", "256", "999", "1000", "100000", "100001", "4000000", "4000001",
    "4294967295", "4294967296", "4294967297", "18446744073709551617", "task0", "x",
];

const BLANKS: [&str; 8] = [" ", " ", " ", "  ", "\t", " \t ", "\r", "\r "];

/// A name for each task; some begin another or differ in the case of a letter, some look like words of the grammar.
fn names(r: &mut Random) -> Vec<String> {
    let short = ["a", "aa", "A", "aA", "-", "_", "--", "Task", "taskk", "tas", "limit0", "0x1", "1a", "1_000", "edition-2", "x-y_Z"];
    let mut names = short.map(String::from).to_vec();
    names.extend((0..16).map(|i| format!("task{i}")));
    names.extend((0..4).map(|i| format!("{}{i}", "long-name_".repeat(r.between(1, 9) as usize))));
    r.shuffle(&mut names);
    names.truncate(16);
    names
}

fn numeral(r: &mut Random, n: u32) -> String {
    let zeros = if r.one_in(6) { r.pick(&[1, 2, 9, 40]) } else { 0 };
    format!("{}{n}", "0".repeat(zeros))
}

/// Words and numbers of a chain's line, the limit too unless it can be left out.
fn chain_line(r: &mut Random, c: &Chain, names: &[String], limited: bool) -> Vec<String> {
    let mut line = vec!["chain".to_string()];
    if limited {
        line.extend(["limit".to_string(), numeral(r, c.limit)]);
    }
    for &e in c.entries() {
        let by_number = usize::from(e) >= names.len() || r.one_in(3);
        line.push(if by_number { numeral(r, e.into()) } else { names[usize::from(e)].clone() });
    }
    line
}

/// The lines of a sheet in memory, whatever its fields; each is a list of words.
fn lines(r: &mut Random, s: &Memory) -> Vec<Vec<String>> {
    let mut names = names(r);
    names.truncate(s.count.into());
    let mut lines = Vec::new();
    let chains = &s.chains[..s.chain_count().into()];
    let optional: Vec<bool> = chains.iter().map(|c| c.limit == OLD_LIMIT && r.one_in(2)).collect();
    let told = s.edition == 1 || chains.len() > 1 || !optional[0];
    if !told || s.edition > 2 || r.one_in(3) {
        lines.push(vec!["edition".to_string(), numeral(r, s.edition.into())]);
    }
    for (t, name) in s.tasks().iter().zip(&names) {
        let fields = [("period", t.period), ("budget", t.budget), ("rank", t.rank.into())];
        let fields = fields.map(|(keyword, n)| vec![keyword.to_string(), numeral(r, n)]);
        lines.push([vec!["task".to_string(), name.clone()], fields.concat()].concat());
    }
    for (c, optional) in chains.iter().zip(optional) {
        lines.push(chain_line(r, c, &names, s.edition != 1 && !optional));
    }
    lines
}

/// The lines of a text with blanks, comments, empty lines and line ends of any kind.
fn spelt(r: &mut Random, lines: &[Vec<String>]) -> Vec<u8> {
    let mut text = String::new();
    let neat = r.one_in(3);
    for line in lines {
        while !neat && r.one_in(5) {
            text += r.pick(&["\n", "\r\n", " \t\n", "# task a period 5\n", "#\n", "\t## é \0 #\r\n"]);
        }
        text += if !neat && r.one_in(6) { r.pick(&BLANKS) } else { "" };
        for (i, word) in line.iter().enumerate() {
            text += if i == 0 { "" } else if neat { " " } else { r.pick(&BLANKS) };
            text += word;
        }
        text += if neat { "\n" } else { r.pick(&["\n", "\n", "\n", "\r\n", " \n", "\t\r\n", "# to 7\n", " # limit 5\r\n"]) };
    }
    if r.one_in(4) {
        text.pop();
    }
    text.into_bytes()
}

/// A sheet typed in some way.
pub fn typed(r: &mut Random, s: &Memory) -> Vec<u8> {
    let lines = lines(r, s);
    spelt(r, &lines)
}

fn any_word(r: &mut Random) -> String {
    if r.one_in(2) { r.pick(&KEYWORDS).to_string() } else { r.pick(&WORDS).to_string() }
}

/// A word or a line left out, there twice, exchanged with another, or put in.
fn damage_lines(r: &mut Random, lines: &mut Vec<Vec<String>>) {
    let at = |r: &mut Random, length: usize| r.between(0, length.max(1) as u32 - 1) as usize;
    let (i, j) = (at(r, lines.len()), at(r, lines.len()));
    let k = at(r, lines[i].len());
    match r.between(0, 9) {
        0 => drop(lines.remove(i)),
        1 => lines.insert(j, lines[i].clone()),
        2 => lines.swap(i, j),
        3 => {
            let end = lines.len().min(i + 2);
            let joined = lines.splice(i..end, []).collect::<Vec<_>>().concat();
            lines.insert(i, joined);
        }
        4 => {
            let rest = lines[i].split_off(k);
            lines.insert(i + 1, rest);
        }
        5 => drop(lines[i].remove(k)),
        6 => {
            let word = lines[i][k].clone();
            lines[i].insert(k, word);
        }
        7 => {
            let other = at(r, lines[i].len());
            lines[i].swap(k, other);
        }
        8 => lines[i].insert(k, any_word(r)),
        _ => lines[i][k] = any_word(r),
    }
    lines.retain(|line| !line.is_empty());
    if lines.is_empty() {
        lines.push(vec![any_word(r)]);
    }
}

/// Some bytes others, away or more, or the end cut off.
fn damage_bytes(r: &mut Random, text: &mut Vec<u8>) {
    for _ in 0..r.between(1, 3) {
        let at = r.between(0, text.len() as u32) as usize;
        let byte = if r.one_in(4) { r.word() as u8 } else { r.pick(b"\n\n\r\t #019azAZ-_.") };
        match r.between(0, 3) {
            0 => text.truncate(at),
            1 => text.insert(at, byte),
            2 if at < text.len() => drop(text.remove(at)),
            _ if at < text.len() => text[at] = byte,
            _ => text.push(byte),
        }
    }
}

/// Comments before, within or after a text that make it as long as may be, or some bytes less or more.
fn lengthened(r: &mut Random, mut text: Vec<u8>) -> Vec<u8> {
    let length = MOST + r.between(0, 4) as usize - 2;
    let breaks: Vec<usize> = (0..=text.len()).filter(|&i| i == 0 || text[i - 1] == b'\n').collect();
    let at = r.pick(&breaks);
    let filled = length.saturating_sub(text.len() + 2);
    let byte = r.pick(b" x\n\t");
    text.splice(at..at, [&b"#"[..], &vec![byte; filled], b"\n"].concat());
    text
}

/// Any text: a third are fine, most others have something wrong in one place.
pub fn text(r: &mut Random) -> Vec<u8> {
    let s = sheet(r);
    let mut lines = lines(r, &s);
    match r.between(0, 9) {
        0 => (1..=r.between(1, 6)).for_each(|_| {
            let words = (1..=r.between(1, 7)).map(|_| any_word(r)).collect();
            lines.insert(r.between(0, lines.len() as u32) as usize, words);
        }),
        1..=4 => (1..=r.pick(&[1, 1, 1, 2, 3])).for_each(|_| damage_lines(r, &mut lines)),
        _ => {}
    }
    let mut text = spelt(r, &lines);
    match r.between(0, 9) {
        0..=1 => damage_bytes(r, &mut text),
        2 if r.one_in(4) => text = lengthened(r, text),
        _ => {}
    }
    text
}

/// A text for each thing that can be wrong with one.
pub fn each_fault() -> Vec<(Fault, Vec<u8>)> {
    let task = "task a period 20 budget 5 rank 1\n";
    let both = format!("{task}task b period 20 budget 5 rank 2\n");
    let tasks = |n: u32| (0..n).map(|i| format!("task t{i} period 9 budget 1 rank {i}\n")).collect::<String>();
    let mut faults: Vec<(Fault, String)> = vec![
        (Mistake(1), "Task".into()),
        (Mistake(2), "edition 1\nchain".into()),
        (Mistake(3), task.into()),
        (Mistake(4), format!("{task}chain a\n{task}")),
        (Mistake(5), "edition".into()),
        (Mistake(6), "edition 2 2".into()),
        (Mistake(14), task.replace('\n', " 5")),
        (Mistake(15), format!("{task}chain")),
        (Mistake(16), format!("{task}chain limit a")),
        (Mistake(17), format!("{task}chain limit 5\n")),
        (Mistake(18), format!("{task}chain a -> b")),
        (Mistake(19), format!("{task}{task}")),
        (Mistake(20), format!("{task}chain b")),
        (Mistake(21), task.replace('1', "256")),
        (Mistake(22), format!("edition 1\n{task}chain limit 5 a")),
        (Mistake(23), format!("edition 1\n{both}chain a\nchain b")),
        (Mistake(24), format!("{task}chain a\n#{}", "x".repeat(MOST))),
        (Refused(2), format!("{}chain t0", tasks(17))),
        (Refused(3), task.replace("20", "100001")),
        (Refused(4), task.replace('5', "21")),
        (Refused(5), format!("{task}task b period 20 budget 5 rank 1\n")),
        (Refused(6), format!("{task}chain a 0")),
        (Refused(7), format!("{task}chain 1")),
        (Refused(8), format!("{both}chain a a")),
        (Refused(13), format!("{task}chain limit 4000001 a")),
        (Refused(16), format!("edition 3\n{task}chain a")),
        (Refused(17), tasks(9) + &(0..9).map(|i| format!("chain t{i}\n")).collect::<String>()),
    ];
    let words = ["task", "a", "period", "20", "budget", "5", "rank"];
    faults.extend((7..=13).zip(1..).map(|(mistake, before)| (Mistake(mistake), words[..before].join(" ") + " ?")));
    faults.into_iter().map(|(fault, text)| (fault, text.into_bytes())).collect()
}
