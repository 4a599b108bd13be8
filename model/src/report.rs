//! The lines of the programs report, bound, compare and replay, and what the program convert answers.

use crate::chain::suite;
use crate::lower::{self, Comparison};
use crate::recurrence::quick;
use crate::replay::{replay, Replay};
use crate::schedule::sizes;
use crate::sheet::{read, to_first, to_second, write, Memory};
use crate::{log, Refusal};

/// "each index with R"
fn task_lines(responses: &[u32]) -> String {
    responses.iter().enumerate().map(|(i, response)| format!("task {i} response {response}\n")).collect()
}

/// "the chain's indices"
fn chain_line(s: &Memory, number: u8) -> String {
    let entries: String = s.chain(number).iter().map(|entry| format!(" {entry}")).collect();
    format!("chain{entries}\n")
}

/// "the report prints the chain lines once per chain"
fn report_lines(bytes: &[u8]) -> Result<String, Refusal> {
    let s = read(bytes)?;
    let (w, chains) = suite(&s, &mut [0; 8_192])?;
    let first = format!("tasks {} hyperperiod {} jobs {} idle {}\n", s.count, w.hyperperiod, w.jobs, w.idle);
    let lines = chains.iter().zip(1..).map(|(f, number)| {
        chain_line(&s, number) + &format!("worst {} from {}\nbound {}\nmargin {}\n", f.worst, f.release, f.bound, f.margin)
    });
    Ok(first + &task_lines(&w.greatest_responses()) + &lines.collect::<String>())
}

fn bound_lines(bytes: &[u8]) -> Result<String, Refusal> {
    let s = read(bytes)?;
    let chains = (1..=s.chain_count()).map(|number| quick(&s, number)).collect::<Result<Vec<_>, _>>()?;
    let lines = chains.iter().zip(1..).map(|(q, number)| chain_line(&s, number) + &format!("bound {}\n", q.bound));
    Ok(task_lines(&chains[0].responses) + &lines.collect::<String>())
}

fn or_refusal(lines: Result<String, Refusal>) -> String {
    lines.unwrap_or_else(|r| format!("{r}\n"))
}

pub fn report(bytes: &[u8]) -> String {
    or_refusal(report_lines(bytes))
}

/// The quick bound with no table, and what it is made of.
pub fn bound(bytes: &[u8]) -> String {
    or_refusal(bound_lines(bytes))
}

/// What the program compare prints of an old and a new sheet; both are read before anything else is judged.
pub fn compare(old: &[u8], new: &[u8]) -> String {
    let found = match (read(old), read(new)) {
        (Err(refusal), _) => Comparison::Refused("old", refusal),
        (_, Err(refusal)) => Comparison::Refused("new", refusal),
        (Ok(old), Ok(new)) => {
            let found = lower::compare(&old, &new);
            if found == Comparison::Applies && old.chains[0].limit != new.chains[0].limit {
                return "applies\nchain one has the same worst, release, bound and responses; its margin is under another limit\n".into();
            }
            found
        }
    };
    match found {
        Comparison::Applies => "applies\nchain one has the same worst, release, bound, margin and responses, and need not be signed again\n".into(),
        Comparison::Refused(which, refusal) => format!("{which} {refusal}\n"),
        Comparison::Edition(which) => format!("differs edition {which}\n"),
        Comparison::Chain => "differs chain\n".into(),
        Comparison::Task(i, difference) => format!("differs task {i} {difference}\n"),
    }
}

fn replay_lines(r: &Replay) -> String {
    let longest = r.longest.map_or("none".into(), |(delay, job)| format!("{delay} job {job}"));
    let verdict = r.breaking.map_or("agrees".into(), |record| format!("breaks at record {record}"));
    format!("records {}\npaths {}\nlongest {longest}\nfigure {}\n{verdict}\n", r.records, r.paths, r.figure.0)
}

/// A log held to its sheet. A refusal stands behind the file that it is about.
pub fn replayed(sheet: &[u8], log: &[u8]) -> String {
    let s = match read(sheet) {
        Ok(s) => s,
        Err(r) => return format!("sheet: {r}\n"),
    };
    let of_log = sizes(&s).is_ok() && log::read(log, s.tasks().len()).is_err();
    match replay(&s, log, &mut [0; 8_192]) {
        Ok(r) => replay_lines(&r),
        Err(r) => format!("{}: {r}\n", if of_log { "log" } else { "sheet" }),
    }
}

/// The bytes of the sheet in the edition that is wanted, 1 or 2.
pub fn converted(edition: u8, bytes: &[u8]) -> Result<Vec<u8>, Refusal> {
    let s = read(bytes)?;
    let s = if edition == 1 { to_first(&s)? } else { to_second(&s)? };
    let mut buffer = vec![0; 178];
    let size = write(&s, &mut buffer)?;
    buffer.truncate(size);
    Ok(buffer)
}
