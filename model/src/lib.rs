//! An independent model of document 01 and of the requests of document 02, written from their words and not from the crates: bits
//! are text, a schedule goes tick by tick, multiples and divisors are found by trying.

pub mod arith;
pub mod bits;
pub mod chain;
pub mod experiment;
pub mod generate;
pub mod log;
pub mod log_vectors;
pub mod lower;
pub mod nights;
pub mod probe;
pub mod random;
pub mod recurrence;
pub mod replay;
pub mod report;
pub mod schedule;
pub mod search;
pub mod sheet;
pub mod telltale;
pub mod text;
pub mod texts;
pub mod vectors;

/// A number of document 01's table or of document 02. 1 to 9 come with the bit at which the judged field begins, 15 with the late task.
#[derive(Clone, Copy, PartialEq, Eq, Debug)]
pub struct Refusal {
    pub number: u8,
    pub value: Option<u32>,
}

impl Refusal {
    pub fn with(number: u8, value: usize) -> Refusal {
        Refusal { number, value: Some(value as u32) }
    }

    /// "Give with numbers 1 to 9 the bit offset where the judged field begins."
    pub fn at(number: u8, bit: usize) -> Refusal {
        if number <= 9 { Refusal::with(number, bit) } else { number.into() }
    }
}

impl From<u8> for Refusal {
    fn from(number: u8) -> Refusal {
        Refusal { number, value: None }
    }
}

impl std::fmt::Display for Refusal {
    fn fmt(&self, f: &mut std::fmt::Formatter<'_>) -> std::fmt::Result {
        write!(f, "refused {}", self.number)?;
        let about = if self.number == 15 { "task" } else { "bit" };
        self.value.map_or(Ok(()), |value| write!(f, " {about} {value}"))
    }
}

/// Writes files of the repository, or with --check only says whether those that stand there are these.
pub fn store(files: &[(&str, Vec<u8>)]) {
    for (name, content) in files {
        let path = format!("{}/../{name}", env!("CARGO_MANIFEST_DIR"));
        if std::env::args().any(|a| a == "--check") {
            assert!(std::fs::read(&path).ok().as_ref() == Some(content), "{path} is not what the model says");
        } else {
            std::fs::write(&path, content).expect("the file can be written");
        }
    }
}
