//! The compiled programs pack and show against the model, on a text for each thing that can be wrong, and on texts and sheets by chance.
//!
//!     texts [--seed S] [--texts N] -- COMMAND.. FOLDER
//!
//! A program is run by the command with its path in the folder behind it. The first difference is printed and ends the run with status 1.

use model::generate::handed_as_bytes;
use model::random::Random;
use model::sheet::{read, unjudged};
use model::text::{parse, shown};
use model::texts::{each_fault, text};
use std::collections::BTreeMap;
use std::io::Write as _;
use std::process::{exit, Command, Stdio};

struct Run {
    seed: u64,
    texts: u64,
    command: Vec<String>,
}

fn usage<T>() -> T {
    eprintln!("usage: texts [--seed S] [--texts N] -- COMMAND.. FOLDER");
    exit(2)
}

fn run() -> Run {
    let mut run = Run { seed: 1, texts: 400, command: vec![] };
    let mut words = std::env::args().skip(1);
    while let Some(word) = words.next() {
        let mut number = || words.next().and_then(|n| n.parse().ok()).unwrap_or_else(usage);
        match word.as_str() {
            "--seed" => run.seed = number(),
            "--texts" => run.texts = number(),
            "--" => run.command = words.by_ref().collect(),
            _ => usage(),
        }
    }
    if run.command.is_empty() {
        usage()
    }
    run
}

/// What a program writes on standard output, and what on standard error.
type Written = (Vec<u8>, String);

impl Run {
    fn program(&self, name: &str, input: &[u8]) -> Written {
        let (folder, front) = self.command.split_last().unwrap();
        let words = [front, &[format!("{folder}/{name}")]].concat();
        let mut child = Command::new(&words[0])
            .args(&words[1..])
            .stdin(Stdio::piped())
            .stdout(Stdio::piped())
            .stderr(Stdio::piped())
            .spawn()
            .expect("the program can be started");
        // A program that has read enough may have ended.
        child.stdin.take().unwrap().write_all(input).ok();
        let output = child.wait_with_output().expect("the program ends");
        (output.stdout, String::from_utf8_lossy(&output.stderr).into_owned())
    }

    fn compare(&self, name: &str, input: &[u8], expected: &Written) {
        let written = self.program(name, input);
        if written != *expected {
            println!("{name} differs from the model on {} bytes:\n{}", input.len(), input.escape_ascii());
            for (whose, (output, error)) in [("the model", expected), ("the program", &written)] {
                println!("{whose}: output {:?}, error {error:?}", output.escape_ascii().to_string());
            }
            exit(1);
        }
    }

    /// A text, and what is shown of its sheet; answers what was said of it.
    fn text(&self, text: &[u8]) -> String {
        let (said, expected) = match parse(text) {
            Err(wrong) => (format!("{:?}", wrong.fault), (vec![], format!("{wrong}\n"))),
            Ok(s) => ("taken".into(), (unjudged(&s), String::new())),
        };
        self.compare("pack", text, &expected);
        if said == "taken" {
            self.sheet(&expected.0);
        }
        said
    }

    fn sheet(&self, bytes: &[u8]) {
        let text = read(bytes).and_then(|s| shown(&s));
        self.compare("show", bytes, &text.map_or_else(|r| (vec![], format!("{r}\n")), |text| (text.into(), String::new())));
    }
}

fn main() {
    let run = run();
    let mut r = Random::new(run.seed);
    let mut met: BTreeMap<String, u64> = BTreeMap::new();
    for (fault, text) in each_fault() {
        let said = run.text(&text);
        assert_eq!(format!("{fault:?}"), said, "{}", text.escape_ascii());
        *met.entry(said).or_default() += 1;
    }
    for _ in 0..run.texts {
        *met.entry(run.text(&text(&mut r))).or_default() += 1;
        run.sheet(&handed_as_bytes(&mut r));
    }
    let taken = met.remove("taken").unwrap_or(0);
    let texts = taken + met.values().sum::<u64>();
    println!("pack, show: {texts} texts, of which {taken} taken and {} faults met, and {} sheets as the model says", met.len(), taken + run.texts);
}
