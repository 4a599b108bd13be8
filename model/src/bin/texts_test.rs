//! A text beside each sample sheet that is well formed, and what the programs pack and show are run on.

use model::sheet::{read, unjudged, Memory};
use model::store;
use model::text::{named, parse, shown};

/// A text with everything in it that a text may have.
const TYPED: &str = "# Radio with a display\r\n\r\nedition 2 # said, though the limit says it too\n\n  task sampler period 20\tbudget 005 rank 3\n\
    task corrector period 6 budget 1 rank 255\r\ntask\tstamper_2 period 12 budget 3 rank 4#\ntask Display period 100000 budget 12345 rank 0\n\
    chain limit 60 sampler 1 stamper_2\n\nchain 0 corrector 03";

/// The text of a sample. Radio's tasks and the suite's have names; those of the others are called by their numbers.
fn text(name: &str, s: &Memory) -> String {
    match name {
        "radio" => format!("# Radio, master clock\n{}", named(s, &["sampler", "corrector", "stamper"])),
        "suite" => format!("# Radio with a display and a bell\n{}", named(s, &["sampler", "corrector", "stamper", "display", "bell"])),
        _ => shown(s).expect("what is read is fine"),
    }
}

fn main() {
    let folder = std::fs::read_dir(concat!(env!("CARGO_MANIFEST_DIR"), "/../samples")).expect("the samples are there");
    let mut files: Vec<(String, Vec<u8>)> = Vec::new();
    for path in folder.map(|entry| entry.unwrap().path()).filter(|path| path.extension().map_or(false, |x| x == "sheet")) {
        let name = path.file_stem().unwrap().to_str().unwrap();
        if let Ok(s) = read(&std::fs::read(&path).unwrap()) {
            files.push((format!("samples/{name}.txt"), text(name, &s).into_bytes()));
            if name == "suite" {
                files.push(("crates/show/stdin".into(), unjudged(&s)));
                files.push(("crates/show/stdout".into(), shown(&s).expect("what is read is fine").into_bytes()));
            }
        }
    }
    files.push(("crates/pack/stdin".into(), TYPED.into()));
    files.push(("crates/pack/stdout".into(), unjudged(&parse(TYPED.as_bytes()).expect("the text is fine"))));
    let files: Vec<(&str, Vec<u8>)> = files.iter().map(|(name, content)| (name.as_str(), content.clone())).collect();
    store(&files);
}
