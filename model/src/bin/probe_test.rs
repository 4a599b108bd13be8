//! The requests that are always made of crates/probe, and what it must answer.

use model::probe::{answer, Request};
use model::store;
use model::vectors::requests;

fn main() {
    let requests = requests();
    let input = requests.iter().flat_map(Request::bytes).collect();
    let output = requests.iter().flat_map(|q| answer(q).bytes()).collect();
    store(&[("crates/probe/stdin", input), ("crates/probe/stdout", output)]);
}
