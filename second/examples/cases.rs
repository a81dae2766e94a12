//! Writes the answers program's input and what it must answer:
//! `cargo run --release --example cases`.

use std::fs;

use second::status::NAMES;
use second::testkit::Cases;

fn main() {
    let cases = Cases::kept();
    let folder = format!("{}/../crates/answers", env!("CARGO_MANIFEST_DIR"));
    fs::write(format!("{folder}/stdin"), &cases.input).expect("the input is written");
    fs::write(format!("{folder}/stdout"), &cases.expected).expect("the answers are written");
    println!("{} octets in, {} out", cases.input.len(), cases.expected.len());
    println!("items by kind: {:?}, loads by status: {:?}", cases.items, cases.loads);
    for (count, name) in cases.statuses.iter().zip(NAMES) {
        println!("{count:>6} {name}");
    }
}
