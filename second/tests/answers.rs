//! The answers program's files are what this implementation answers.

use std::fs;

use second::testkit::Cases;

fn file(name: &str) -> Vec<u8> {
    let path = format!("{}/../crates/answers/{name}", env!("CARGO_MANIFEST_DIR"));
    fs::read(path).expect("a file of the answers program")
}

/// Every status is answered often; the kept files are made of these cases.
#[test]
fn kept_cases() {
    let cases = Cases::kept();
    println!("{:?} {:?} {:?}", cases.items, cases.loads, cases.statuses);
    assert!(cases.statuses.iter().all(|count| *count >= 20));
    assert!(cases.loads.iter().all(|count| *count >= 20));
    assert!(cases.input == file("stdin"), "stdin is made by the example `cases`");
    assert!(cases.expected == file("stdout"), "stdout is made by the example `cases`");
}
