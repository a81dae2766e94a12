//! The program that builds and receives every shape, beside this
//! implementation: its sites are made here, and what it prints is what this
//! implementation says.

use std::fs;

use second::shapes;

fn file(path: &str) -> Vec<u8> {
    fs::read(format!("{}/{path}", env!("CARGO_MANIFEST_DIR"))).expect(path)
}

#[test]
fn stdin_is_the_sites() {
    assert!(shapes::input() == file("../crates/shapes/stdin"));
}

#[test]
fn stdout_is_what_this_says() {
    let made = shapes::output();
    let printed = String::from_utf8(file("../crates/shapes/stdout")).expect("text");
    for (number, (ours, theirs)) in made.lines().zip(printed.lines()).enumerate() {
        assert_eq!(ours, theirs, "line {}", number + 1);
    }
    assert_eq!(made.len(), printed.len());
}

/// 64 beacons, 352 data frames, 4 acknowledgments, 352 commands come back
/// whole; every other shape is refused with 17.
#[test]
fn every_shape_comes_back_or_is_refused() {
    let made = shapes::output();
    let lines: Vec<&str> = made.lines().skip(1).take(1536).collect();
    let whole = |line: &&&str| line.ends_with(" same same same ");
    assert_eq!(lines.iter().filter(whole).count(), 64 + 352 + 4 + 352);
    let refused = |line: &&&str| line.ends_with(" 17 0 ");
    assert_eq!(lines.iter().filter(refused).count(), 1536 - 772);
}
