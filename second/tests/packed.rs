//! The published vectors beside the program that runs them: what it reads is
//! packed from the vector files, and it prints a line for each.

use std::fs;

use second::packed::packed;

fn file(path: &str) -> Vec<u8> {
    fs::read(format!("{}/{path}", env!("CARGO_MANIFEST_DIR"))).expect(path)
}

fn text(path: &str) -> String {
    String::from_utf8(file(path)).expect("text")
}

#[test]
fn stdin_is_the_published_vectors() {
    let vectors = text("vectors/vectors.txt");
    let cavp = text("vectors/vectors-ccm-cavp.txt");
    assert!(packed(&vectors, &cavp) == file("../crates/vectors/stdin"));
}

/// 6 blocks, 6 packets, 3 frames of Annex C, 367 lines of CAVP; all hold.
#[test]
fn stdout_has_every_vector() {
    let printed = text("../crates/vectors/stdout");
    let (lines, last) = printed.trim_end().rsplit_once('\n').expect("lines");
    assert_eq!(last, "382 ok, 0 differ");
    assert_eq!(lines.lines().filter(|line| line.ends_with(" ok")).count(), 6 + 6 + 3 + 367);
    assert_eq!(lines.lines().count(), 382);
}
