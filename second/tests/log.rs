//! The log program.

use second::status::NAMES;
use second::testkit::{hex, log_input, log_of, FileBreakage, Rng, SiteSpec};
use second::{log, receive};

fn printed(input: &[u8]) -> String {
    String::from_utf8(log(input)).unwrap()
}

fn listing() -> Vec<u8> {
    let (good, bad) = (hex("02 00 6A E4 79"), hex("02 00 6A E4 78"));
    log_of(&SiteSpec::default().encode(), &[&good[..], &bad, &[]])
}

#[test]
fn listing_of_the_requirements() {
    let expected = "frame status octets\n1 SUCCESS 0\n2 FCS 0\n3 LENGTH 0\n";
    assert_eq!(printed(&listing()), expected);
}

/// Every cut of the listing's input, also between two items.
#[test]
fn cut_anywhere() {
    let input = listing();
    let lines = ["frame status octets\n", "1 SUCCESS 0\n", "2 FCS 0\n", "3 LENGTH 0\n"];
    let ends = [79, 85, 91, 92];
    assert_eq!(input.len(), 92);
    for len in 0..=input.len() {
        let whole = ends.iter().filter(|end| **end <= len).count();
        let mut expected = lines[..whole.max(1)].concat();
        if !ends.contains(&len) {
            expected.push_str("CUT\n");
        }
        assert_eq!(printed(&input[..len]), expected, "{len} octets");
    }
}

#[test]
fn file_too_long() {
    let expected = "frame status octets\nSITE\n";
    assert_eq!(printed(&log_of(&[0; 3614], &[&[1, 2, 3]])), expected);
    assert_eq!(printed(&[0x1e, 0x0e]), expected);
    assert_eq!(printed(&[0xff, 0xff, 1]), expected);
    assert_eq!(printed(&[0x1d, 0x0e]), "frame status octets\nCUT\n");
}

#[test]
fn broken_file() {
    let good = hex("02 00 6A E4 79");
    let expected = "frame status octets\n1 SITE 0\n2 SITE 0\n";
    assert_eq!(printed(&log_of(&[0; 3613], &[&good[..], &[]])), expected);
    assert_eq!(printed(&log_of(&[], &[&good[..], &[]])), expected);
    let mut rng = Rng::new(21);
    for breakage in FileBreakage::all() {
        let file = breakage.apply(&mut rng, &SiteSpec::default());
        assert_eq!(printed(&log_of(&file, &[&good[..], &[]])), expected, "{}", breakage.name());
    }
}

#[test]
fn frames_of_255_octets() {
    let expected = "frame status octets\n1 LENGTH 0\n2 LENGTH 0\nCUT\n";
    let mut input = log_of(&SiteSpec::default().encode(), &[&[0; 255][..], &[0; 128]]);
    input.push(255);
    assert_eq!(printed(&input), expected);
}

/// The log prints what receiving frame by frame gives.
#[test]
fn log_is_receiving() {
    let mut rng = Rng::new(22);
    for _ in 0..300 {
        let spec = SiteSpec::random(&mut rng);
        let input = log_input(&mut rng, &spec, 20);
        let (mut site, file_len) = (spec.site(), spec.encode().len());
        let mut rest = input.get(2 + file_len..).unwrap_or(&[]);
        let (mut out, mut number) = ([0; 127], 0);
        let mut expected = String::from("frame status octets\n");
        while !rest.is_empty() && rest.len() > usize::from(rest[0]) {
            let (frame, behind) = rest[1..].split_at(rest[0].into());
            let received = receive(&mut site, frame, &mut out);
            number += 1;
            let name = NAMES[usize::from(received.status)];
            expected += &format!("{number} {name} {}\n", received.private);
            rest = behind;
        }
        if !rest.is_empty() || input.len() < 2 + file_len {
            expected.push_str("CUT\n");
        }
        assert_eq!(printed(&input), expected);
    }
}

#[test]
fn the_sample_prints_its_lines() {
    let folder = concat!(env!("CARGO_MANIFEST_DIR"), "/../samples/");
    let input = std::fs::read(format!("{folder}day.bin")).unwrap();
    assert_eq!(second::log(&input), std::fs::read(format!("{folder}day.txt")).unwrap());
}
