//! The log program beside the second implementation. It is run where it was
//! built, `crates/frame_log/out/frame_log`; WIRDHALEF_EMULATOR may name a
//! command that runs it.

mod common;

use std::io::Write;
use std::path::Path;
use std::process::Stdio;

use common::{command, Histogram, LOG};
use second::log;
use second::status::NAMES;
use second::testkit::{hex, log_input, log_of, FileBreakage, Rng, SiteSpec};

/// What the program writes for an input.
fn printed(input: &[u8]) -> Vec<u8> {
    assert!(Path::new(LOG).exists(), "`./read-log` builds the log program");
    let mut child = command(LOG)
        .stdin(Stdio::piped())
        .stdout(Stdio::piped())
        .spawn()
        .expect("the log program starts");
    let mut stdin = child.stdin.take().expect("a standard input");
    let octets = input.to_vec();
    // A program that ends early reads no more.
    let writer = std::thread::spawn(move || stdin.write_all(&octets).is_ok());
    let output = child.wait_with_output().expect("the log program ends");
    writer.join().expect("the input is written");
    output.stdout
}

/// Both print the same; gives the lines.
fn check(input: &[u8]) -> String {
    let [ours, theirs] = [printed(input), log(input)].map(String::from_utf8);
    assert_eq!(ours, theirs, "{input:02x?}");
    theirs.expect("lines of text")
}

/// The listing of the requirements, cut anywhere.
#[test]
fn listing_cut_anywhere() {
    let (good, bad) = (hex("02 00 6A E4 79"), hex("02 00 6A E4 78"));
    let input = log_of(&SiteSpec::default().encode(), &[&good[..], &bad, &[]]);
    let listing = "frame status octets\n1 SUCCESS 0\n2 FCS 0\n3 LENGTH 0\n";
    assert_eq!(String::from_utf8_lossy(&printed(&input)), listing);
    for len in (0..=input.len()).filter(|len| *len < 4 || *len > 74) {
        check(&input[..len]);
    }
}

/// Files that are too long, broken or of every size.
#[test]
fn files() {
    let mut rng = Rng::new(501);
    let good = hex("02 00 6A E4 79");
    check(&log_of(&[0; 3614], &[&[1, 2, 3]]));
    check(&log_of(&[0; 3613], &[&good[..], &[]]));
    check(&log_of(&[], &[&good]));
    check(&[0x1d, 0x0e]);
    check(&[0xff, 0xff, 1]);
    for breakage in FileBreakage::all().into_iter().step_by(4) {
        let file = breakage.apply(&mut rng, &SiteSpec::default());
        check(&log_of(&file, &[&good[..], &[]]));
    }
}

/// Random logs, some of them cut, some long.
#[test]
fn random_logs() {
    let mut rng = Rng::new(502);
    let mut histogram = Histogram::default();
    for round in 0..60 {
        let spec = SiteSpec::random(&mut rng);
        let frames = if round % 20 == 0 { 2000 } else { 30 };
        let lines = check(&log_input(&mut rng, &spec, frames));
        for name in lines.lines().skip(1).filter_map(|line| line.split(' ').nth(1)) {
            histogram.add(NAMES.iter().position(|other| *other == name).expect("a status") as u8);
        }
    }
    histogram.check("random logs", &[(&[0, 3, 4, 5, 6], 100)]);
}
