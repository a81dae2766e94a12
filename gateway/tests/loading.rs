//! Loading beside the second implementation.

mod common;

use common::{buffer, Histogram, Loading};
use gateway::SITE_LEN;
use second::testkit::{any_buffer, any_file, Allowance, FileBreakage, Rng, SiteSpec};

/// Files of any content and length into buffers of any content and length.
#[test]
fn any_load() {
    let mut rng = Rng::new(601);
    let mut histogram = Histogram::default();
    for _ in 0..8000 {
        let spec = SiteSpec::random(&mut rng);
        let (file, site) = (any_file(&mut rng, &spec), any_buffer(&mut rng));
        histogram.add(Loading { file, site }.agreed().answer);
    }
    histogram.check("any load", &[(&[0, 1, 2], 1000)]);
}

/// Each breakage of a file rule and each allowance in turn.
#[test]
fn damaged_files() {
    let mut rng = Rng::new(602);
    let mut histogram = Histogram::default();
    for _ in 0..12 {
        let spec = SiteSpec::random(&mut rng);
        for breakage in FileBreakage::all() {
            let file = breakage.apply(&mut rng, &spec);
            let status = Loading { file, site: any_buffer(&mut rng) }.agreed().answer;
            assert_eq!(status, 1, "{}", breakage.name());
            histogram.add(status);
        }
        for allowance in Allowance::all() {
            let spec = allowance.apply(&mut rng, &spec);
            let outcome = Loading { file: spec.encode(), site: buffer(SITE_LEN) }.agreed();
            assert_eq!((outcome.answer, outcome.site), (0, spec.site()), "{}", allowance.name());
            histogram.add(outcome.answer);
        }
    }
    histogram.check("damaged files", &[(&[0], 100), (&[1], 500)]);
}

/// Files with a bit of the table of contents or of a record flipped.
#[test]
fn flipped_files() {
    let mut rng = Rng::new(603);
    let mut histogram = Histogram::default();
    for _ in 0..40 {
        let spec = SiteSpec::random(&mut rng);
        let file = spec.encode();
        for number in 0..200 {
            let at = if number < 84 { number / 2 } else { rng.below(file.len()) };
            let mut file = file.clone();
            file[at] ^= 1 << rng.below(8);
            histogram.add(Loading { file, site: buffer(SITE_LEN) }.agreed().answer);
        }
    }
    histogram.check("flipped files", &[(&[0, 1], 1000)]);
}

/// Buffers of every length near the right one, and files cut anywhere.
#[test]
fn lengths() {
    let mut rng = Rng::new(604);
    let mut histogram = Histogram::default();
    for _ in 0..4 {
        let spec = SiteSpec::random(&mut rng);
        let (good, broken) = (spec.encode(), FileBreakage::OneShort.apply(&mut rng, &spec));
        for len in (0..100).chain(3560..3650).chain([4095, 4096]) {
            let expected = if len == SITE_LEN { 0 } else { 2 };
            for (file, expected) in [(&good, expected), (&broken, 1)] {
                let status = Loading { file: file.clone(), site: buffer(len) }.agreed().answer;
                assert_eq!(status, expected, "{len} octets");
                histogram.add(status);
            }
        }
        for len in (0..good.len()).step_by(1 + good.len() / 200) {
            let file = good[..len].to_vec();
            assert_eq!(Loading { file, site: buffer(SITE_LEN) }.agreed().answer, 1);
            histogram.add(1);
        }
    }
    histogram.check("lengths", &[(&[1, 2], 500)]);
}

/// The smallest and the largest file.
#[test]
fn file_sizes() {
    let mut rng = Rng::new(605);
    let smallest = SiteSpec::default();
    let spec = SiteSpec::random(&mut rng);
    let largest = Allowance::Largest.apply(&mut rng, &spec);
    for (spec, len) in [(smallest, 77), (largest, 3613)] {
        let file = spec.encode();
        assert_eq!(file.len(), len);
        let outcome = Loading { file, site: buffer(SITE_LEN) }.agreed();
        assert_eq!((outcome.answer, outcome.site), (0, spec.site()));
    }
}

/// Lengths that agree in their lowest two octets alone. The answers program
/// has no room for them.
#[cfg(linked)]
#[test]
fn longer_by_65536() {
    let file = SiteSpec::default().encode();
    let mut long = file.clone();
    long.resize(0x1_0000 + file.len(), 0);
    let status =
        |file: &[u8], len| Loading { file: file.to_vec(), site: buffer(len) }.agreed().answer;
    assert_eq!(status(&long, SITE_LEN), 1);
    assert_eq!(status(&file, 0x1_0000 + SITE_LEN), 2);
    let mut site = SiteSpec::default().site();
    site.resize(0x1_0000 + SITE_LEN, 0);
    assert!(!gateway::raw::site_holds(&site));
}
