//! Published vectors and the borders of the requirements, through both.

mod common;

use common::{buffer, Order, Outcome, Reception};
use second::testkit::{hex, known_frames, known_requests, probe_frame, probe_request, probed};
use second::testkit::{summed, summed_again, BuildInput, Level, SiteSpec};
use second::{Built, Received};

const KEY: [u8; 16] = [0x3c; 16];

fn received(site: &SiteSpec, frame: Vec<u8>) -> Outcome<Received> {
    Reception { site: site.site(), frame, out: buffer(130) }.agreed(Some(site))
}

fn built(site: &SiteSpec, input: BuildInput) -> Outcome<Built> {
    Order { site: site.site(), input, out: buffer(130) }.agreed(Some(site))
}

/// Annex C.2, FIPS 197 and SP 800-38A: each frame is accepted with its private
/// payload; a secured one is refused when it comes again.
#[test]
fn known_frames_received() {
    for known in known_frames() {
        let outcome = received(&known.site, known.frame.clone());
        let answer = outcome.answer;
        let len = known.private.len();
        assert_eq!((answer.status, answer.private), (0, len), "{}", known.title);
        assert_eq!(outcome.out[..len], known.private, "{}", known.title);
        let again = Reception { site: outcome.site, frame: known.frame, out: buffer(127) };
        let status = again.agreed(None).answer.status;
        assert_eq!(status, if answer.level > 0 { 14 } else { 0 }, "{}", known.title);
    }
}

/// Every single bit of the frames counts, the FCS being redone, wherever the
/// frame has a tag.
#[test]
fn known_frames_flipped() {
    for known in known_frames() {
        let tagged = received(&known.site, known.frame.clone()).answer.level % 4 > 0;
        for bit in 0..8 * (known.frame.len() - 2) {
            let mut frame = known.frame.clone();
            frame[bit / 8] ^= 1 << (bit % 8);
            let status = received(&known.site, summed_again(&frame)).answer.status;
            assert!(!tagged || status > 0, "{}, bit {bit}", known.title);
        }
    }
}

/// Annex C.2: each request gives its frame.
#[test]
fn known_requests_built() {
    for known in known_requests() {
        let outcome = built(&known.site, known.input.clone());
        let len = known.frame.len();
        assert_eq!(outcome.answer, Built { status: 0, len }, "{}", known.title);
        assert_eq!(outcome.out[..len], known.frame, "{}", known.title);
    }
}

/// The status and the counter after receiving.
fn counted(site: &mut SiteSpec, counter: u32) -> (u8, u32) {
    let outcome = received(site, probe_frame(counter, 6, &KEY, b"reading"));
    site.refresh(&outcome.site);
    (outcome.answer.status, site.devices[0].counter)
}

#[test]
fn counters() {
    let mut site = probed(5, KEY);
    assert_eq!(counted(&mut site, 4), (14, 5));
    assert_eq!(counted(&mut site, 5), (0, 6));
    assert_eq!(counted(&mut site, 5), (14, 6));
    assert_eq!(counted(&mut site, 0xffff_ffff), (14, 6));
    assert_eq!(counted(&mut site, 0xffff_fffe), (0, 0xffff_ffff));
    for counter in [0, 6, 0xffff_fffe, 0xffff_ffff] {
        assert_eq!(counted(&mut site, counter), (14, 0xffff_ffff));
    }
}

#[test]
fn header_9_mode_1_level_6_has_room_for_102() {
    let site = probed(5, KEY);
    let input = |len| BuildInput { request: probe_request(6), open: vec![], private: vec![7; len] };
    assert_eq!(built(&site, input(103)).answer, Built { status: 16, len: 0 });
    let outcome = built(&site, input(102));
    assert_eq!((outcome.answer, outcome.out[9]), (Built { status: 0, len: 127 }, 0x0e));
    let longest = received(&site, probe_frame(5, 6, &KEY, &[7; 102]));
    assert_eq!((longest.answer.status, longest.answer.private), (0, 102));
}

/// The own counter to its end.
#[test]
fn own_counter() {
    let mut site = probed(0xffff_fffe, KEY);
    let input = BuildInput { request: probe_request(6), ..BuildInput::default() };
    let outcome = built(&site, input.clone());
    assert_eq!(outcome.answer.status, 0);
    assert_eq!(outcome.out[10..14], [0xfe, 0xff, 0xff, 0xff]);
    site.refresh(&outcome.site);
    assert_eq!(site.settings.counter, 0xffff_ffff);
    assert_eq!(built(&site, input.clone()).answer.status, 14);
    let outcome = built(&site, BuildInput { request: probe_request(0), ..input });
    assert_eq!(outcome.answer, Built { status: 0, len: 11 });
}

/// The borders of the requirements that are proved of the meanings, through
/// frames.
#[test]
fn borders_through_frames() {
    let smallest = SiteSpec::default();
    assert_eq!(received(&smallest, hex("02 00 6A E4 79")).answer.status, 0);
    assert_eq!(received(&smallest, hex("02 00 6A E4 78")).answer.status, 4);
    assert_eq!(received(&smallest, vec![]).answer.status, 3);
    let addresses = hex("01 FF FF FF FF 04 05");
    let answer = received(&smallest, summed(&[hex("61 88"), addresses.clone()].concat())).answer;
    assert_eq!((answer.status, answer.start, answer.header.compression), (0, 9, 1));
    let answer = received(&smallest, summed(&[hex("69 98"), addresses].concat())).answer;
    assert_eq!(answer.status, 5);
    // Level 4 is not at least 3; 7 is.
    let mut site = probed(5, KEY);
    site.levels[0] = Level { kind: 1, minimum: 3, ..Level::default() };
    for level in 1..8 {
        let frame = probe_frame(5, level, &KEY, b"reading");
        let expected = if level == 3 || level == 7 { 0 } else { 10 };
        assert_eq!(received(&site, frame).answer.status, expected);
    }
}
