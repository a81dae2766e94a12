//! Receiving beside the second implementation.

mod common;

use common::{buffer, some_free, Histogram, Reception};
use second::testkit::{any_site, changed_site, frame, frame_of, run_of};
use second::testkit::{summed, summed_again, Allowance, FrameCase, Rng, SiteBreakage, SiteSpec};

const REFUSALS: [u8; 14] = [2, 3, 4, 5, 6, 7, 8, 9, 10, 11, 12, 13, 14, 15];

/// What accepted frames had.
#[derive(Default)]
struct Seen {
    levels: [[usize; 4]; 8],
    kinds: [usize; 4],
    modes: [[usize; 4]; 4],
    absent_peers: usize,
    exempt: usize,
}

impl Seen {
    fn add(&mut self, spec: &SiteSpec, received: &second::Received) {
        let header = &received.header;
        self.levels[usize::from(received.level)][usize::from(received.keymode)] += 1;
        self.kinds[usize::from(header.kind)] += 1;
        let (to, from) = (header.destination.mode, header.source.mode);
        self.modes[usize::from(to)][usize::from(from)] += 1;
        self.absent_peers += usize::from(received.level > 0 && from == 0);
        let level = spec.levels.iter().find(|level| level.kind == header.kind);
        let refuses = |allowed: u8, minimum: u8| match allowed {
            0 => minimum > 0,
            set => set & 1 == 0,
        };
        let overridden = level.is_some_and(|level| refuses(level.allowed, level.minimum));
        let security = spec.settings.flags & 1 == 1;
        self.exempt += usize::from(
            security && received.level == 0 && [0, 1].contains(&header.kind) && overridden,
        );
    }

    fn check(&self) {
        println!("accepted by level and key mode: {:?}", self.levels);
        println!("by type: {:?}, by modes: {:?}", self.kinds, self.modes);
        println!("absent peers: {}, exempt: {}", self.absent_peers, self.exempt);
        assert!(self.levels[1..].iter().flatten().all(|count| *count > 20));
        assert!(self.levels[0][0] > 20);
        assert!(self.kinds.iter().all(|count| *count > 20));
        for (to, from) in [(0, 0), (0, 2), (0, 3), (2, 0), (2, 2), (2, 3), (3, 0), (3, 2), (3, 3)] {
            assert!(self.modes[to][from] > 20, "modes {to} and {from}");
        }
        assert!(self.absent_peers > 20 && self.exempt > 20);
    }
}

/// Random sites, half of them with random free octets, each through a run of
/// frames of every kind; frames that were accepted come again.
#[test]
fn runs_of_frames() {
    let mut rng = Rng::new(101);
    let (mut histogram, mut seen) = (Histogram::default(), Seen::default());
    for _ in 0..1500 {
        let mut spec = SiteSpec::random(&mut rng);
        let mut site = some_free(&mut rng, &spec);
        let mut sent: Vec<Vec<u8>> = Vec::new();
        for _ in 0..25 {
            let again = !sent.is_empty() && rng.chance(8);
            let frame = match again {
                true => sent[rng.below(sent.len())].clone(),
                false => frame(&mut rng, &spec).1,
            };
            let len = match rng.chance(97) {
                true => rng.between(127, 160),
                false => rng.between(0, 126),
            };
            let reception = Reception { site, frame, out: buffer(len) };
            let outcome = reception.agreed(Some(&spec));
            histogram.add(outcome.answer.status);
            if outcome.answer.status == 0 {
                seen.add(&spec, &outcome.answer);
                sent.push(reception.frame);
            }
            site = outcome.site;
            spec.refresh(&site);
        }
    }
    histogram.check("runs of frames", &[(&REFUSALS, 100), (&[0], 5000)]);
    seen.check();
}

/// Every case of frame on its own, over many sites.
#[test]
fn every_case() {
    let mut rng = Rng::new(102);
    let mut histogram = Histogram::default();
    for case in FrameCase::ALL {
        for _ in 0..400 {
            let spec = SiteSpec::random(&mut rng);
            let frame = frame_of(case, &mut rng, &spec);
            let reception = Reception { site: spec.site(), frame, out: buffer(127) };
            histogram.add(reception.agreed(Some(&spec)).answer.status);
        }
    }
    histogram.check("every case", &[(&[0, 3, 4, 5, 6, 7, 8, 9, 10, 11, 12, 13, 14, 15], 10)]);
}

/// Both say whether a site keeps its rules, and receive on it.
fn agreed_on(site: Vec<u8>, frame: &[u8]) -> u8 {
    assert_eq!(gateway::raw::site_holds(&site), second::site_holds(&site), "{site:02x?}");
    Reception { site, frame: frame.to_vec(), out: buffer(130) }.agreed(None).answer.status
}

/// Each breakage of a site rule and each allowance in turn.
#[test]
fn damaged_sites() {
    let mut rng = Rng::new(103);
    let mut histogram = Histogram::default();
    for _ in 0..24 {
        let spec = SiteSpec::random(&mut rng);
        let frame = frame(&mut rng, &spec).1;
        for breakage in SiteBreakage::all() {
            let status = agreed_on(breakage.apply(&mut rng, &spec), &frame);
            assert_eq!(status, 1, "{}", breakage.name());
            histogram.add(status);
        }
        for allowance in Allowance::all() {
            let status = agreed_on(allowance.apply(&mut rng, &spec).site(), &frame);
            assert_ne!(status, 1, "{}", allowance.name());
            histogram.add(status);
        }
    }
    histogram.check("damaged sites", &[(&[1], 500)]);
}

/// Loaded sites with octets changed anywhere.
#[test]
fn changed_sites() {
    let mut rng = Rng::new(104);
    let mut histogram = Histogram::default();
    for _ in 0..120 {
        let spec = SiteSpec::random(&mut rng);
        let frame = frame_of(FrameCase::Secured, &mut rng, &spec);
        for _ in 0..60 {
            let site = changed_site(&mut rng, &spec.site());
            histogram.add(agreed_on(site, &frame));
        }
    }
    histogram.check("changed sites", &[(&[0, 1], 500)]);
}

/// Sites of any content and length.
#[test]
fn any_sites() {
    let mut rng = Rng::new(108);
    let mut histogram = Histogram::default();
    for _ in 0..4000 {
        let spec = SiteSpec::random(&mut rng);
        let (site, frame) = (any_site(&mut rng, &spec), frame(&mut rng, &spec).1);
        histogram.add(agreed_on(site, &frame));
    }
    histogram.check("frames on any site", &[(&[0, 1], 500)]);
}

/// Every length of site near the right one, and what it says it has.
#[test]
fn site_lengths() {
    let mut rng = Rng::new(109);
    let spec = SiteSpec::random(&mut rng);
    for len in (0..100).chain(3560..3650).chain([4096]) {
        let mut site = spec.site();
        site.resize(len, 0);
        let holds = agreed_on(site, &[]) != 1;
        assert_eq!(holds, len == gateway::SITE_LEN, "{len} octets");
    }
}

/// Every length of frame up to 300 octets, with a right and a wrong FCS, and
/// output buffers around 127.
#[test]
fn lengths() {
    let mut rng = Rng::new(105);
    let mut histogram = Histogram::default();
    let spec = SiteSpec::random(&mut rng);
    for len in 0..=300 {
        for room in [0, 1, 126, 127, 128, 300] {
            let octets = rng.octets(len);
            let frames = [octets.clone(), summed(&octets[..len.saturating_sub(2)])];
            for frame in frames {
                let reception = Reception { site: spec.site(), frame, out: buffer(room) };
                histogram.add(reception.agreed(Some(&spec)).answer.status);
            }
        }
    }
    histogram.check("lengths", &[(&[2, 3, 4], 100)]);
}

/// Every bit of a good frame flipped, the FCS redone or not; and every cut.
#[test]
fn flipped_and_cut() {
    let mut rng = Rng::new(106);
    let mut histogram = Histogram::default();
    for _ in 0..8 {
        let spec = SiteSpec::random(&mut rng);
        let good = frame_of(FrameCase::Secured, &mut rng, &spec);
        let site = spec.site();
        let mut frames = Vec::new();
        for bit in 0..8 * good.len() {
            let mut frame = good.clone();
            frame[bit / 8] ^= 1 << (bit % 8);
            frames.push(summed_again(&frame));
            frames.push(frame);
        }
        for len in 2..good.len() {
            frames.push(summed(&good[..len - 2]));
            frames.push(good[..len].to_vec());
        }
        for frame in frames {
            let reception = Reception { site: site.clone(), frame, out: buffer(127) };
            histogram.add(reception.agreed(Some(&spec)).answer.status);
        }
    }
    histogram.check("flipped and cut", &[(&[4, 5], 100)]);
}

/// Receiving many frames in one call is receiving them one after the other.
#[test]
fn many_frames() {
    let mut rng = Rng::new(107);
    let mut accepted = 0;
    for round in 0..300 {
        let spec = SiteSpec::random(&mut rng);
        let drawn: Vec<Vec<u8>> = (0..12).map(|_| frame(&mut rng, &spec).1).collect();
        let mut frames = run_of(&drawn);
        if rng.chance(20) {
            frames.truncate(rng.below(frames.len()));
        }
        let mut site = spec.site();
        if round % 10 == 0 {
            site[0] = 0;
        }
        let mut out = buffer(if round % 7 == 0 { 126 } else { 130 });
        let (mut their_site, mut their_out, mut count) = (site.clone(), out.clone(), 0);
        let mut rest = &frames[..];
        while let Some((&len, behind)) = rest.split_first() {
            let Some(frame) = behind.get(..usize::from(len)) else {
                break;
            };
            let answer = second::receive(&mut their_site, frame, &mut their_out);
            count += u64::from(answer.status == 0);
            rest = &behind[usize::from(len)..];
        }
        assert_eq!(gateway::raw::receive_many(&mut site, &frames, &mut out), count);
        assert_eq!((site, out), (their_site, their_out));
        accepted += count;
    }
    println!("many frames: {accepted} accepted");
    assert!(accepted > 500);
}
