//! The cases that are kept beside the answers program.

use super::answers::{Cases, SITE_ROOM};
use super::damage::{Allowance, FileBreakage, SiteBreakage};
use super::frames::{frame, frame_of, FrameCase};
use super::lent::{any_file, any_site, scribbled};
use super::requests::{request, BuildInput, RequestBreakage};
use super::rng::Rng;
use super::sites::SiteSpec;
use super::vectors::{known_frames, known_requests, probe_frame, probe_request, probed};
use crate::frame::MAX_LEN;
use crate::site::SITE_LEN;

/// Lengths that are no site's.
const OTHER_LENS: [usize; 5] = [0, 1, SITE_LEN - 1, SITE_LEN + 1, SITE_ROOM];

impl Cases {
    /// All of them.
    pub fn kept() -> Cases {
        let (mut cases, mut rng) = (Cases::new(), Rng::new(405));
        cases.loading(&mut rng);
        cases.published();
        cases.borders();
        cases.runs(&mut rng);
        cases.damaged_files(&mut rng);
        cases.damaged_sites(&mut rng);
        cases.free_octets(&mut rng);
        cases.damaged_requests(&mut rng);
        cases.lengths(&mut rng);
        cases
    }

    /// A frame or a request; gives the frame where it was accepted.
    fn call(&mut self, rng: &mut Rng, spec: &SiteSpec, again: Option<Vec<u8>>) -> Option<Vec<u8>> {
        let room = if rng.chance(97) { rng.between(127, 140) } else { rng.between(0, 126) };
        if rng.chance(30) {
            self.build(room, &request(rng, spec));
            return None;
        }
        let frame = again.unwrap_or_else(|| frame(rng, spec).1);
        (self.receive(room, &frame).status == 0).then_some(frame)
    }

    /// Files of every size into sites of every length, over what stood there
    /// before.
    fn loading(&mut self, rng: &mut Rng) {
        let small = SiteSpec::default();
        let spec = drawn(rng, 900);
        let full = Allowance::Largest.apply(rng, &spec);
        let broken = FileBreakage::OneShort.apply(rng, &spec);
        self.receive(MAX_LEN, &[]);
        for file in [small.encode(), spec.encode(), full.encode(), broken] {
            for room in OTHER_LENS {
                assert_ne!(self.load(room, &file), 0);
                self.receive(MAX_LEN, &[]);
            }
            self.show();
            self.load(SITE_LEN, &file);
            self.show();
        }
        // After the full site, the small one needs its zeros written.
        self.new_site(&full);
        self.new_site(&small);
        self.show();
        for _ in 0..40 {
            let spec = drawn(rng, 900);
            let file = any_file(rng, &spec);
            let room =
                if rng.chance(75) { SITE_LEN } else { rng.between(SITE_LEN - 9, SITE_LEN + 9) };
            self.load(room, &file);
            let octets = frame(rng, &spec).1;
            self.receive(MAX_LEN, &octets);
        }
    }

    /// The published vectors, each frame twice.
    fn published(&mut self) {
        for known in known_frames() {
            self.new_site(&known.site);
            let received = self.receive(MAX_LEN, &known.frame);
            assert_eq!((received.status, received.private), (0, known.private.len()));
            assert_eq!(self.out[..received.private], known.private, "{}", known.title);
            self.show();
            let again = self.receive(MAX_LEN, &known.frame).status;
            assert_eq!(again, if received.level > 0 { 14 } else { 0 }, "{}", known.title);
        }
        for known in known_requests() {
            self.new_site(&known.site);
            assert_eq!(self.build(MAX_LEN, &known.input), 0, "{}", known.title);
            assert_eq!(self.out[..known.frame.len()], known.frame, "{}", known.title);
            self.show();
        }
    }

    /// The borders of counters, lengths and levels.
    fn borders(&mut self) {
        let key = [0x3c; 16];
        self.new_site(&probed(5, key));
        for counter in [4, 5, 5, 0xffff_ffff, 0xffff_fffe, 0, 6, 0xffff_fffe, 0xffff_ffff] {
            self.receive(MAX_LEN, &probe_frame(counter, 6, &key, b"reading"));
            self.show();
        }
        let request = probe_request(6);
        for (counter, len) in [(5, 103), (5, 102), (0xffff_fffe, 0), (0xffff_ffff, 0)] {
            self.new_site(&probed(counter, key));
            let input = BuildInput { request, private: vec![7; len], ..BuildInput::default() };
            self.build(MAX_LEN, &input);
            self.show();
        }
        self.new_site(&SiteSpec::default());
        for frame in [&[0x02, 0x00, 0x6a, 0xe4, 0x79][..], &[0x02, 0x00, 0x6a, 0xe4, 0x78], &[]] {
            self.receive(MAX_LEN, frame);
        }
    }

    /// Random sites, each through a run of frames and requests; now and then a
    /// load is refused and the site goes on.
    fn runs(&mut self, rng: &mut Rng) {
        for _ in 0..240 {
            let mut spec = SiteSpec::random(rng);
            if spec.encode().len() > 1200 && rng.chance(80) {
                continue;
            }
            if rng.chance(10) {
                self.load(rng.pick(&OTHER_LENS), &spec.encode());
            }
            self.new_site(&spec);
            self.fill(&rng.octets(MAX_LEN));
            let mut sent: Vec<Vec<u8>> = Vec::new();
            for _ in 0..12 {
                let again = match !sent.is_empty() && rng.chance(8) {
                    true => Some(sent[rng.below(sent.len())].clone()),
                    false => None,
                };
                sent.extend(self.call(rng, &spec, again));
                spec.refresh(self.site());
            }
            if rng.chance(10) {
                let broken = rng.pick(&FileBreakage::all()).apply(rng, &SiteSpec::default());
                assert_eq!(self.load(SITE_LEN, &broken), 1);
            }
            let frames: Vec<Vec<u8>> = (0..3).map(|_| frame(rng, &spec).1).collect();
            let len = frames.iter().map(Vec::len).sum::<usize>() + frames.len();
            let cut = if rng.chance(20) { rng.between(0, len) } else { 0 };
            self.receive_many(MAX_LEN, &frames, cut);
            self.show();
        }
    }

    /// Each broken rule of a file, over a site that goes on, and each
    /// allowance.
    fn damaged_files(&mut self, rng: &mut Rng) {
        let spec = drawn(rng, 900);
        for breakage in FileBreakage::all() {
            if self.site() != spec.site() {
                self.new_site(&spec);
            }
            let room = if rng.chance(80) { SITE_LEN } else { rng.pick(&OTHER_LENS) };
            let file = breakage.apply(rng, &spec);
            assert_eq!(self.load(room, &file), 1, "{}", breakage.name());
            self.show();
            self.call(rng, &spec, None);
        }
        for allowance in Allowance::all() {
            self.new_site(&allowance.apply(rng, &spec));
            let frame = frame_of(FrameCase::Secured, rng, &spec);
            self.receive(MAX_LEN, &frame);
            self.show();
        }
    }

    /// Each broken rule of a site, and sites of any content.
    fn damaged_sites(&mut self, rng: &mut Rng) {
        let spec = drawn(rng, 900);
        for breakage in SiteBreakage::all() {
            assert!(!self.lend(&breakage.apply(rng, &spec)), "{}", breakage.name());
            let frame = frame_of(FrameCase::Secured, rng, &spec);
            assert_eq!(self.receive(MAX_LEN, &frame).status, 1, "{}", breakage.name());
            let input = request(rng, &spec);
            assert_eq!(self.build(MAX_LEN, &input), 1, "{}", breakage.name());
            self.receive_many(MAX_LEN, &[frame], 0);
        }
        self.show();
        for _ in 0..30 {
            let spec = drawn(rng, 900);
            self.lend(&any_site(rng, &spec));
            for _ in 0..3 {
                self.call(rng, &spec, None);
            }
            self.show();
        }
    }

    /// Sites with random octets where they are free: they go on as others do,
    /// and keep those octets.
    fn free_octets(&mut self, rng: &mut Rng) {
        for _ in 0..20 {
            let mut spec = drawn(rng, 900);
            assert!(self.lend(&scribbled(rng, &spec.site())));
            for _ in 0..10 {
                self.call(rng, &spec, None);
                spec.refresh(self.site());
            }
            self.show();
        }
    }

    /// Each broken request rule and each case of frame.
    fn damaged_requests(&mut self, rng: &mut Rng) {
        let mut spec = drawn(rng, 900);
        spec.settings.short = 0xfffe;
        self.new_site(&spec);
        for breakage in RequestBreakage::ALL {
            let input = breakage.apply(rng, &spec);
            assert_eq!(self.build(MAX_LEN, &input), 17, "{}", breakage.name());
        }
        for case in FrameCase::ALL {
            for _ in 0..6 {
                let frame = frame_of(case, rng, &spec);
                self.receive(MAX_LEN, &frame);
            }
        }
        self.show();
    }

    /// Frames of every length up to 300, and outputs around 127.
    fn lengths(&mut self, rng: &mut Rng) {
        self.new_site(&SiteSpec::default());
        for len in 0..=300 {
            let room = rng.pick(&[0, 1, 126, 127, 127, 127, 128]);
            let frame = rng.octets(len);
            self.receive(room, &frame);
        }
        self.show();
    }
}

/// A random site with keys and devices, and a file of at most so many octets.
fn drawn(rng: &mut Rng, most: usize) -> SiteSpec {
    loop {
        let spec = SiteSpec::random(rng);
        if !spec.keys.is_empty() && !spec.devices.is_empty() && spec.encode().len() <= most {
            return spec;
        }
    }
}
