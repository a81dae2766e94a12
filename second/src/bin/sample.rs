//! Writes the log's sample: a site and frames that show accepted, refused and cut input, and what the second
//! implementation prints for it. Arguments: the file to write, and the file for the lines.

use second::testkit::{frame_of, log_of, FrameCase, Rng, SiteSpec};

/// The frames of the sample, in their order; a second `true` sends the frame before it once more.
const CASES: [(FrameCase, bool); 12] = [
    (FrameCase::Acknowledgment, false),
    (FrameCase::Unsecured, false),
    (FrameCase::Secured, false),
    (FrameCase::Secured, true),
    (FrameCase::Secured, false),
    (FrameCase::WrongTag, false),
    (FrameCase::FlippedBit, false),
    (FrameCase::WrongDestination, false),
    (FrameCase::LegacySecured, false),
    (FrameCase::LevelZeroSecured, false),
    (FrameCase::TruncatedSummed, false),
    (FrameCase::Secured, false),
];

/// The input for one seed: file length, file, frames, and a last frame that is cut.
fn input(seed: u64) -> Vec<u8> {
    let mut rng = Rng::new(seed);
    let mut spec = SiteSpec::random(&mut rng);
    let (file, mut site) = (spec.encode(), spec.site());
    let mut out = [0u8; 127];
    let mut frames: Vec<Vec<u8>> = Vec::new();
    for (case, again) in CASES {
        spec.refresh(&site);
        let frame = match again {
            true => frames[frames.len() - 1].clone(),
            false => frame_of(case, &mut rng, &spec),
        };
        second::receive(&mut site, &frame, &mut out);
        frames.push(frame);
    }
    let mut octets = log_of(&file, &frames);
    octets.extend([9, 0x61, 0x88]);
    octets
}

/// How many different words the lines have: a sample that shows much.
fn variety(lines: &[u8]) -> usize {
    let text = String::from_utf8_lossy(lines).into_owned();
    let mut words: Vec<&str> = text.lines().filter_map(|l| l.split(' ').nth(1)).collect();
    words.sort_unstable();
    words.dedup();
    let secured = text.lines().filter(|l| l.contains("SUCCESS") && !l.ends_with(" 0")).count();
    words.len() + secured.min(3)
}

fn main() {
    let names: Vec<String> = std::env::args().skip(1).collect();
    let best =
        (0..2000).max_by_key(|seed| (variety(&second::log(&input(*seed))), 2000 - seed)).unwrap();
    let octets = input(best);
    std::fs::write(&names[0], &octets).unwrap();
    std::fs::write(&names[1], second::log(&octets)).unwrap();
}
