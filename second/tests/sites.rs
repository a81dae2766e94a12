//! Files and sites: loading, each rule broken in turn, what may look broken,
//! and the free octets.

use std::collections::HashSet;

use second::file::{CONTENTS_LEN, FILE_MOST};
use second::records::Kind;
use second::site::{count_at, device_counter_at, region_at, COUNTER_AT, HEADER_LEN, SITE_LEN};
use second::testkit::{any_buffer, any_file, any_site, frame, free_octets, probe_frame, probed};
use second::testkit::{request, scribbled, Allowance, Device, FileBreakage, Handle};
use second::testkit::{Level, Lookup, Rng, Settings, SiteBreakage, SiteSpec, Usage};
use second::{build, load, receive, site_holds, Address, Built, Received};

/// The site that a file makes of a buffer with other octets.
fn loaded(file: &[u8]) -> Vec<u8> {
    let mut site = vec![0xee; SITE_LEN];
    assert_eq!(load(file, &mut site), 0);
    site
}

/// The status of a load that must be refused, and must change nothing.
fn refused(file: &[u8], mut site: Vec<u8>) -> u8 {
    let before = site.clone();
    let status = load(file, &mut site);
    assert!(status != 0 && site == before);
    status
}

#[test]
fn places() {
    assert_eq!((CONTENTS_LEN, FILE_MOST, HEADER_LEN, SITE_LEN), (42, 3613, 32, 3603));
    assert_eq!(Kind::ALL.map(count_at), [0, 2, 4, 6, 8, 10, 12]);
    assert_eq!(Kind::ALL.map(region_at), [32, 67, 1155, 1235, 1491, 2899, 3091]);
    assert_eq!((COUNTER_AT, device_counter_at(0), device_counter_at(63)), (63, 79, 1150));
}

/// The manual for C says the same.
#[test]
fn places_in_the_header() {
    let path = concat!(env!("CARGO_MANIFEST_DIR"), "/../include/wirdhalef.h");
    let header = std::fs::read_to_string(path).expect("the header");
    let says = |name: &str, place: usize| {
        let place = place.to_string();
        let words = [&format!("WIRDHALEF_{name}"), "=", &place];
        let found = header.lines().any(|line| {
            line.replace(',', " ").split_whitespace().take(3).eq(words.iter().copied())
        });
        assert!(found, "{words:?}");
    };
    for kind in Kind::ALL {
        let name = format!("{kind:?}").to_uppercase();
        says(&format!("SITE_{name}_COUNT"), count_at(kind));
        says(&format!("SITE_{name}"), region_at(kind));
    }
    says("SITE_LEN", SITE_LEN);
    says("FILE_MOST", FILE_MOST);
}

/// One site with two records of some kinds, its octets written out.
#[test]
fn what_is_written_where() {
    let spec = SiteSpec {
        settings: Settings { pan: 0x4321, flags: 3, counter: 0x0403_0201, ..Settings::default() },
        devices: vec![
            Device { pan: 1, short: 2, extended: 3, counter: 4, exempt: 1 },
            Device { pan: 5, short: 6, extended: 7, counter: 8, exempt: 0 },
        ],
        levels: vec![Level { kind: 3, command: 9, minimum: 5, overridden: 1, allowed: 0xf0 }],
        keys: vec![[0xa1; 16], [0xa2; 16]],
        lookups: vec![Lookup {
            key: 1,
            mode: 2,
            index: 7,
            source: [0xb1; 8],
            peer: Address { mode: 9, pan: 0xc2c1, address: 0xd1 },
        }],
        usages: vec![Usage { key: 1, kind: 3, command: 8 }, Usage { key: 0, kind: 1, command: 0 }],
        handles: vec![Handle { key: 1, device: 0 }, Handle { key: 0, device: 1 }],
    };
    let mut expected = vec![0; 3603];
    let mut put = |at: usize, octets: &[u8]| expected[at..][..octets.len()].copy_from_slice(octets);
    put(0, &[1, 0, 2, 0, 1, 0, 2, 0, 1, 0, 2, 0, 2, 0]);
    put(32, &[0x21, 0x43]);
    put(32 + 30, &[3, 1, 2, 3, 4]);
    put(67, &[1, 0, 2, 0, 3, 0, 0, 0, 0, 0, 0, 0, 4, 0, 0, 0, 1]);
    put(67 + 17, &[5, 0, 6, 0, 7, 0, 0, 0, 0, 0, 0, 0, 8, 0, 0, 0, 0]);
    put(1155, &[3, 9, 5, 1, 0xf0]);
    put(1235, &[0xa1; 16]);
    put(1235 + 16, &[0xa2; 16]);
    put(1491, &[1, 2, 7]);
    put(1491 + 3, &[0xb1; 8]);
    put(1491 + 11, &[9, 0xc1, 0xc2, 0xd1]);
    put(2899, &[1, 3, 8, 0, 1, 0]);
    put(3091, &[1, 0, 0, 1]);
    assert_eq!(loaded(&spec.encode()), expected);
}

#[test]
fn random_files_load() {
    let mut rng = Rng::new(11);
    for _ in 0..3000 {
        let spec = SiteSpec::random(&mut rng);
        let site = loaded(&spec.encode());
        assert!(site == spec.site() && site_holds(&site), "{spec:?}");
    }
}

#[test]
fn smallest_and_largest() {
    let mut rng = Rng::new(2);
    let smallest = SiteSpec::default();
    assert_eq!(smallest.encode().len(), 77);
    let site = loaded(&smallest.encode());
    assert_eq!(site[..2], [1, 0]);
    assert!(site_holds(&site) && site[2..].iter().all(|octet| *octet == 0));
    let spec = SiteSpec::random(&mut rng);
    let largest = Allowance::Largest.apply(&mut rng, &spec);
    let file = largest.encode();
    assert_eq!(file.len(), 3613);
    let site = loaded(&file);
    assert_eq!(site[..14], [1, 0, 64, 0, 16, 0, 16, 0, 64, 0, 64, 0, 0, 1]);
    // Nothing is free but the end of the header, and the bodies stand as in
    // the file.
    assert!(site_holds(&site) && site[32..] == file[42..]);
    assert!(site[14..32].iter().all(|octet| *octet == 0));
    for kind in Kind::ALL {
        let over = FileBreakage::CountOver(kind).apply(&mut rng, &spec);
        assert_eq!(refused(&over, vec![0xee; SITE_LEN]), 1, "{kind:?}");
    }
}

/// Every short length and every length near a site's; a broken file comes
/// before a wrong length.
#[test]
fn lengths_of_the_buffer() {
    let mut rng = Rng::new(16);
    let spec = SiteSpec::random(&mut rng);
    let (good, broken) = (spec.encode(), FileBreakage::OneLong.apply(&mut rng, &spec));
    for len in (0..100).chain(3500..3700).chain([4096, 0x1_0000 + 3603]) {
        let buffer = rng.octets(len);
        assert_eq!(refused(&broken, buffer.clone()), 1, "{len} octets");
        match len {
            3603 => assert_eq!(loaded(&good), spec.site()),
            _ => assert_eq!(refused(&good, buffer), 2, "{len} octets"),
        }
    }
}

/// A file whose length agrees in its lowest two octets alone.
#[test]
fn file_longer_by_65536() {
    let mut file = SiteSpec::default().encode();
    file.resize(0x1_0000 + 77, 0);
    assert_eq!(refused(&file, vec![0xee; SITE_LEN]), 1);
    assert!(!site_holds(&[SiteSpec::default().site(), vec![0; 0x1_0000]].concat()));
}

#[test]
fn each_file_breakage_is_refused() {
    let mut rng = Rng::new(13);
    for breakage in FileBreakage::all() {
        for _ in 0..200 {
            let spec = SiteSpec::random(&mut rng);
            let file = breakage.apply(&mut rng, &spec);
            assert_eq!(refused(&file, any_buffer(&mut rng)), 1, "{}", breakage.name());
        }
    }
}

#[test]
fn each_site_breakage_is_seen() {
    let mut rng = Rng::new(17);
    for breakage in SiteBreakage::all() {
        for _ in 0..200 {
            let spec = SiteSpec::random(&mut rng);
            assert!(!site_holds(&breakage.apply(&mut rng, &spec)), "{}", breakage.name());
        }
    }
}

#[test]
fn each_allowance_is_allowed() {
    let mut rng = Rng::new(14);
    for allowance in Allowance::all() {
        for _ in 0..200 {
            let spec = SiteSpec::random(&mut rng);
            let spec = allowance.apply(&mut rng, &spec);
            let site = loaded(&spec.encode());
            assert!(site == spec.site() && site_holds(&site), "{}", allowance.name());
        }
    }
}

/// What a load makes keeps the rules, whatever file and buffer were lent.
#[test]
fn any_load() {
    let mut rng = Rng::new(18);
    let mut seen = [0; 3];
    for _ in 0..5000 {
        let spec = SiteSpec::random(&mut rng);
        let (file, mut site) = (any_file(&mut rng, &spec), any_buffer(&mut rng));
        let before = site.clone();
        let status = load(&file, &mut site);
        seen[usize::from(status)] += 1;
        assert!(if status == 0 { site_holds(&site) } else { site == before });
    }
    println!("loads by status: {seen:?}");
    assert!(seen.iter().all(|count| *count > 500), "{seen:?}");
}

#[test]
fn names_are_distinct() {
    let files: HashSet<String> = FileBreakage::all().iter().map(FileBreakage::name).collect();
    assert_eq!(files.len(), 7 + 7 * 7 + 14);
    let sites: HashSet<String> = SiteBreakage::all().iter().map(SiteBreakage::name).collect();
    assert_eq!(sites.len(), 5 + 2 * 7 + 14);
    let allowances: HashSet<String> = Allowance::all().iter().map(Allowance::name).collect();
    assert_eq!(allowances.len(), 16);
}

#[test]
fn refresh_reads_the_counters() {
    let mut rng = Rng::new(12);
    for _ in 0..200 {
        let spec = SiteSpec::random(&mut rng);
        let mut other = spec.clone();
        other.settings.counter ^= 1;
        other.devices.iter_mut().for_each(|device| device.counter ^= 0x8000_0001);
        other.refresh(&spec.site());
        assert_eq!(other, spec);
    }
}

#[test]
fn broken_sites_refuse_everything() {
    let mut rng = Rng::new(15);
    for breakage in SiteBreakage::all() {
        let spec = SiteSpec::random(&mut rng);
        let mut site = breakage.apply(&mut rng, &spec);
        let (before, mut out) = (site.clone(), [0xee; 127]);
        let received = receive(&mut site, &frame(&mut rng, &spec).1, &mut out);
        assert_eq!(received, Received { status: 1, ..Received::default() });
        let input = request(&mut rng, &spec);
        let built = build(&mut site, &input.request, &input.open, &input.private, &mut out);
        assert_eq!(built, Built { status: 1, len: 0 });
        assert_eq!((site, out), (before, [0xee; 127]));
    }
}

/// The free octets of sites, good and broken, do not count.
#[test]
fn rules_ignore_free_octets() {
    let mut rng = Rng::new(19);
    let mut seen = [0; 2];
    for _ in 0..4000 {
        let spec = SiteSpec::random(&mut rng);
        let site = any_site(&mut rng, &spec);
        let admitted = |kind: Kind| {
            let count = u16::from_le_bytes([site[count_at(kind)], site[count_at(kind) + 1]]);
            kind.admits(count.into())
        };
        if site.len() == SITE_LEN && Kind::ALL.into_iter().all(admitted) {
            let holds = site_holds(&site);
            assert_eq!(site_holds(&scribbled(&mut rng, &site)), holds);
            seen[usize::from(holds)] += 1;
        }
    }
    println!("sites that break rules and keep them: {seen:?}");
    assert!(seen[0] > 500 && seen[1] > 1000, "{seen:?}");
}

/// The site with zeros where it is free.
fn cleaned(mut site: Vec<u8>) -> Vec<u8> {
    for free in free_octets(&site) {
        site[free].fill(0);
    }
    site
}

/// Calls on a site with other free octets answer the same, and keep them.
#[test]
fn calls_keep_free_octets() {
    let mut rng = Rng::new(20);
    let mut raised = 0;
    for _ in 0..300 {
        let mut spec = SiteSpec::random(&mut rng);
        let mut site = spec.site();
        let mut other = scribbled(&mut rng, &site);
        let free = free_octets(&site);
        for _ in 0..20 {
            let before = other.clone();
            let (mut out, mut other_out) = ([0xee; 127], [0xee; 127]);
            if rng.chance(70) {
                let octets = frame(&mut rng, &spec).1;
                let answer = receive(&mut site, &octets, &mut out);
                assert_eq!(receive(&mut other, &octets, &mut other_out), answer);
            } else {
                let input = request(&mut rng, &spec);
                let (asked, open, private) = (&input.request, &input.open, &input.private);
                let answer = build(&mut site, asked, open, private, &mut out);
                assert_eq!(build(&mut other, asked, open, private, &mut other_out), answer);
            }
            assert!(free.iter().all(|free| other[free.clone()] == before[free.clone()]));
            assert_eq!((cleaned(other.clone()), other_out), (site.clone(), out));
            raised += usize::from(other != before);
            spec.refresh(&site);
        }
    }
    println!("raised counters: {raised}");
    assert!(raised > 1000);
}

/// A kept site refuses what it has accepted; loading the file again takes the
/// counters back.
#[test]
fn kept_over_a_restart() {
    let spec = probed(5, [0x3c; 16]);
    let (mut site, mut out) = (loaded(&spec.encode()), [0; 127]);
    let octets = probe_frame(5, 6, &[0x3c; 16], b"reading");
    assert_eq!(receive(&mut site, &octets, &mut out).status, 0);
    let mut kept = site.clone();
    assert_eq!(receive(&mut kept, &octets, &mut out).status, 14);
    assert_eq!(load(&spec.encode(), &mut kept), 0);
    assert_eq!(receive(&mut kept, &octets, &mut out).status, 0);
}
