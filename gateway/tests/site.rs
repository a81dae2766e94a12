//! The wrapper's site: loading, calls, and keeping it over a restart.

mod common;

use std::error::Error;

use common::{buffer, received, request};
use gateway::{Site, SiteError, ROOM, SITE_LEN};
use second::testkit::{any_file, any_site, frame, probe_frame, probe_request, probed, run_of};
use second::testkit::{Rng, SiteSpec};

const KEY: [u8; 16] = [0x3c; 16];

/// `?` takes the error on.
fn first_status(file: &[u8], frame: &[u8]) -> Result<u8, Box<dyn Error>> {
    let mut site = Site::load(file)?;
    Ok(site.receive(frame, &mut [0; ROOM]).status)
}

#[test]
fn errors() {
    let good = SiteSpec::default().encode();
    let frame = [0x02, 0x00, 0x6a, 0xe4, 0x79];
    assert_eq!(first_status(&good, &frame).expect("a site"), 0);
    let error = first_status(&good[..76], &frame).expect_err("a broken file");
    assert_eq!(error.to_string(), "the site file breaks a rule");
    assert_eq!(error.downcast_ref(), Some(&SiteError::File));
    let error = Site::from_octets(&good).expect_err("a file is no site");
    assert_eq!(error, SiteError::Octets);
    assert_eq!(error.to_string(), "the kept octets are no site that keeps its rules");
}

/// What is printed for debugging has no octet of a key.
#[test]
fn debugging_shows_no_octets() {
    let site = Site::load(&probed(5, KEY).encode()).expect("a site");
    assert_eq!(format!("{site:?}"), "Site { .. }");
}

/// A kept site goes on where it was; the file goes back.
#[test]
fn kept_over_a_restart() {
    let file = probed(5, KEY).encode();
    let (mut site, mut out) = (Site::load(&file).expect("a site"), [0; ROOM]);
    let frames = [5, 6].map(|counter| probe_frame(counter, 6, &KEY, b"reading"));
    assert_eq!(site.receive(&frames[0], &mut out).status, 0);
    assert_eq!(site.receive_many(&run_of(&frames), &mut out), 1);
    assert_eq!(out[..7], *b"reading");
    let asked = request(&probe_request(6));
    assert_eq!(site.build(&asked, &[], b"order", &mut out).status, 0);
    assert_eq!(out[10..14], [5, 0, 0, 0]);
    let mut kept = Site::from_octets(site.octets()).expect("the same site");
    assert_eq!(kept.octets(), site.octets());
    for frame in &frames {
        assert_eq!(kept.receive(frame, &mut out).status, 14);
    }
    assert_eq!(kept.build(&asked, &[], b"order", &mut out).status, 0);
    assert_eq!(out[10..14], [6, 0, 0, 0]);
    let mut back = Site::load(&file).expect("a site");
    assert_eq!(back.receive(&frames[0], &mut out).status, 0);
}

/// Files and kept octets of any content are taken where the rules hold, and
/// never else; calls on what was taken answer as the second implementation.
#[test]
fn taken_where_the_rules_hold() {
    let mut rng = Rng::new(701);
    let (mut taken, mut refused) = (0, 0);
    for _ in 0..2000 {
        let spec = SiteSpec::random(&mut rng);
        let (site, octets) = match rng.chance(50) {
            true => {
                let (file, mut octets) = (any_file(&mut rng, &spec), vec![0; SITE_LEN]);
                let loaded = second::load(&file, &mut octets) == 0;
                (Site::load(&file).ok(), loaded.then_some(octets))
            }
            false => {
                let octets = any_site(&mut rng, &spec);
                let holds = second::site_holds(&octets);
                (Site::from_octets(&octets).ok(), holds.then_some(octets))
            }
        };
        assert_eq!(site.as_ref().map(Site::octets), octets.as_deref());
        let (Some(mut site), Some(mut octets)) = (site, octets) else {
            refused += 1;
            continue;
        };
        let octets_received = frame(&mut rng, &spec).1;
        let (mut out, mut other) = (buffer(ROOM), buffer(ROOM));
        let answer = received(site.receive(&octets_received, &mut out));
        assert_eq!(answer, second::receive(&mut octets, &octets_received, &mut other));
        assert_eq!((site.octets(), out), (&octets[..], other));
        assert_ne!(answer.status, 1);
        taken += 1;
    }
    println!("sites taken: {taken}, refused: {refused}");
    assert!(taken > 500 && refused > 300);
}
