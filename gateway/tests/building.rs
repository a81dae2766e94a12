//! Building beside the second implementation.

mod common;

use common::{buffer, some_free, Histogram, Order};
use second::testkit::{any_site, request, request_of};
use second::testkit::{RequestBreakage, Rng, SiteBreakage, SiteSpec};

/// Random sites, half of them with random free octets, each through a run of
/// requests.
#[test]
fn runs_of_requests() {
    let mut rng = Rng::new(201);
    let mut histogram = Histogram::default();
    let mut levels = [[0; 4]; 8];
    for _ in 0..1200 {
        let mut spec = SiteSpec::random(&mut rng);
        let mut site = some_free(&mut rng, &spec);
        for _ in 0..12 {
            let input = request(&mut rng, &spec);
            let len = match rng.chance(97) {
                true => rng.between(127, 160),
                false => rng.between(0, 126),
            };
            let order = Order { site, input, out: buffer(len) };
            let outcome = order.agreed(Some(&spec));
            histogram.add(outcome.answer.status);
            if outcome.answer.status == 0 {
                let request = &order.input.request;
                levels[usize::from(request.level)][usize::from(request.keymode)] += 1;
            }
            site = outcome.site;
            spec.refresh(&site);
        }
    }
    histogram.check("runs of requests", &[(&[0, 2, 8, 11, 14, 16, 17], 100)]);
    println!("built by level and key mode: {levels:?}");
    assert!(levels.iter().flatten().all(|count| *count > 20));
}

/// Each broken rule of a request in turn, and each broken site.
#[test]
fn broken_requests() {
    let mut rng = Rng::new(202);
    let mut histogram = Histogram::default();
    for _ in 0..40 {
        let mut spec = SiteSpec::random(&mut rng);
        for breakage in RequestBreakage::ALL {
            if breakage == RequestBreakage::ShortSourceUnset {
                spec.settings.short = rng.pick(&[0xfffe, 0xffff]);
            }
            let input = breakage.apply(&mut rng, &spec);
            let order = Order { site: spec.site(), input, out: buffer(127) };
            let status = order.agreed(Some(&spec)).answer.status;
            assert_eq!(status, 17, "{}", breakage.name());
            histogram.add(status);
        }
    }
    for breakage in [SiteBreakage::all(), SiteBreakage::all()].concat() {
        let spec = SiteSpec::random(&mut rng);
        let input = request(&mut rng, &spec);
        let site = breakage.apply(&mut rng, &spec);
        let status = Order { site, input, out: buffer(127) }.agreed(None).answer.status;
        assert_eq!(status, 1, "{}", breakage.name());
        histogram.add(status);
    }
    histogram.check("broken requests", &[(&[17], 500), (&[1], 50)]);
}

/// Requests on sites of any content and length.
#[test]
fn any_sites() {
    let mut rng = Rng::new(205);
    let mut histogram = Histogram::default();
    for _ in 0..3000 {
        let spec = SiteSpec::random(&mut rng);
        let (site, input) = (any_site(&mut rng, &spec), request(&mut rng, &spec));
        histogram.add(Order { site, input, out: buffer(127) }.agreed(None).answer.status);
    }
    histogram.check("requests on any site", &[(&[0, 1], 500)]);
}

/// Private payloads of every length up to 300, and output buffers around 127.
#[test]
fn lengths() {
    let mut rng = Rng::new(203);
    let mut histogram = Histogram::default();
    for len in 0..=300 {
        let mut spec = SiteSpec::random(&mut rng);
        spec.settings.flags |= 1;
        for kind in [0, 1, 3] {
            let mut input = request_of(kind, &mut rng, &spec);
            input.private = rng.octets(len);
            let room = rng.pick(&[0, 126, 127, 127, 127, 128, 300]);
            let order = Order { site: spec.site(), input, out: buffer(room) };
            histogram.add(order.agreed(Some(&spec)).answer.status);
        }
    }
    histogram.check("lengths", &[(&[0, 2, 16], 20)]);
}

/// Every octet of a packed request and every payload length near the limits.
#[test]
fn any_request() {
    let mut rng = Rng::new(204);
    let mut histogram = Histogram::default();
    for _ in 0..200 {
        let spec = SiteSpec::random(&mut rng);
        for _ in 0..30 {
            let mut input = request(&mut rng, &spec);
            let asked = &mut input.request;
            match rng.below(8) {
                0 => asked.kind = rng.octet(),
                1 => asked.version = rng.octet(),
                2 => asked.destination.mode = rng.octet(),
                3 => asked.srcmode = rng.octet(),
                4 => asked.level = rng.octet(),
                5 => asked.keymode = rng.octet(),
                6 => asked.destination.pan = spec.settings.pan,
                _ => asked.destination.address = rng.word(),
            }
            let order = Order { site: spec.site(), input, out: buffer(127) };
            histogram.add(order.agreed(Some(&spec)).answer.status);
        }
    }
    histogram.check("any request", &[(&[0, 17], 100)]);
}
