//! Building: each status, the order of checks, and the way back.

use second::site::COUNTER_AT;
use second::testkit::{hex, request, Device, Handle, Level, Lookup, RequestBreakage, Rng};
use second::testkit::{BuildInput, Settings, SiteSpec, Usage};
use second::{build, receive, site_holds, Address, Built, Request};

const KEY: [u8; 16] = [0x3c; 16];
const PAN: u16 = 0x4321;
const OWN: u64 = 0xacde_4800_0000_00aa;
const HUB: u64 = 0xacde_4800_0000_00cc;

/// Short address 1, coordinator 9, one key; no usages, devices or levels.
fn spec() -> SiteSpec {
    SiteSpec {
        settings: Settings {
            pan: PAN,
            short: 1,
            extended: OWN,
            coordinator_short: 9,
            coordinator_extended: HUB,
            keysource: [0xff; 8],
            flags: 1,
            counter: 0x0403_0201,
        },
        keys: vec![KEY],
        lookups: vec![
            Lookup { mode: 1, index: 1, source: [0xff; 8], ..Lookup::default() },
            Lookup { mode: 2, index: 2, source: [1, 2, 3, 4, 5, 6, 7, 8], ..Lookup::default() },
            Lookup { mode: 3, index: 3, source: [1, 2, 3, 4, 5, 6, 7, 8], ..Lookup::default() },
            Lookup { mode: 0, peer: Address::short(PAN, 0xdead_0009), ..Lookup::default() },
            Lookup { mode: 0, peer: Address::extended(PAN, HUB), ..Lookup::default() },
        ],
        ..SiteSpec::default()
    }
}

/// A secured data request in key mode 1 to short 9.
fn data() -> Request {
    Request {
        kind: 1,
        version: 1,
        sequence: 0x6a,
        destination: Address::short(PAN, 9),
        srcmode: 2,
        level: 6,
        keymode: 1,
        keyindex: 1,
        ..Request::default()
    }
}

/// Builds and checks that nothing but the frame and the counter changes.
fn built(spec: &SiteSpec, input: &BuildInput) -> (u8, Vec<u8>) {
    let mut site = spec.site();
    assert!(site_holds(&site));
    let (mut after, mut out) = (site.clone(), [0xee; 140]);
    let BuildInput { request, open, private } = input;
    let Built { status, len } = build(&mut site, request, open, private, &mut out);
    assert_eq!(status == 0, len > 0);
    if status == 0 && request.level > 0 {
        after[COUNTER_AT..COUNTER_AT + 4]
            .copy_from_slice(&(spec.settings.counter + 1).to_le_bytes());
    }
    assert_eq!(site, after);
    assert!(out[len..].iter().all(|octet| *octet == 0xee));
    (status, out[..len].to_vec())
}

fn plain(request: Request) -> BuildInput {
    BuildInput { request, ..BuildInput::default() }
}

fn status(spec: &SiteSpec, request: Request) -> u8 {
    built(spec, &plain(request)).0
}

#[test]
fn headers_as_written() {
    let input = |request: Request| plain(Request { level: 0, version: 0, ..request });
    let check = |request: Request, text: &str| {
        let (status, frame) = built(&spec(), &input(request));
        assert_eq!((status, &frame[..frame.len() - 2]), (0, &hex(text)[..]));
    };
    check(data(), "41 88 6A 21 43 09 00 01 00");
    check(
        Request { destination: Address::short(PAN + 1, 9), ..data() },
        "01 88 6A 22 43 09 00 21 43 01 00",
    );
    check(Request { srcmode: 0, pending: true, ..data() }, "11 08 6A 21 43 09 00");
    check(
        Request { destination: Address::default(), request: true, ..data() },
        "21 80 6A 21 43 01 00",
    );
    let ignored = Address { mode: 0, pan: PAN, address: 9 };
    check(Request { destination: ignored, ..data() }, "01 80 6A 21 43 01 00");
    check(
        Request { destination: Address::short(PAN, 0xdead_0009), ..data() },
        "41 88 6A 21 43 09 00 01 00",
    );
    let long = Request { destination: Address::extended(PAN, HUB), srcmode: 3, ..data() };
    check(long, "41 CC 6A 21 43 CC 00 00 00 00 48 DE AC AA 00 00 00 00 48 DE AC");
    let bare = Request { destination: ignored, srcmode: 0, kind: 2, ..data() };
    check(bare, "02 00 6A");
}

#[test]
fn security_headers_as_written() {
    let spec = spec();
    let source = [1, 2, 3, 4, 5, 6, 7, 8];
    let forms = [
        (0, 0, "06 01 02 03 04"),
        (1, 1, "0E 01 02 03 04 01"),
        (2, 2, "16 01 02 03 04 01 02 03 04 02"),
        (3, 3, "1E 01 02 03 04 01 02 03 04 05 06 07 08 03"),
    ];
    for (keymode, keyindex, text) in forms {
        let request = Request { keymode, keyindex, keysource: source, ..data() };
        let (status, frame) = built(&spec, &plain(request));
        assert_eq!((status, &frame[..2]), (0, &hex("49 98")[..]));
        assert_eq!(frame[9..frame.len() - 10], hex(text));
    }
}

#[test]
fn keys() {
    let spec = spec();
    assert_eq!(status(&spec, Request { keyindex: 2, ..data() }), 11);
    let mode_2 = Request { keymode: 2, keyindex: 2, keysource: [1, 2, 3, 4, 0, 0, 0, 0], ..data() };
    assert_eq!(status(&spec, mode_2), 0);
    let mode_3 = Request { keymode: 3, keyindex: 3, ..mode_2 };
    assert_eq!(status(&spec, mode_3), 11);
    let mode_0 = Request { keymode: 0, ..data() };
    // Only the first two octets of a short address are used.
    assert_eq!(
        status(&spec, Request { destination: Address::short(PAN, 0xbeef_0009), ..mode_0 }),
        0
    );
    assert_eq!(status(&spec, Request { destination: Address::short(PAN, 0xffff), ..mode_0 }), 11);
    assert_eq!(status(&spec, Request { destination: Address::short(PAN + 1, 9), ..mode_0 }), 11);
    assert_eq!(status(&spec, Request { destination: Address::extended(PAN, HUB), ..mode_0 }), 0);
    assert_eq!(status(&spec, Request { destination: Address::extended(PAN, 9), ..mode_0 }), 11);
}

#[test]
fn stand_in_for_an_absent_destination() {
    let mut spec = spec();
    let request = Request { keymode: 0, destination: Address::default(), ..data() };
    assert_eq!(status(&spec, request), 0);
    spec.settings.coordinator_short = 8;
    assert_eq!(status(&spec, request), 11);
    spec.settings.coordinator_short = 0xfffe;
    assert_eq!(status(&spec, request), 0);
    spec.settings.coordinator_short = 0xffff;
    assert_eq!(status(&spec, request), 11);
}

#[test]
fn order_of_checks() {
    let mut spec = spec();
    let mut input = plain(Request { keyindex: 7, ..data() });
    input.private = vec![0; 103];
    spec.settings.counter = 0xffff_ffff;
    spec.settings.flags = 0;
    let bad = BuildInput { request: Request { version: 2, ..input.request }, ..input.clone() };
    assert_eq!(built(&spec, &bad).0, 17);
    assert_eq!(built(&spec, &input).0, 8);
    spec.settings.flags = 1;
    assert_eq!(built(&spec, &input).0, 16);
    input.private.pop();
    assert_eq!(built(&spec, &input).0, 14);
    spec.settings.counter = 0xffff_fffe;
    assert_eq!(built(&spec, &input).0, 11);
    input.request.keyindex = 1;
    assert_eq!(built(&spec, &input).0, 0);
}

#[test]
fn each_breakage_gets_17() {
    let mut rng = Rng::new(41);
    for breakage in RequestBreakage::ALL {
        for _ in 0..300 {
            let mut spec = SiteSpec::random(&mut rng);
            if breakage == RequestBreakage::ShortSourceUnset {
                spec.settings.short = rng.pick(&[0xfffe, 0xffff]);
            }
            let input = breakage.apply(&mut rng, &spec);
            assert_eq!(built(&spec, &input).0, 17, "{} {input:?}", breakage.name());
        }
    }
}

#[test]
fn short_source_border() {
    let mut spec = spec();
    spec.settings.short = 0xfffd;
    assert_eq!(status(&spec, data()), 0);
    spec.settings.short = 0xfffe;
    assert_eq!(status(&spec, data()), 17);
    assert_eq!(status(&spec, Request { srcmode: 3, ..data() }), 0);
    assert_eq!(status(&spec, Request { srcmode: 0, ..data() }), 0);
}

/// A site that hears what the first one sends and knows one of its keys.
fn listener(spec: &SiteSpec, input: &BuildInput, key: u8) -> SiteSpec {
    let (own, request) = (&spec.settings, &input.request);
    let to = &request.destination;
    let pan = if to.mode > 0 { to.pan } else { own.pan };
    // Without a source, the stand-in's PAN is the listener's.
    let from_pan = if request.srcmode == 0 { pan } else { own.pan };
    let peer = match request.srcmode {
        2 => Address::short(from_pan, own.short.into()),
        _ => Address::extended(from_pan, own.extended),
    };
    let source = if request.keymode == 1 { own.keysource } else { request.keysource };
    let command = input.open.first().copied().unwrap_or(0);
    let kind = request.kind;
    SiteSpec {
        settings: Settings {
            pan,
            short: to.address as u16,
            extended: to.address,
            coordinator_short: 0xfffe,
            coordinator_extended: own.extended,
            keysource: own.keysource,
            flags: if request.level > 0 { 3 } else { 2 },
            counter: 0,
        },
        devices: vec![Device {
            pan: from_pan,
            short: own.short,
            extended: own.extended,
            ..Device::default()
        }],
        levels: vec![Level { kind, command, ..Level::default() }],
        keys: vec![spec.keys.get(usize::from(key)).copied().unwrap_or_default()],
        lookups: vec![Lookup {
            key: 0,
            mode: request.keymode,
            index: request.keyindex,
            source,
            peer,
        }],
        usages: vec![Usage { key: 0, kind, command }],
        handles: vec![Handle::default()],
    }
}

/// What was built is received by a listener with one of the keys, payloads
/// and header as asked for.
#[test]
fn random_requests_and_the_way_back() {
    let mut rng = Rng::new(42);
    let (mut seen, mut back) = ([0; 18], 0);
    for _ in 0..6000 {
        let spec = SiteSpec::random(&mut rng);
        let input = request(&mut rng, &spec);
        let (status, frame) = built(&spec, &input);
        seen[usize::from(status)] += 1;
        if status != 0 {
            continue;
        }
        let keys = if input.request.level > 0 { spec.keys.len() } else { 1 };
        let heard = (0..keys).filter(|key| hears(&spec, &input, &frame, *key as u8)).count();
        assert!(heard == 1 || input.request.level == 4 && heard > 0, "{heard} {input:?}");
        back += 1;
    }
    println!("statuses {seen:?}, received again {back}");
    for status in [0, 8, 11, 14, 16, 17] {
        assert!(seen[status] > 20, "{seen:?}");
    }
}

/// Receives under one key; false where it is the wrong one.
fn hears(spec: &SiteSpec, input: &BuildInput, frame: &[u8], key: u8) -> bool {
    let request = &input.request;
    let listener = listener(spec, input, key);
    let (mut site, mut out) = (listener.site(), [0; 127]);
    let answer = receive(&mut site, frame, &mut out);
    if answer.status == 15 {
        return false;
    }
    assert_eq!(answer.status, 0, "{input:?} {listener:?}");
    assert_eq!((answer.level, answer.header.sequence), (request.level, request.sequence));
    assert_eq!(answer.header.destination.mode, request.destination.mode);
    assert_eq!(frame[answer.start..answer.start + answer.len], input.open);
    // Level 4 has no tag: the wrong key gives other octets.
    let equal = out[..answer.private] == input.private;
    assert!(equal || request.level == 4);
    equal
}
