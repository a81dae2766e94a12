//! What the crate `shapes` reads and prints: its site files, and each line by
//! this implementation.

use crate::records::Kind;
use crate::site::SITE_LEN;
use crate::testkit::{Device, Handle, Level, Lookup, Settings, SiteSpec, Usage};
use crate::{build, load, receive, status, Address, Header, Request};

const PAN: u16 = 0x4321;
const SHORT: u16 = 5;
const EXTENDED: u64 = 0xacde_4800_0000_0001;
const SOURCE: [u8; 8] = [11, 12, 13, 14, 15, 16, 17, 18];
const EVERYBODY: Address = Address { mode: 2, pan: 0xffff, address: 0xffff };
/// The kinds of which there may be more records or fewer.
const LIMITED: [Kind; 6] =
    [Kind::Devices, Kind::Levels, Kind::Keys, Kind::Lookups, Kind::Usages, Kind::Handles];

/// The site's own address, in the form of a mode.
fn own(mode: u8) -> Address {
    match mode {
        2 => Address::short(PAN, u64::from(SHORT)),
        3 => Address::extended(PAN, EXTENDED),
        _ => Address::default(),
    }
}

/// The site of the shapes: its own coordinator, and a device of its own, the
/// second. Each key mode has a key of its own, and every level passes.
fn shapes_site() -> SiteSpec {
    let settings = Settings {
        pan: PAN,
        short: SHORT,
        extended: EXTENDED,
        coordinator_short: SHORT,
        coordinator_extended: EXTENDED,
        keysource: [0xd0, 0xd1, 0xd2, 0xd3, 0xd4, 0xd5, 0xd6, 0xd7],
        flags: 3,
        counter: 5,
    };
    let implicit = |peer: Address| Lookup { peer, ..Lookup::default() };
    let explicit = |mode: u8, source: [u8; 8]| Lookup {
        key: mode,
        mode,
        index: mode,
        source,
        ..Lookup::default()
    };
    let kinds = [(0, 0), (1, 0), (3, 7)];
    SiteSpec {
        settings,
        devices: vec![
            Device { pan: PAN, short: 9, extended: 99, ..Device::default() },
            Device { pan: PAN, short: SHORT, extended: EXTENDED, counter: 5, exempt: 0 },
        ],
        levels: kinds.map(|(kind, command)| Level { kind, command, ..Level::default() }).to_vec(),
        keys: (0..4).map(|key: u8| [0x30 + key; 16]).collect(),
        lookups: vec![
            implicit(own(2)),
            implicit(own(3)),
            implicit(EVERYBODY),
            explicit(1, settings.keysource),
            explicit(2, SOURCE),
            explicit(3, SOURCE),
        ],
        usages: (0..4)
            .flat_map(|key| kinds.map(|(kind, command)| Usage { key, kind, command }))
            .collect(),
        handles: (0..4).flat_map(|key| [0, 1].map(|device| Handle { key, device })).collect(),
    }
}

/// The file with so many records of each kind but the settings.
fn counted(counts: [usize; 6]) -> Vec<u8> {
    let [devices, levels, keys, lookups, usages, handles] = counts;
    let last_key = keys.clamp(1, Kind::Keys.limit()) - 1;
    let last_device = devices.clamp(1, Kind::Devices.limit()) - 1;
    let device = |number: usize| Device {
        pan: PAN,
        short: number as u16,
        extended: number as u64,
        ..Device::default()
    };
    let lookup = Lookup { key: last_key as u8, mode: 1, ..Lookup::default() };
    let handle = Handle { key: last_key as u8, device: last_device as u8 };
    SiteSpec {
        settings: Settings::default(),
        devices: (0..devices).map(device).collect(),
        levels: vec![Level::default(); levels],
        keys: vec![[1; 16]; keys],
        lookups: vec![lookup; lookups],
        usages: vec![Usage { key: last_key as u8, ..Usage::default() }; usages],
        handles: vec![handle; handles],
    }
    .encode()
}

/// The files with titles: that of the shapes, then those at the limits.
fn files() -> Vec<(String, Vec<u8>)> {
    let full = LIMITED.map(Kind::limit);
    let mut all = vec![
        ("shapes".to_string(), shapes_site().encode()),
        ("smallest, 77 octets".to_string(), counted([0; 6])),
        ("largest, 3,613 octets".to_string(), counted(full)),
    ];
    for (number, kind) in LIMITED.iter().enumerate() {
        let mut over = full;
        over[number] += 1;
        let name = format!("{kind:?}").to_lowercase();
        all.push((format!("{} {name}", over[number]), counted(over)));
    }
    let cut = counted([0; 6])[..76].to_vec();
    let tail = [counted([0; 6]), vec![0]].concat();
    all.push(("76 octets".to_string(), cut));
    all.push(("smallest and one more".to_string(), tail));
    all
}

/// What the program reads.
pub fn input() -> Vec<u8> {
    let item = |(title, file): (String, Vec<u8>)| {
        let len = u16::try_from(file.len()).expect("a length").to_le_bytes();
        [format!("{title:24}").as_bytes(), &len, &file].concat()
    };
    files().into_iter().flat_map(item).collect()
}

fn same(equal: bool) -> &'static str {
    if equal {
        "same"
    } else {
        "other"
    }
}

/// The request of a shape.
fn request(kind: u8, level: u8, keymode: u8, to: usize, from: usize) -> Request {
    Request {
        kind,
        version: u8::from(level > 0),
        pending: kind == 2,
        request: kind == 3,
        sequence: 0x84,
        destination: [own(0), own(2), own(3), EVERYBODY][to],
        srcmode: [0, 2, 3][from],
        level,
        keymode,
        keysource: SOURCE,
        keyindex: keymode,
    }
}

/// The header that a request asks for.
fn header(request: &Request) -> Header {
    let (to, from) = (request.destination, own(request.srcmode));
    Header {
        kind: request.kind,
        security: u8::from(request.level > 0),
        pending: u8::from(request.pending),
        request: u8::from(request.request),
        compression: u8::from(to.mode > 0 && from.mode > 0 && to.pan == from.pan),
        version: request.version,
        sequence: request.sequence,
        destination: to,
        source: from,
    }
}

/// The line of a request with so many private octets, without its shape.
fn round(request: &Request, count: u8) -> String {
    let open: &[u8] = match request.kind {
        0 => &[0x55, 0xcf, 0, 0],
        3 => &[7],
        _ => &[],
    };
    let private: Vec<u8> = (0..count).collect();
    let (mut site, mut frame, mut out) = (shapes_site().site(), [0; 127], [0; 127]);
    let built = build(&mut site, request, open, &private, &mut frame);
    if built.status != 0 {
        return format!("{} {} ", built.status, built.len);
    }
    let frame = &frame[..built.len];
    let sum = u16::from_le_bytes([frame[built.len - 2], frame[built.len - 1]]);
    let got = receive(&mut site, frame, &mut out);
    format!(
        "{} {} {sum:04x} {} {} {} {} {} {} {} {} ",
        built.status,
        built.len,
        got.status,
        got.level,
        got.keymode,
        got.device,
        got.private,
        same(got.header == header(request)),
        same(&frame[got.start..got.start + got.len] == open),
        same(out[..got.private] == private),
    )
}

/// What the program prints.
pub fn output() -> String {
    let files = files();
    let mut text = format!("{:24}\n", files[0].0);
    for n in 0..1536 {
        let (kind, level, keymode) = (n / 384, n / 48 % 8, n / 12 % 4);
        let (to, from) = (n / 3 % 4, n % 3);
        let count = if kind == 2 { 0 } else { 3 * level + 2 };
        let request = request(kind as u8, level as u8, keymode as u8, to, from);
        let line = round(&request, count as u8);
        text += &format!("{kind} {level} {keymode} {to} {from} {line}\n");
    }
    for count in [102, 103] {
        text += &format!("private {count} {}\n", round(&request(1, 6, 1, 1, 1), count));
    }
    let extremes =
        [("no octets".to_string(), vec![]), ("100,000 zeros".to_string(), vec![0; 100000])];
    for (title, file) in files[1..].iter().chain(&extremes) {
        let loaded = load(file, &mut [0; SITE_LEN]) == status::SUCCESS;
        let verdict = if loaded { "holds" } else { "refused" };
        text += &format!("{title:24}{verdict}\n");
    }
    text
}
