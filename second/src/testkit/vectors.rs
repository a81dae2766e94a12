//! Published vectors as whole frames: IEEE Std 802.15.4-2011, Annex C.2, and
//! the blocks of FIPS 197 and SP 800-38A, each the last that a tag is made of.

use super::frames::{summed, Plan};
use super::hex;
use super::requests::BuildInput;
use super::sites::{Device, Handle, Level, Lookup, Settings, SiteSpec, Usage};
use crate::aes::{xor, Aes};
use crate::build::Request;
use crate::ccm;
use crate::frame::{Address, Header};

/// The annex's key, its originator and its receiver.
#[rustfmt::skip]
pub const ANNEX_KEY: [u8; 16] = [
    0xc0, 0xc1, 0xc2, 0xc3, 0xc4, 0xc5, 0xc6, 0xc7, 0xc8, 0xc9, 0xca, 0xcb, 0xcc, 0xcd, 0xce, 0xcf,
];
pub const ONE: u64 = 0xacde_4800_0000_0001;
pub const TWO: u64 = 0xacde_4800_0000_0002;

// The annex omits the FCS.
const BEACON: &str = "08 D0 84 21 43 01 00 00 00 00 48 DE AC || 02 05 00 00 00 || \
    55 CF 00 00 51 52 53 54 22 3B C1 EC 84 1A B5 53";
const DATA: &str = "69 DC 84 21 43 02 00 00 00 00 48 DE AC 01 00 00 00 00 48 DE AC || \
    04 05 00 00 00 || D4 3E 02 2B";
const COMMAND: &str = "2B DC 84 21 43 02 00 00 00 00 48 DE AC FF FF 01 00 00 00 00 48 DE AC || \
    06 05 00 00 00 || 01 D8 4F DE 52 90 61 F9 C6 F1";
const PLAIN_BEACON: &str = "00 C0 84 21 43 01 00 00 00 00 48 DE AC || 55 CF 00 00 51 52 53 54";
const PLAIN_DATA: &str =
    "61 CC 84 21 43 02 00 00 00 00 48 DE AC 01 00 00 00 00 48 DE AC || 61 62 63 64";
const PLAIN_COMMAND: &str =
    "23 CC 84 21 43 02 00 00 00 00 48 DE AC FF FF 01 00 00 00 00 48 DE AC || 01 CE";

/// FIPS 197, Appendices B and C.1, and SP 800-38A, F.1.1: a key, a block and
/// its cipher text.
const BLOCKS: [[&str; 4]; 6] = [
    [
        "FIPS 197, Appendix B",
        "2b7e151628aed2a6abf7158809cf4f3c",
        "3243f6a8885a308d313198a2e0370734",
        "3925841d02dc09fbdc118597196a0b32",
    ],
    [
        "FIPS 197, Appendix C.1",
        "000102030405060708090a0b0c0d0e0f",
        "00112233445566778899aabbccddeeff",
        "69c4e0d86a7b0430d8cdb78070b4c55a",
    ],
    [
        "SP 800-38A, F.1.1, block 1",
        "2b7e151628aed2a6abf7158809cf4f3c",
        "6bc1bee22e409f96e93d7e117393172a",
        "3ad77bb40d7a3660a89ecaf32466ef97",
    ],
    [
        "SP 800-38A, F.1.1, block 2",
        "2b7e151628aed2a6abf7158809cf4f3c",
        "ae2d8a571e03ac9c9eb76fac45af8e51",
        "f5d3d58503b9699de785895a96fdbaaf",
    ],
    [
        "SP 800-38A, F.1.1, block 3",
        "2b7e151628aed2a6abf7158809cf4f3c",
        "30c81c46a35ce411e5fbc1191a0a52ef",
        "43b1cd7f598ece23881b00e3ed030688",
    ],
    [
        "SP 800-38A, F.1.1, block 4",
        "2b7e151628aed2a6abf7158809cf4f3c",
        "f69f2445df4f9b17ad2b417be66c3710",
        "7b0c785e27e8ad3f8223207104725dd4",
    ],
];

/// A frame that is accepted at its site, and the private payload it has.
pub struct KnownFrame {
    pub title: &'static str,
    pub site: SiteSpec,
    pub frame: Vec<u8>,
    pub private: Vec<u8>,
}

/// A request that is built at its site, and the frame it gives.
pub struct KnownRequest {
    pub title: &'static str,
    pub site: SiteSpec,
    pub input: BuildInput,
    pub frame: Vec<u8>,
}

fn array<const N: usize>(text: &str) -> [u8; N] {
    hex(text).try_into().expect("the right number of octets")
}

/// The annex's receiver TWO; the originator ONE stands under the given PAN.
fn receiver(peer_pan: u16, level: u8) -> SiteSpec {
    let settings =
        Settings { pan: 0x4321, short: 0xfffe, extended: TWO, flags: 1, ..Settings::default() };
    SiteSpec {
        settings,
        devices: vec![
            Device { pan: 0x4321, short: 7, extended: 77, ..Device::default() },
            Device { pan: peer_pan, short: 0xfffe, extended: ONE, counter: 5, exempt: 0 },
        ],
        levels: [0, 1, 3]
            .map(|kind| Level { kind, command: 1, minimum: level, ..Level::default() })
            .to_vec(),
        keys: vec![[9; 16], ANNEX_KEY],
        lookups: vec![Lookup {
            key: 1,
            peer: Address::extended(peer_pan, ONE),
            ..Lookup::default()
        }],
        usages: [0, 1, 3].map(|kind| Usage { key: 1, kind, command: 1 }).to_vec(),
        handles: vec![Handle { key: 1, device: 0 }, Handle { key: 1, device: 1 }],
    }
}

/// The annex's originator ONE, with TWO as its coordinator.
fn originator(pan: u16) -> SiteSpec {
    SiteSpec {
        settings: Settings {
            pan,
            short: 0xfffe,
            extended: ONE,
            coordinator_short: 0xfffe,
            coordinator_extended: TWO,
            flags: 1,
            counter: 5,
            ..Settings::default()
        },
        keys: vec![ANNEX_KEY],
        lookups: vec![
            Lookup { peer: Address::extended(pan, TWO), ..Lookup::default() },
            Lookup { peer: Address::extended(0x4321, TWO), ..Lookup::default() },
        ],
        ..SiteSpec::default()
    }
}

/// A coordinator with one probe, short address 5, that may send data at any
/// level above 0 under key index 1.
pub fn probed(counter: u32, key: [u8; 16]) -> SiteSpec {
    SiteSpec {
        settings: Settings {
            pan: 0x4321,
            extended: TWO,
            keysource: [0xff; 8],
            flags: 3,
            counter,
            ..Settings::default()
        },
        devices: vec![Device { pan: 0x4321, short: 5, extended: ONE, counter, exempt: 0 }],
        levels: vec![Level { kind: 1, allowed: 0xfe, ..Level::default() }],
        keys: vec![key],
        lookups: vec![Lookup { mode: 1, index: 1, source: [0xff; 8], ..Lookup::default() }],
        usages: vec![Usage { kind: 1, ..Usage::default() }],
        handles: vec![Handle::default()],
    }
}

/// A data frame of the probe, header 9, key mode 1.
pub fn probe(counter: u32, level: u8, private: &[u8]) -> Plan {
    let mut plan = Plan {
        header: Header {
            kind: 1,
            security: 1,
            compression: 1,
            version: 1,
            destination: Address::short(0x4321, 0),
            source: Address::short(0x4321, 5),
            ..Header::default()
        },
        private: private.to_vec(),
        ..Plan::default()
    };
    plan.security.level = level;
    plan.security.keymode = 1;
    plan.security.keyindex = 1;
    plan.security.counter = counter;
    plan
}

/// The probe's frame, sealed with the key that its site has.
pub fn probe_frame(counter: u32, level: u8, key: &[u8; 16], private: &[u8]) -> Vec<u8> {
    probe(counter, level, private).seal(key, ONE)
}

/// A request for a data frame to the probe, header 9, key mode 1.
pub fn probe_request(level: u8) -> Request {
    Request {
        kind: 1,
        version: 1,
        destination: Address::short(0x4321, 5),
        srcmode: 2,
        level,
        keymode: 1,
        keyindex: 1,
        ..Request::default()
    }
}

/// A level 3 frame in which the block is the last that its tag is made of:
/// the tag is the cipher text under the key stream's first block.
fn block_frame(title: &'static str, key: &str, block: &str, published: &str) -> KnownFrame {
    let key: [u8; 16] = array(key);
    let cipher = Aes::new(&key);
    let nonce = ccm::nonce(ONE, 5, 3);
    let block_at = |flags: u8| {
        let mut first = [flags; 16];
        first[1..14].copy_from_slice(&nonce);
        first[14..].fill(0);
        cipher.encrypt(&first)
    };
    // The length 2, header 9, security header 6, then 15 octets to the end
    // of the second block; the third is chosen.
    let mut plan = probe(5, 3, &[0x5a; 15 + 16]);
    let body = plan.bare();
    let data = [&[0, 46][..], &body[..30]].concat();
    let mut sum = block_at(0x79);
    for part in data.chunks(16) {
        xor(&mut sum, &part.try_into().expect("a whole block"));
        sum = cipher.encrypt(&sum);
    }
    xor(&mut sum, &array(block));
    plan.private[15..].copy_from_slice(&sum);
    let mut tag: [u8; 16] = array(published);
    xor(&mut tag, &block_at(1));
    let body = plan.bare();
    let frame = summed(&[&body[..body.len() - 2], &tag].concat());
    KnownFrame { title, site: probed(5, key), frame, private: plan.private }
}

/// Every published frame that is received.
pub fn known_frames() -> Vec<KnownFrame> {
    let known = |title, site, text, private| KnownFrame {
        title,
        site,
        frame: summed(&hex(text)),
        private: hex(private),
    };
    let mut all = vec![
        known("Annex C.2.1, beacon", receiver(0x4321, 2), BEACON, "51 52 53 54"),
        known("Annex C.2.2, data", receiver(0x4321, 4), DATA, "61 62 63 64"),
        known("Annex C.2.3, command", receiver(0xffff, 6), COMMAND, "CE"),
        known("Annex C.2.1, unsecured", receiver(0x4321, 0), PLAIN_BEACON, "51 52 53 54"),
        known("Annex C.2.2, unsecured", receiver(0x4321, 0), PLAIN_DATA, "61 62 63 64"),
        known("Annex C.2.3, unsecured", receiver(0x4321, 0), PLAIN_COMMAND, "CE"),
    ];
    all.extend(BLOCKS.map(|[title, key, block, text]| block_frame(title, key, block, text)));
    all
}

/// Every published frame that is built.
pub fn known_requests() -> Vec<KnownRequest> {
    let beacon = Request { version: 1, sequence: 0x84, srcmode: 3, level: 2, ..Request::default() };
    let to_two = Request { request: true, destination: Address::extended(0x4321, TWO), ..beacon };
    let data = Request { kind: 1, level: 4, ..to_two };
    let command = Request { kind: 3, level: 6, ..to_two };
    let plain = |request: Request| Request { version: 0, level: 0, ..request };
    let known = |title, pan, request, open, private, text| KnownRequest {
        title,
        site: originator(pan),
        input: BuildInput { request, open: hex(open), private: hex(private) },
        frame: summed(&hex(text)),
    };
    let (open, private) = ("55 CF 00 00", "51 52 53 54");
    vec![
        known("Annex C.2.1, beacon", 0x4321, beacon, open, private, BEACON),
        known("Annex C.2.1, unsecured", 0x4321, plain(beacon), open, private, PLAIN_BEACON),
        known("Annex C.2.2, data", 0x4321, data, "", "61 62 63 64", DATA),
        known("Annex C.2.2, unsecured", 0x4321, plain(data), "", "61 62 63 64", PLAIN_DATA),
        known("Annex C.2.3, command", 0xffff, command, "01", "CE", COMMAND),
        known("Annex C.2.3, unsecured", 0xffff, plain(command), "01", "CE", PLAIN_COMMAND),
    ]
}
