//! Cases for the answers program: an input, and what this implementation
//! answers to it.
//!
//! The input is a run of items. An item has 9 octets, kind 1, room 2, the
//! lengths of three parts 2 each, and then its parts. The room is the length
//! of the output that is lent, at most 512 (for kind 6 of the site, at most
//! 4,096).
//!
//! The site is the first octets of a buffer of 4,096, and its length and the
//! output stay from item to item; at first all octets are zero and the site is
//! empty. What a shorter site does not reach is kept too, and is part of a
//! longer one later.
//!
//! | Kind | Parts | Answered by |
//! |---|---|---|
//! | 0 | a new site, put at the front of the buffer | 1 if it keeps its rules, else 0 |
//! | 1 | a frame | the answer in 48 octets, the output, the open payload's place in 4 |
//! | 2 | a request in 28 octets, open and private payload | status and 256 times the length in 4, the output |
//! | 3 | frames, each with its length octet | how many were accepted in 8, the output |
//! | 4 | none | the site |
//! | 5 | octets that go to the front of the output | nothing |
//! | 6 | a file, loaded into the first `room` octets of the buffer, which are the site from then on | the status in 1 |

use super::frames::run_of;
use super::requests::BuildInput;
use super::sites::SiteSpec;
use crate::build::{build, Request};
use crate::file::load;
use crate::frame::{divide, read_header, Address, MAX_LEN};
use crate::receive::{receive, Received};
use crate::site::{site_holds, SITE_LEN};

/// The output's room in the answers program.
const OUT_LEN: usize = 512;
/// The room for an item's parts there.
const PARTS_LEN: usize = 4096;
/// The room for the site there.
pub(super) const SITE_ROOM: usize = 4096;

/// The kinds of items.
const SITE: u8 = 0;
const RECEIVE: u8 = 1;
const BUILD: u8 = 2;
const RECEIVE_MANY: u8 = 3;
const SHOW: u8 = 4;
const FILL: u8 = 5;
const LOAD: u8 = 6;

/// An input of the answers program and what it writes.
pub struct Cases {
    pub input: Vec<u8>,
    pub expected: Vec<u8>,
    /// How often each status is answered to a frame or a request.
    pub statuses: [usize; 18],
    /// How often each status is answered to a load.
    pub loads: [usize; 3],
    /// How many items of each kind there are.
    pub items: [usize; 7],
    buffer: [u8; SITE_ROOM],
    /// The length of the site in the buffer.
    len: usize,
    pub(super) out: [u8; OUT_LEN],
}

impl Cases {
    /// No items yet; the program has just started.
    pub(super) fn new() -> Cases {
        Cases {
            input: Vec::new(),
            expected: Vec::new(),
            statuses: [0; 18],
            loads: [0; 3],
            items: [0; 7],
            buffer: [0; SITE_ROOM],
            len: 0,
            out: [0; OUT_LEN],
        }
    }

    fn item(&mut self, kind: u8, room: usize, parts: [&[u8]; 3]) {
        let most = if kind == LOAD { SITE_ROOM } else { OUT_LEN };
        assert!(room <= most && parts.concat().len() <= PARTS_LEN);
        self.items[usize::from(kind)] += 1;
        self.input.push(kind);
        for len in [room, parts[0].len(), parts[1].len(), parts[2].len()] {
            self.input.extend((len as u16).to_le_bytes());
        }
        self.input.extend(parts.concat());
    }

    /// A site as it is; gives whether it keeps its rules.
    pub(super) fn lend(&mut self, site: &[u8]) -> bool {
        self.item(SITE, 0, [site, &[], &[]]);
        let holds = site_holds(site);
        self.expected.push(holds.into());
        self.buffer[..site.len()].copy_from_slice(site);
        self.len = site.len();
        holds
    }

    /// Loads a file into a site of this length.
    pub(super) fn load(&mut self, room: usize, file: &[u8]) -> u8 {
        self.item(LOAD, room, [file, &[], &[]]);
        let status = load(file, &mut self.buffer[..room]);
        self.loads[usize::from(status)] += 1;
        self.expected.push(status);
        self.len = room;
        status
    }

    /// Loads a site that keeps its rules.
    pub(super) fn new_site(&mut self, spec: &SiteSpec) {
        assert_eq!(self.load(SITE_LEN, &spec.encode()), 0);
    }

    /// The site as it stands.
    pub(super) fn site(&self) -> &[u8] {
        &self.buffer[..self.len]
    }

    /// Receives a frame.
    pub(super) fn receive(&mut self, room: usize, frame: &[u8]) -> Received {
        self.item(RECEIVE, room, [frame, &[], &[]]);
        let received = receive(&mut self.buffer[..self.len], frame, &mut self.out[..room]);
        self.statuses[usize::from(received.status)] += 1;
        self.expected.extend(packed(&received));
        self.expected.extend(&self.out[..room]);
        self.expected.extend(open_place(frame).to_le_bytes());
        received
    }

    /// Builds a frame; gives the status.
    pub(super) fn build(&mut self, room: usize, input: &BuildInput) -> u8 {
        let asked = packed_request(&input.request);
        self.item(BUILD, room, [&asked, &input.open, &input.private]);
        let (site, out) = (&mut self.buffer[..self.len], &mut self.out[..room]);
        let built = build(site, &input.request, &input.open, &input.private, out);
        self.statuses[usize::from(built.status)] += 1;
        let number = u32::from(built.status) + 256 * built.len as u32;
        self.expected.extend(number.to_le_bytes());
        self.expected.extend(&self.out[..room]);
        built.status
    }

    /// Receives frames in a row, without so many octets at the end.
    pub(super) fn receive_many(&mut self, room: usize, frames: &[Vec<u8>], cut: usize) {
        let mut run = run_of(frames);
        run.truncate(run.len() - cut);
        self.item(RECEIVE_MANY, room, [&run, &[], &[]]);
        let (mut rest, mut count) = (&run[..], 0u64);
        while let Some((&len, behind)) = rest.split_first() {
            let Some(frame) = behind.get(..usize::from(len)) else {
                break;
            };
            let received = receive(&mut self.buffer[..self.len], frame, &mut self.out[..room]);
            count += u64::from(received.status == 0);
            rest = &behind[usize::from(len)..];
        }
        self.expected.extend(count.to_le_bytes());
        self.expected.extend(&self.out[..room]);
    }

    /// Shows the site.
    pub(super) fn show(&mut self) {
        self.item(SHOW, 0, [&[], &[], &[]]);
        self.expected.extend(&self.buffer[..self.len]);
    }

    /// Puts octets in front of the output.
    pub(super) fn fill(&mut self, octets: &[u8]) {
        self.item(FILL, octets.len(), [octets, &[], &[]]);
        self.out[..octets.len()].copy_from_slice(octets);
    }
}

/// An answer in 48 octets, numbers least octet first.
fn packed(received: &Received) -> Vec<u8> {
    let header = &received.header;
    let mut octets = vec![
        received.status,
        header.kind,
        header.security,
        header.pending,
        header.request,
        header.compression,
        header.version,
        header.sequence,
    ];
    for address in [&header.destination, &header.source] {
        octets.extend(packed_address(address));
    }
    octets.extend([received.level, received.keymode]);
    for number in [received.device, received.private, received.start, received.len] {
        octets.extend((number as u16).to_le_bytes());
    }
    octets.resize(48, 0);
    octets
}

fn packed_address(address: &Address) -> Vec<u8> {
    let mut octets = vec![address.mode];
    octets.extend(address.pan.to_le_bytes());
    octets.extend(address.address.to_le_bytes());
    octets
}

/// A request in 28 octets.
fn packed_request(request: &Request) -> Vec<u8> {
    let flags = [request.pending, request.request].map(u8::from);
    let mut octets = vec![request.kind, request.version, flags[0], flags[1], request.sequence];
    octets.extend(packed_address(&request.destination));
    octets.extend([request.srcmode, request.level, request.keymode]);
    octets.extend(request.keysource);
    octets.push(request.keyindex);
    octets
}

/// 65536 times the open payload's start and its length; 0 where the frame
/// cannot be divided.
fn open_place(frame: &[u8]) -> u32 {
    if frame.len() < 5 || frame.len() > MAX_LEN {
        return 0;
    }
    let parts = read_header(frame).and_then(|(header, len)| divide(frame, &header, len));
    parts.map_or(0, |parts| (parts.open_at << 16 | (parts.private_at - parts.open_at)) as u32)
}
