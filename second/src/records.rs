//! The kinds of records and the rules that records keep, in a file and in a
//! site alike.

use std::slice::ChunksExact;

use crate::octets::u16_at;

/// A kind of records.
#[derive(Clone, Copy, Debug, PartialEq, Eq)]
pub enum Kind {
    Settings,
    Devices,
    Levels,
    Keys,
    Lookups,
    Usages,
    Handles,
}

/// How many kinds there are.
pub const KINDS: usize = 7;

/// By kind, the octets of a record and the most records. Every place in a
/// file and in a site follows from these numbers.
const LIMITS: [(usize, usize); KINDS] =
    [(35, 1), (17, 64), (5, 16), (16, 16), (22, 64), (3, 64), (2, 256)];

impl Kind {
    /// The kinds in order.
    pub const ALL: [Kind; KINDS] = [
        Kind::Settings,
        Kind::Devices,
        Kind::Levels,
        Kind::Keys,
        Kind::Lookups,
        Kind::Usages,
        Kind::Handles,
    ];

    /// The octets of a record.
    pub const fn record_len(self) -> usize {
        LIMITS[self as usize].0
    }

    /// The most records.
    pub const fn limit(self) -> usize {
        LIMITS[self as usize].1
    }

    /// Says whether there may be so many records.
    pub fn admits(self, count: usize) -> bool {
        count <= self.limit() && (self != Kind::Settings || count == 1)
    }
}

/// The octets of as many records as there may be, of the first kinds.
pub const fn room_of(kinds: usize) -> usize {
    let (mut sum, mut kind) = (0, 0);
    while kind < kinds {
        sum += LIMITS[kind].0 * LIMITS[kind].1;
        kind += 1;
    }
    sum
}

/// Short addresses from here on name nobody.
pub const NO_SHORT: u16 = 0xfffe;

/// The records of a file or a site; each kind's stand one after the other.
#[derive(Clone, Copy)]
pub struct Records<'a> {
    octets: [&'a [u8]; KINDS],
}

impl<'a> Records<'a> {
    /// The records in these octets, in the order of the kinds.
    pub fn new(octets: [&'a [u8]; KINDS]) -> Self {
        Records { octets }
    }

    /// The octets of the records of a kind.
    pub fn octets(&self, kind: Kind) -> &'a [u8] {
        self.octets[kind as usize]
    }

    /// How many records of a kind there are.
    pub fn count(&self, kind: Kind) -> usize {
        self.octets(kind).len() / kind.record_len()
    }

    /// The records of a kind in order.
    pub fn all(&self, kind: Kind) -> ChunksExact<'a, u8> {
        self.octets(kind).chunks_exact(kind.record_len())
    }

    /// The record of a kind with this number, from 0.
    pub fn one(&self, kind: Kind, number: usize) -> &'a [u8] {
        &self.octets(kind)[number * kind.record_len()..][..kind.record_len()]
    }

    /// Says whether every record keeps its rules.
    pub fn hold(&self) -> bool {
        let (keys, devices) = (self.count(Kind::Keys), self.count(Kind::Devices));
        self.all(Kind::Settings).all(|settings| settings[30] <= 3)
            && self.devices_hold()
            && self.all(Kind::Levels).all(|level| level[0] <= 3 && level[2] <= 7 && level[3] <= 1)
            && self.all(Kind::Lookups).all(|lookup| lookup_holds(lookup, keys))
            && self.all(Kind::Usages).all(|usage| usize::from(usage[0]) < keys && usage[1] <= 3)
            && self
                .all(Kind::Handles)
                .all(|handle| usize::from(handle[0]) < keys && usize::from(handle[1]) < devices)
    }

    /// Says whether the exempt fields hold and no two devices share an address.
    fn devices_hold(&self) -> bool {
        let mut rest = self.all(Kind::Devices);
        while let Some(device) = rest.next() {
            if device[16] > 1 || rest.clone().any(|other| share_address(device, other)) {
                return false;
            }
        }
        true
    }
}

/// Says whether two device records share an address.
fn share_address(one: &[u8], other: &[u8]) -> bool {
    one[4..12] == other[4..12] || one[..4] == other[..4] && u16_at(one, 2) < NO_SHORT
}

/// Says whether a lookup record keeps its rules.
fn lookup_holds(lookup: &[u8], keys: usize) -> bool {
    usize::from(lookup[0]) < keys
        && lookup[1] <= 3
        && (lookup[1] > 0 || matches!(lookup[11], 2 | 3))
}
