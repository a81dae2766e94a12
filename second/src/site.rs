//! The site: its places, its rules and the searches in its tables.
//!
//! A site has the counts of its records in front, 2 octets for each kind, and
//! then a region for each kind with room for as many records as there may be.
//! The records stand at the front of their region. All other octets are free:
//! they are neither read nor changed.

use crate::frame::{keysource_len, Address, Security, COMMAND, EXTENDED, NONE, SHORT};
use crate::octets::{number, u16_at, u32_at, u64_at};
use crate::records::{room_of, Kind, Records, KINDS, NO_SHORT};

/// The octets of a count.
const COUNT_LEN: usize = 2;
/// The octets before the first region.
pub const HEADER_LEN: usize = 32;
/// The octets of a site.
pub const SITE_LEN: usize = HEADER_LEN + room_of(KINDS);
/// Where the counters stand in the settings and in a device record.
const OWN_COUNTER: usize = 31;
const DEVICE_COUNTER: usize = 12;
/// Where the own counter stands in a site.
pub const COUNTER_AT: usize = region_at(Kind::Settings) + OWN_COUNTER;

/// Where the count of a kind stands.
pub const fn count_at(kind: Kind) -> usize {
    COUNT_LEN * kind as usize
}

/// Where the region of a kind starts.
pub const fn region_at(kind: Kind) -> usize {
    HEADER_LEN + room_of(kind as usize)
}

/// Where the counter of the device with this number, from 0, stands in a site.
pub const fn device_counter_at(device: usize) -> usize {
    region_at(Kind::Devices) + device * Kind::Devices.record_len() + DEVICE_COUNTER
}

/// Says whether the site keeps every site rule.
pub fn site_holds(site: &[u8]) -> bool {
    let counts_hold = || Kind::ALL.into_iter().all(|kind| kind.admits(count(site, kind)));
    site.len() == SITE_LEN && counts_hold() && site_records(site).hold()
}

/// How many records of a kind the site says it has.
fn count(site: &[u8], kind: Kind) -> usize {
    u16_at(site, count_at(kind)).into()
}

/// The records of a site whose length and counts hold.
fn site_records(site: &[u8]) -> Records<'_> {
    let octets = |kind: Kind| &site[region_at(kind)..][..count(site, kind) * kind.record_len()];
    Records::new(Kind::ALL.map(octets))
}

/// Writes the site of these records, zeros in its free octets; they keep the
/// limits, and the octets are a site's.
pub fn write_site(records: &Records, site: &mut [u8]) {
    site.fill(0);
    for kind in Kind::ALL {
        let (count, octets) = (records.count(kind) as u16, records.octets(kind));
        site[count_at(kind)..][..COUNT_LEN].copy_from_slice(&count.to_le_bytes());
        site[region_at(kind)..][..octets.len()].copy_from_slice(octets);
    }
}

/// A site that keeps its rules.
#[derive(Clone, Copy)]
pub struct Site<'a> {
    records: Records<'a>,
}

impl<'a> Site<'a> {
    /// Lends a site; the rules must hold.
    pub fn new(octets: &'a [u8]) -> Self {
        Site { records: site_records(octets) }
    }

    fn settings(&self) -> &'a [u8] {
        self.records.one(Kind::Settings, 0)
    }

    /// The record of the device with this number, from 0.
    pub fn device(&self, number: usize) -> &'a [u8] {
        self.records.one(Kind::Devices, number)
    }

    pub fn pan(&self) -> u16 {
        u16_at(self.settings(), 0)
    }

    pub fn short(&self) -> u16 {
        u16_at(self.settings(), 2)
    }

    pub fn extended(&self) -> u64 {
        u64_at(self.settings(), 4)
    }

    fn default_keysource(&self) -> &'a [u8] {
        &self.settings()[22..30]
    }

    /// Says whether security is enabled.
    pub fn security(&self) -> bool {
        self.settings()[30] & 1 == 1
    }

    /// Says whether we are the PAN coordinator.
    pub fn coordinator(&self) -> bool {
        self.settings()[30] & 2 == 2
    }

    /// The own counter.
    pub fn counter(&self) -> u32 {
        u32_at(self.settings(), OWN_COUNTER)
    }

    /// The peer: the given address or, where absent, the coordinator; nothing
    /// where that one is unknown.
    pub fn peer(&self, given: &Address) -> Option<Address> {
        if given.mode != NONE {
            return Some(*given);
        }
        let settings = self.settings();
        let short = u16_at(settings, 12);
        let (mode, address) = match short {
            0xffff => return None,
            NO_SHORT => (EXTENDED, u64_at(settings, 14)),
            _ => (SHORT, u64::from(short)),
        };
        Some(Address { mode, pan: self.pan(), address })
    }

    /// The first level record for a type and command.
    pub fn level(&self, kind: u8, command: u8) -> Option<&'a [u8]> {
        self.records.all(Kind::Levels).find(|level| names_type(level, kind, command))
    }

    /// The number of the key of the first lookup record that matches.
    pub fn find_key(&self, security: &Security, peer: Option<&Address>) -> Option<usize> {
        let keymode = security.keymode;
        let source = match keymode {
            1 => self.default_keysource(),
            _ => &security.keysource[..keysource_len(keymode)],
        };
        let matches = |lookup: &&[u8]| match keymode {
            0 => peer.is_some_and(|peer| names_peer(lookup, peer)),
            _ => lookup[2] == security.keyindex && lookup[3..11].starts_with(source),
        };
        self.records
            .all(Kind::Lookups)
            .filter(|lookup| lookup[1] == keymode)
            .find(matches)
            .map(|lookup| usize::from(lookup[0]))
    }

    /// The octets of a key.
    pub fn key(&self, number: usize) -> [u8; 16] {
        let mut key = [0; 16];
        key.copy_from_slice(self.records.one(Kind::Keys, number));
        key
    }

    /// Says whether a key may be used for a type and command.
    pub fn usage_holds(&self, key: usize, kind: u8, command: u8) -> bool {
        self.records
            .all(Kind::Usages)
            .any(|usage| usize::from(usage[0]) == key && names_type(&usage[1..], kind, command))
    }

    /// The number, from 0, of the first of the key's devices that is the peer.
    pub fn find_device(&self, key: usize, peer: Option<&Address>) -> Option<usize> {
        let peer = peer?;
        self.records
            .all(Kind::Handles)
            .filter(|handle| usize::from(handle[0]) == key)
            .map(|handle| usize::from(handle[1]))
            .find(|&device| is_peer(self.device(device), peer))
    }

    /// The first device of all that is the peer.
    pub fn find_any_device(&self, peer: Option<&Address>) -> Option<&'a [u8]> {
        let peer = peer?;
        self.records.all(Kind::Devices).find(|device| is_peer(device, peer))
    }
}

/// Says whether a record that starts with type and command names these.
fn names_type(record: &[u8], kind: u8, command: u8) -> bool {
    record[0] == kind && (kind != COMMAND || record[1] == command)
}

/// Says whether a lookup record of mode 0 names the peer.
fn names_peer(lookup: &[u8], peer: &Address) -> bool {
    let len = if peer.mode == SHORT { 2 } else { 8 };
    lookup[11] == peer.mode
        && u16_at(lookup, 12) == peer.pan
        && number(&lookup[14..14 + len]) == peer.address
}

/// Says whether a device record is the peer's.
fn is_peer(device: &[u8], peer: &Address) -> bool {
    u16_at(device, 0) == peer.pan
        && match peer.mode {
            SHORT => u64::from(u16_at(device, 2)) == peer.address,
            _ => u64_at(device, 4) == peer.address,
        }
}

/// The extended address in a device record.
pub fn device_extended(device: &[u8]) -> u64 {
    u64_at(device, 4)
}

/// The counter in a device record.
pub fn device_counter(device: &[u8]) -> u32 {
    u32_at(device, DEVICE_COUNTER)
}

/// Sets the counter of the device with this number, from 0.
pub fn set_device_counter(site: &mut [u8], device: usize, counter: u32) {
    set_number(site, device_counter_at(device), counter);
}

/// Sets the own counter.
pub fn set_counter(site: &mut [u8], counter: u32) {
    set_number(site, COUNTER_AT, counter);
}

fn set_number(site: &mut [u8], at: usize, value: u32) {
    site[at..at + 4].copy_from_slice(&value.to_le_bytes());
}
