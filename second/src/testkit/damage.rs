//! Damaged files and sites: each rule broken in turn, and what looks broken
//! and is allowed.

use super::rng::Rng;
use super::sites::{encode_bodies, Device, Handle, Level, Lookup, SiteSpec, Usage};
use crate::file::{CONTENTS_LEN, ENTRY_LEN};
use crate::frame::{Address, EXTENDED};
use crate::octets::u16_at;
use crate::records::Kind;
use crate::site::count_at;

/// Where an entry of the table of contents has its record length, its count
/// and its offset.
const RECORD_LENGTH: usize = 1;
const COUNT: usize = 2;
const OFFSET: usize = 4;

/// A way to break one rule of records, in a file or a site.
#[derive(Clone, Copy, Debug, PartialEq, Eq)]
pub enum RecordBreakage {
    SettingsFlags,
    DeviceExempt,
    DeviceSameExtended,
    DeviceSameShort,
    LevelType,
    LevelMinimum,
    LevelOverride,
    LookupKey,
    LookupMode,
    LookupPeerMode,
    UsageKey,
    UsageType,
    HandleKey,
    HandleDevice,
}

impl RecordBreakage {
    pub const ALL: [RecordBreakage; 14] = [
        RecordBreakage::SettingsFlags,
        RecordBreakage::DeviceExempt,
        RecordBreakage::DeviceSameExtended,
        RecordBreakage::DeviceSameShort,
        RecordBreakage::LevelType,
        RecordBreakage::LevelMinimum,
        RecordBreakage::LevelOverride,
        RecordBreakage::LookupKey,
        RecordBreakage::LookupMode,
        RecordBreakage::LookupPeerMode,
        RecordBreakage::UsageKey,
        RecordBreakage::UsageType,
        RecordBreakage::HandleKey,
        RecordBreakage::HandleDevice,
    ];

    /// Breaks a record of a filled site.
    fn apply(&self, rng: &mut Rng, spec: &mut SiteSpec) {
        let (keys, devices) = (spec.keys.len() as u8, spec.devices.len());
        match self {
            RecordBreakage::SettingsFlags => spec.settings.flags |= 1 << rng.between(2, 7),
            RecordBreakage::DeviceExempt => one(rng, &mut spec.devices).exempt = over(rng, 1),
            RecordBreakage::DeviceSameExtended => {
                let (from, to) = pair(rng, devices);
                spec.devices[to].extended = spec.devices[from].extended;
            }
            RecordBreakage::DeviceSameShort => {
                let (from, to) = pair(rng, devices);
                spec.devices[from].short = rng.pick(&[0, 1, 0x1234, 0xfffd]);
                spec.devices[to].short = spec.devices[from].short;
                spec.devices[to].pan = spec.devices[from].pan;
            }
            RecordBreakage::LevelType => one(rng, &mut spec.levels).kind = over(rng, 3),
            RecordBreakage::LevelMinimum => one(rng, &mut spec.levels).minimum = over(rng, 7),
            RecordBreakage::LevelOverride => one(rng, &mut spec.levels).overridden = over(rng, 1),
            RecordBreakage::LookupKey => one(rng, &mut spec.lookups).key = over(rng, keys - 1),
            RecordBreakage::LookupMode => one(rng, &mut spec.lookups).mode = over(rng, 3),
            RecordBreakage::LookupPeerMode => {
                let lookup = one(rng, &mut spec.lookups);
                lookup.mode = 0;
                lookup.peer.mode = rng.pick(&[0, 1, 4, 5, 0x82, 0xff]);
            }
            RecordBreakage::UsageKey => one(rng, &mut spec.usages).key = over(rng, keys - 1),
            RecordBreakage::UsageType => one(rng, &mut spec.usages).kind = over(rng, 3),
            RecordBreakage::HandleKey => one(rng, &mut spec.handles).key = over(rng, keys - 1),
            RecordBreakage::HandleDevice => {
                one(rng, &mut spec.handles).device = over(rng, devices as u8 - 1);
            }
        }
    }
}

/// A way to break one rule of the file.
#[derive(Clone, Copy, Debug, PartialEq, Eq)]
pub enum FileBreakage {
    Empty,
    InsideContents,
    OneShort,
    OneLong,
    EntryKind(Kind),
    EntryRecordLength(Kind),
    EntryOffset(Kind),
    EntryCountMore(Kind),
    EntryCountLess(Kind),
    CountOver(Kind),
    NoSettings,
    Gap(Kind),
    BodiesSwapped,
    /// A site where a file is wanted.
    Loaded,
    Record(RecordBreakage),
}

impl FileBreakage {
    /// Every breakage.
    pub fn all() -> Vec<FileBreakage> {
        use FileBreakage::*;
        let mut all = vec![Empty, InsideContents, OneShort, OneLong, NoSettings, BodiesSwapped];
        all.push(Loaded);
        let by_kind = [
            EntryKind,
            EntryRecordLength,
            EntryOffset,
            EntryCountMore,
            EntryCountLess,
            CountOver,
            Gap,
        ];
        for make in by_kind {
            all.extend(Kind::ALL.map(make));
        }
        all.extend(RecordBreakage::ALL.map(Record));
        all
    }

    /// The breakage's name, with its kind.
    pub fn name(&self) -> String {
        format!("{self:?}")
    }

    /// A file of a site like the given one, broken in this way only.
    pub fn apply(&self, rng: &mut Rng, spec: &SiteSpec) -> Vec<u8> {
        let mut spec = filled(rng, spec);
        match *self {
            FileBreakage::Record(breakage) => {
                breakage.apply(rng, &mut spec);
                spec.encode()
            }
            FileBreakage::CountOver(kind) => count_over(&spec, kind),
            FileBreakage::NoSettings => {
                let mut bodies = spec.bodies();
                bodies[Kind::Settings as usize].clear();
                encode_bodies(&bodies)
            }
            FileBreakage::Gap(kind) => gap(rng, &spec, kind),
            FileBreakage::BodiesSwapped => swapped(&spec),
            FileBreakage::Loaded => spec.site(),
            _ => self.break_octets(rng, spec.encode()),
        }
    }

    /// Breaks the length or the table of contents.
    fn break_octets(&self, rng: &mut Rng, mut file: Vec<u8>) -> Vec<u8> {
        match *self {
            FileBreakage::Empty => file.clear(),
            FileBreakage::InsideContents => file.truncate(rng.between(1, CONTENTS_LEN - 1)),
            FileBreakage::OneShort => file.truncate(file.len() - 1),
            FileBreakage::OneLong => file.push(rng.octet()),
            FileBreakage::EntryKind(kind) => file[entry_at(kind)] ^= rng.between(1, 255) as u8,
            FileBreakage::EntryRecordLength(kind) => {
                file[entry_at(kind) + RECORD_LENGTH] ^= rng.between(1, 255) as u8;
            }
            FileBreakage::EntryOffset(kind) => {
                let change = rng.pick(&[1, 0x100, 0xffff, 0xff00]);
                add_to(&mut file, entry_at(kind) + OFFSET, change);
            }
            FileBreakage::EntryCountMore(kind) => add_to(&mut file, entry_at(kind) + COUNT, 1),
            FileBreakage::EntryCountLess(kind) => add_to(&mut file, entry_at(kind) + COUNT, 0xffff),
            _ => {}
        }
        file
    }
}

/// A way to break one rule of a loaded site.
#[derive(Clone, Copy, Debug, PartialEq, Eq)]
pub enum SiteBreakage {
    Empty,
    OneShort,
    OneLong,
    /// A file where a site is wanted.
    File,
    NoSettings,
    CountOver(Kind),
    CountFarOver(Kind),
    Record(RecordBreakage),
}

impl SiteBreakage {
    /// Every breakage.
    pub fn all() -> Vec<SiteBreakage> {
        use SiteBreakage::*;
        let mut all = vec![Empty, OneShort, OneLong, File, NoSettings];
        all.extend(Kind::ALL.map(CountOver));
        all.extend(Kind::ALL.map(CountFarOver));
        all.extend(RecordBreakage::ALL.map(Record));
        all
    }

    /// The breakage's name, with its kind.
    pub fn name(&self) -> String {
        format!("{self:?}")
    }

    /// A site like the given one, broken in this way only.
    pub fn apply(&self, rng: &mut Rng, spec: &SiteSpec) -> Vec<u8> {
        let mut spec = filled(rng, spec);
        if let SiteBreakage::Record(breakage) = self {
            breakage.apply(rng, &mut spec);
        }
        let mut site = spec.site();
        match *self {
            SiteBreakage::Empty => site.clear(),
            SiteBreakage::OneShort => site.truncate(site.len() - 1),
            SiteBreakage::OneLong => site.push(rng.octet()),
            SiteBreakage::File => site = spec.encode(),
            SiteBreakage::NoSettings => set_count(&mut site, Kind::Settings, 0),
            SiteBreakage::CountOver(kind) => set_count(&mut site, kind, kind.limit() + 1),
            SiteBreakage::CountFarOver(kind) => {
                let count = rng.between(kind.limit() + 1, 0xffff);
                set_count(&mut site, kind, count);
            }
            SiteBreakage::Record(_) => {}
        }
        site
    }
}

/// What looks like a broken rule and is none.
#[derive(Clone, Copy, Debug, PartialEq, Eq)]
pub enum Allowance {
    SharedShortFffe,
    SharedShortFfff,
    SharedShortOtherPan,
    SharedPanOtherShort,
    PeerModeUnused,
    LevelCommandUnused,
    UsageCommandUnused,
    TypeAcknowledgment,
    FullSet,
    RepeatedLevel,
    RepeatedKey,
    RepeatedLookup,
    RepeatedUsage,
    RepeatedHandle,
    Smallest,
    Largest,
}

impl Allowance {
    /// Every allowance.
    pub fn all() -> Vec<Allowance> {
        use Allowance::*;
        let mut all = vec![SharedShortFffe, SharedShortFfff, SharedShortOtherPan];
        all.extend([SharedPanOtherShort, PeerModeUnused, LevelCommandUnused]);
        all.extend([UsageCommandUnused, TypeAcknowledgment, FullSet, RepeatedLevel]);
        all.extend([RepeatedKey, RepeatedLookup, RepeatedUsage, RepeatedHandle]);
        all.extend([Smallest, Largest]);
        all
    }

    /// The allowance's name.
    pub fn name(&self) -> String {
        format!("{self:?}")
    }

    /// A site like the given one that uses this allowance.
    pub fn apply(&self, rng: &mut Rng, spec: &SiteSpec) -> SiteSpec {
        let mut spec = filled(rng, spec);
        match self {
            Allowance::PeerModeUnused => {
                let lookup = one(rng, &mut spec.lookups);
                lookup.mode = rng.between(1, 3) as u8;
                lookup.peer.mode = rng.octet();
            }
            Allowance::LevelCommandUnused => {
                *one(rng, &mut spec.levels) = Level { kind: 1, command: 0xff, ..Level::default() };
            }
            Allowance::UsageCommandUnused => one(rng, &mut spec.usages).kind = 0,
            Allowance::TypeAcknowledgment => {
                one(rng, &mut spec.levels).kind = 2;
                one(rng, &mut spec.usages).kind = 2;
            }
            Allowance::FullSet => one(rng, &mut spec.levels).allowed = 0xff,
            Allowance::RepeatedLevel => repeat(rng, &mut spec.levels),
            Allowance::RepeatedKey => repeat(rng, &mut spec.keys),
            Allowance::RepeatedLookup => repeat(rng, &mut spec.lookups),
            Allowance::RepeatedUsage => repeat(rng, &mut spec.usages),
            Allowance::RepeatedHandle => repeat(rng, &mut spec.handles),
            Allowance::Smallest => {
                spec = SiteSpec { settings: spec.settings, ..SiteSpec::default() };
            }
            Allowance::Largest => fill_up(&mut spec),
            _ => self.share_address(rng, &mut spec),
        }
        spec
    }

    /// Two devices that share what they may.
    fn share_address(&self, rng: &mut Rng, spec: &mut SiteSpec) {
        let (from, to) = pair(rng, spec.devices.len());
        // A PAN of its own keeps other devices out of the case.
        let (pan, short) = (0x7777, 0x0123);
        let (pans, shorts) = match self {
            Allowance::SharedShortFffe => ([pan; 2], [0xfffe; 2]),
            Allowance::SharedShortFfff => ([pan; 2], [0xffff; 2]),
            Allowance::SharedShortOtherPan => ([pan, pan + 0x100], [short; 2]),
            _ => ([pan; 2], [short, short + 0x100]),
        };
        for (device, (pan, short)) in [from, to].into_iter().zip(pans.into_iter().zip(shorts)) {
            spec.devices[device].pan = pan;
            spec.devices[device].short = short;
        }
    }
}

/// The site with at least one record of each kind and two devices, and room
/// for one more of each.
fn filled(rng: &mut Rng, spec: &SiteSpec) -> SiteSpec {
    let mut spec = spec.clone();
    spec.keys.truncate(Kind::Keys.limit() - 1);
    if spec.keys.is_empty() {
        spec.keys.push([rng.octet(); 16]);
    }
    spec.devices.truncate(Kind::Devices.limit() - 1);
    while spec.devices.len() < 2 {
        add_device(&mut spec);
    }
    let (keys, devices) = (spec.keys.len() as u8, spec.devices.len() as u8);
    spec.levels.truncate(Kind::Levels.limit() - 2);
    spec.levels.push(Level { kind: 1, ..Level::default() });
    spec.lookups.retain(|lookup| lookup.key < keys);
    spec.lookups.truncate(Kind::Lookups.limit() - 2);
    let peer = Address { mode: EXTENDED, ..Address::default() };
    spec.lookups.push(Lookup { peer, ..Lookup::default() });
    spec.usages.retain(|usage| usage.key < keys);
    spec.usages.truncate(Kind::Usages.limit() - 2);
    spec.usages.push(Usage::default());
    spec.handles.retain(|handle| handle.key < keys && handle.device < devices);
    spec.handles.truncate(Kind::Handles.limit() - 2);
    spec.handles.push(Handle::default());
    spec
}

/// Adds a device that shares no address.
fn add_device(spec: &mut SiteSpec) {
    let mut extended = 0x5500_0000_0000_0000;
    while spec.devices.iter().any(|device| device.extended == extended) {
        extended += 1;
    }
    spec.devices.push(Device { short: 0xfffe, extended, ..Device::default() });
}

/// The file with one more record of a kind than allowed.
fn count_over(spec: &SiteSpec, kind: Kind) -> Vec<u8> {
    let mut spec = spec.clone();
    while kind == Kind::Devices && spec.devices.len() <= kind.limit() {
        add_device(&mut spec);
    }
    let mut bodies = spec.bodies();
    let body = &mut bodies[kind as usize];
    while body.len() <= kind.limit() * kind.record_len() {
        body.extend_from_within(..kind.record_len());
    }
    encode_bodies(&bodies)
}

/// As many records of each kind as allowed.
fn fill_up(spec: &mut SiteSpec) {
    while spec.devices.len() < Kind::Devices.limit() {
        add_device(spec);
    }
    repeat_first(&mut spec.levels, Kind::Levels);
    repeat_first(&mut spec.keys, Kind::Keys);
    repeat_first(&mut spec.lookups, Kind::Lookups);
    repeat_first(&mut spec.usages, Kind::Usages);
    repeat_first(&mut spec.handles, Kind::Handles);
}

/// Repeats the first record up to the limit of its kind.
fn repeat_first<T: Copy>(records: &mut Vec<T>, kind: Kind) {
    records.resize(kind.limit(), records[0]);
}

/// Where the entry of a kind stands in the table of contents.
fn entry_at(kind: Kind) -> usize {
    ENTRY_LEN * kind as usize
}

/// Where the body of a kind stands, as the table of contents says.
fn body_at(file: &[u8], kind: Kind) -> usize {
    u16_at(file, entry_at(kind) + OFFSET).into()
}

/// An octet before the body of a kind, and the offsets to fit.
fn gap(rng: &mut Rng, spec: &SiteSpec, kind: Kind) -> Vec<u8> {
    let mut file = spec.encode();
    let at = body_at(&file, kind);
    for later in &Kind::ALL[kind as usize..] {
        add_to(&mut file, entry_at(*later) + OFFSET, 1);
    }
    file.insert(at, rng.octet());
    file
}

/// Usages and handles in the wrong order, and the offsets to fit.
fn swapped(spec: &SiteSpec) -> Vec<u8> {
    let mut file = spec.encode();
    let (usages_at, handles_at) = (body_at(&file, Kind::Usages), body_at(&file, Kind::Handles));
    let (usages_len, handles_len) = (handles_at - usages_at, file.len() - handles_at);
    file[usages_at..].rotate_left(usages_len);
    add_to(&mut file, entry_at(Kind::Usages) + OFFSET, handles_len as u16);
    add_to(&mut file, entry_at(Kind::Handles) + OFFSET, (usages_len as u16).wrapping_neg());
    file
}

/// Adds to a field of two octets.
pub(super) fn add_to(octets: &mut [u8], at: usize, change: u16) {
    let value = u16_at(octets, at).wrapping_add(change);
    octets[at..at + 2].copy_from_slice(&value.to_le_bytes());
}

/// Sets the count of a kind in a site.
pub(super) fn set_count(site: &mut [u8], kind: Kind, count: usize) {
    site[count_at(kind)..][..2].copy_from_slice(&(count as u16).to_le_bytes());
}

/// One of the records.
fn one<'a, T>(rng: &mut Rng, records: &'a mut [T]) -> &'a mut T {
    let number = rng.below(records.len());
    &mut records[number]
}

/// Adds a copy of one of the records.
fn repeat<T: Copy>(rng: &mut Rng, records: &mut Vec<T>) {
    let record = rng.pick(records);
    records.push(record);
}

/// Two different numbers below a count.
fn pair(rng: &mut Rng, count: usize) -> (usize, usize) {
    let first = rng.below(count);
    (first, (first + rng.between(1, count - 1)) % count)
}

/// An octet above a limit, often the next one.
fn over(rng: &mut Rng, limit: u8) -> u8 {
    match rng.chance(50) {
        true => limit + 1,
        false => rng.between(usize::from(limit) + 1, 255) as u8,
    }
}
