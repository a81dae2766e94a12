//! Sites as records, and random ones.

use super::rng::Rng;
use crate::file::CONTENTS_LEN;
use crate::frame::{Address, NONE, SHORT};
use crate::octets::u32_at;
use crate::records::{Kind, KINDS};
use crate::site::{device_counter_at, region_at, COUNTER_AT, SITE_LEN};

#[derive(Clone, Copy, Debug, Default, PartialEq, Eq)]
pub struct Settings {
    pub pan: u16,
    pub short: u16,
    pub extended: u64,
    pub coordinator_short: u16,
    pub coordinator_extended: u64,
    pub keysource: [u8; 8],
    /// Bit 0 security, bit 1 coordinator.
    pub flags: u8,
    pub counter: u32,
}

#[derive(Clone, Copy, Debug, Default, PartialEq, Eq)]
pub struct Device {
    pub pan: u16,
    pub short: u16,
    pub extended: u64,
    pub counter: u32,
    pub exempt: u8,
}

#[derive(Clone, Copy, Debug, Default, PartialEq, Eq)]
pub struct Level {
    pub kind: u8,
    pub command: u8,
    pub minimum: u8,
    pub overridden: u8,
    pub allowed: u8,
}

#[derive(Clone, Copy, Debug, Default, PartialEq, Eq)]
pub struct Lookup {
    pub key: u8,
    pub mode: u8,
    pub index: u8,
    pub source: [u8; 8],
    /// The peer of mode 0.
    pub peer: Address,
}

#[derive(Clone, Copy, Debug, Default, PartialEq, Eq)]
pub struct Usage {
    pub key: u8,
    pub kind: u8,
    pub command: u8,
}

#[derive(Clone, Copy, Debug, Default, PartialEq, Eq)]
pub struct Handle {
    pub key: u8,
    pub device: u8,
}

/// A site; `default` encodes to the smallest file, with security off.
#[derive(Clone, Debug, Default, PartialEq, Eq)]
pub struct SiteSpec {
    pub settings: Settings,
    pub devices: Vec<Device>,
    pub levels: Vec<Level>,
    pub keys: Vec<[u8; 16]>,
    pub lookups: Vec<Lookup>,
    pub usages: Vec<Usage>,
    pub handles: Vec<Handle>,
}

impl SiteSpec {
    /// The site's file. Broken records are encoded as they are.
    pub fn encode(&self) -> Vec<u8> {
        encode_bodies(&self.bodies())
    }

    /// The site as loading its file makes it, without the help of `load`.
    /// Broken records are laid as they are.
    pub fn site(&self) -> Vec<u8> {
        let bodies = self.bodies();
        let counts =
            bodies.iter().zip(Kind::ALL).map(|(body, kind)| body.len() / kind.record_len());
        let mut site: Vec<u8> = counts.flat_map(|count| (count as u16).to_le_bytes()).collect();
        for (kind, body) in Kind::ALL.into_iter().zip(bodies) {
            assert!(body.len() <= kind.limit() * kind.record_len());
            site.resize(region_at(kind), 0);
            site.extend(body);
        }
        site.resize(SITE_LEN, 0);
        site
    }

    /// The octets of the records of each kind.
    pub(super) fn bodies(&self) -> [Vec<u8>; KINDS] {
        [
            self.settings.octets(),
            self.devices.iter().flat_map(Device::octets).collect(),
            self.levels.iter().flat_map(Level::octets).collect(),
            self.keys.concat(),
            self.lookups.iter().flat_map(Lookup::octets).collect(),
            self.usages.iter().flat_map(|u| [u.key, u.kind, u.command]).collect(),
            self.handles.iter().flat_map(|h| [h.key, h.device]).collect(),
        ]
    }

    /// Takes over the counters that stand in the site.
    pub fn refresh(&mut self, site: &[u8]) {
        self.settings.counter = u32_at(site, COUNTER_AT);
        for (number, device) in self.devices.iter_mut().enumerate() {
            device.counter = u32_at(site, device_counter_at(number));
        }
    }

    /// The address that stands for an absent one; mode 0 if nobody.
    pub fn stand_in(&self) -> Address {
        let settings = &self.settings;
        match settings.coordinator_short {
            0xffff => Address::default(),
            0xfffe => Address::extended(settings.pan, settings.coordinator_extended),
            address => Address::short(settings.pan, address.into()),
        }
    }

    /// A random site that keeps its rules; most are small, some are full.
    pub fn random(rng: &mut Rng) -> Self {
        let mut spec = SiteSpec { settings: Settings::random(rng), ..SiteSpec::default() };
        spec.draw_devices(rng);
        spec.draw_levels(rng);
        let keys = draw_count(rng, Kind::Keys);
        spec.keys = (0..keys).map(|_| draw_key(rng)).collect();
        if keys > 0 {
            spec.draw_lookups(rng);
            spec.draw_usages(rng);
            spec.draw_handles(rng);
        }
        spec
    }

    fn draw_devices(&mut self, rng: &mut Rng) {
        for _ in 0..draw_count(rng, Kind::Devices) {
            let device = Device::random(rng, &self.settings);
            let clashes = |other: &Device| {
                other.extended == device.extended
                    || other.pan == device.pan
                        && other.short == device.short
                        && device.short < 0xfffe
            };
            if !self.devices.iter().any(clashes) {
                self.devices.push(device);
            }
        }
    }

    fn draw_levels(&mut self, rng: &mut Rng) {
        for (kind, command) in [(0, 0), (1, 0), (3, 1), (3, 4), (3, 7), (2, 0), (1, 9), (3, 2)] {
            if rng.chance(85) {
                self.levels.push(Level::random(rng, kind, command));
            }
        }
        rng.shuffle(&mut self.levels);
        if rng.chance(5) {
            while self.levels.len() < Kind::Levels.limit() {
                let (kind, command) = (rng.below(4) as u8, rng.below(10) as u8);
                self.levels.push(Level::random(rng, kind, command));
            }
        }
    }

    fn draw_lookups(&mut self, rng: &mut Rng) {
        let count = draw_count(rng, Kind::Lookups).max(2);
        for number in 0..count {
            let mut lookup = Lookup::random(rng, self);
            if rng.chance(70) {
                lookup.index = number as u8;
            }
            self.lookups.push(lookup);
        }
    }

    fn draw_usages(&mut self, rng: &mut Rng) {
        for key in 0..self.keys.len() as u8 {
            for (kind, command) in [(0, 0), (1, 0), (3, 1), (3, 4)] {
                if rng.chance(80) && self.usages.len() < Kind::Usages.limit() {
                    self.usages.push(Usage { key, kind, command });
                }
            }
        }
        if rng.chance(5) {
            while self.usages.len() < Kind::Usages.limit() {
                let (key, kind) = (rng.below(self.keys.len()) as u8, rng.below(4) as u8);
                self.usages.push(Usage { key, kind, command: rng.below(10) as u8 });
            }
        }
        rng.shuffle(&mut self.usages);
    }

    fn draw_handles(&mut self, rng: &mut Rng) {
        for device in 0..self.devices.len() as u8 {
            for key in 0..self.keys.len() as u8 {
                if rng.chance(60) && self.handles.len() < Kind::Handles.limit() {
                    self.handles.push(Handle { key, device });
                }
            }
        }
        if rng.chance(5) && !self.devices.is_empty() {
            while self.handles.len() < Kind::Handles.limit() {
                let key = rng.below(self.keys.len()) as u8;
                let device = rng.below(self.devices.len()) as u8;
                self.handles.push(Handle { key, device });
            }
        }
        rng.shuffle(&mut self.handles);
    }

    /// A device's address in short or extended form, or sometimes another.
    pub(super) fn draw_peer(&self, rng: &mut Rng) -> Address {
        let stand_in = self.stand_in();
        if stand_in.mode != NONE && rng.chance(20) {
            return stand_in;
        }
        match rng.pick_any(&self.devices) {
            Some(device) if rng.chance(90) => device.address(rng),
            _ => Device::random(rng, &self.settings).address(rng),
        }
    }
}

/// The file of these bodies.
pub(super) fn encode_bodies(bodies: &[Vec<u8>; KINDS]) -> Vec<u8> {
    let mut offset = CONTENTS_LEN;
    let mut file = Vec::new();
    for (kind, body) in Kind::ALL.into_iter().zip(bodies) {
        let len = kind.record_len();
        file.extend([kind as u8 + 1, len as u8]);
        file.extend(((body.len() / len) as u16).to_le_bytes());
        file.extend((offset as u16).to_le_bytes());
        offset += body.len();
    }
    file.extend(bodies.concat());
    file
}

impl Settings {
    fn octets(&self) -> Vec<u8> {
        let mut octets = Vec::new();
        octets.extend(self.pan.to_le_bytes());
        octets.extend(self.short.to_le_bytes());
        octets.extend(self.extended.to_le_bytes());
        octets.extend(self.coordinator_short.to_le_bytes());
        octets.extend(self.coordinator_extended.to_le_bytes());
        octets.extend(self.keysource);
        octets.push(self.flags);
        octets.extend(self.counter.to_le_bytes());
        octets
    }

    fn random(rng: &mut Rng) -> Self {
        Settings {
            pan: draw_pan(rng),
            short: rng.pick(&[0x0000, 0x0001, 0x1234, 0xfffd, 0xfffe, 0xffff]),
            extended: draw_extended(rng),
            coordinator_short: rng.pick(&[0x0001, 0x1234, 0xfffe, 0xfffe, 0xffff]),
            coordinator_extended: draw_extended(rng),
            keysource: draw_keysource(rng),
            flags: rng.bit(90) | rng.bit(50) << 1,
            counter: draw_counter(rng),
        }
    }
}

impl Device {
    fn octets(&self) -> Vec<u8> {
        let mut octets = Vec::new();
        octets.extend(self.pan.to_le_bytes());
        octets.extend(self.short.to_le_bytes());
        octets.extend(self.extended.to_le_bytes());
        octets.extend(self.counter.to_le_bytes());
        octets.push(self.exempt);
        octets
    }

    fn random(rng: &mut Rng, settings: &Settings) -> Self {
        let coordinator = rng.chance(20);
        Device {
            pan: if rng.chance(85) { settings.pan } else { draw_pan(rng) },
            short: match coordinator {
                true => settings.coordinator_short,
                false => draw_short(rng),
            },
            extended: match coordinator {
                true => settings.coordinator_extended,
                false => draw_extended(rng),
            },
            counter: draw_counter(rng),
            exempt: rng.bit(50),
        }
    }

    /// The device's address in one of its forms.
    fn address(&self, rng: &mut Rng) -> Address {
        match rng.chance(50) {
            true => Address::short(self.pan, self.short.into()),
            false => Address::extended(self.pan, self.extended),
        }
    }
}

impl Level {
    fn octets(&self) -> [u8; 5] {
        [self.kind, self.command, self.minimum, self.overridden, self.allowed]
    }

    fn random(rng: &mut Rng, kind: u8, command: u8) -> Self {
        Level {
            kind,
            command,
            minimum: rng.pick(&[0, 0, 0, 1, 2, 3, 4, 5, 6, 7]),
            overridden: rng.bit(60),
            allowed: match rng.below(4) {
                0 => rng.octet() | rng.octet(),
                1 => rng.octet(),
                _ => 0,
            },
        }
    }
}

impl Lookup {
    fn octets(&self) -> Vec<u8> {
        let mut octets = vec![self.key, self.mode, self.index];
        octets.extend(self.source);
        octets.push(self.peer.mode);
        octets.extend(self.peer.pan.to_le_bytes());
        octets.extend(self.peer.address.to_le_bytes());
        octets
    }

    fn random(rng: &mut Rng, spec: &SiteSpec) -> Self {
        let mode = rng.below(4) as u8;
        let mut peer = spec.draw_peer(rng);
        if peer.mode == SHORT {
            // The octets behind a short address are not used.
            peer.address |= rng.word() << 16;
        }
        if mode > 0 && rng.chance(20) {
            peer.mode = rng.octet();
        }
        Lookup {
            key: rng.below(spec.keys.len()) as u8,
            mode,
            index: rng.below(4) as u8,
            source: match mode == 1 && rng.chance(80) {
                true => spec.settings.keysource,
                false => draw_keysource(rng),
            },
            peer,
        }
    }
}

/// How many records of a kind: mostly few, sometimes none or all.
fn draw_count(rng: &mut Rng, kind: Kind) -> usize {
    match rng.below(20) {
        0 => 0,
        1 => kind.limit(),
        _ => rng.between(1, kind.limit().min(8)),
    }
}

fn draw_pan(rng: &mut Rng) -> u16 {
    rng.pick(&[0x4321, 0x4321, 0x4321, 0x4321, 0x4322, 0x4421, 0x0000, 0xffff])
}

fn draw_short(rng: &mut Rng) -> u16 {
    match rng.below(4) {
        0 => rng.pick(&[0x0000, 0x0001, 0x0100, 0x1234, 0xfffd, 0xfffe, 0xfffe, 0xffff]),
        1 => 0x1234 ^ 1 << rng.below(16),
        _ => rng.word() as u16,
    }
}

/// Addresses that often differ in one octet only.
fn draw_extended(rng: &mut Rng) -> u64 {
    let base = 0xacde_4800_0000_0001;
    match rng.below(4) {
        0 => base ^ (rng.word() & 0xff) << (8 * rng.below(8)),
        1 => rng.word(),
        _ => base + rng.below(256) as u64,
    }
}

/// Key sources that often share their first four octets.
fn draw_keysource(rng: &mut Rng) -> [u8; 8] {
    let mut source = [0xff; 8];
    if rng.chance(70) {
        source[rng.below(8)] = rng.pick(&[0, 1, 0xfe]);
    }
    source
}

fn draw_key(rng: &mut Rng) -> [u8; 16] {
    let mut key = [0; 16];
    key.copy_from_slice(&rng.octets(16));
    key
}

fn draw_counter(rng: &mut Rng) -> u32 {
    match rng.below(8) {
        0 => 0,
        1 => rng.pick(&[0xff, 0x100, 0xffff, 0x10000, 0xff_ffff, 0x7fff_ffff, 0x8000_0000]),
        2 => rng.pick(&[0xffff_fffc, 0xffff_fffd, 0xffff_fffe, 0xffff_ffff]),
        3 => rng.word() as u32,
        _ => rng.below(1000) as u32,
    }
}
