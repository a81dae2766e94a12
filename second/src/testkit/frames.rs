//! Frames as fields, random frames that fit a site, and damaged ones.

use super::rng::Rng;
use super::sites::{Device, Lookup, SiteSpec};
use crate::aes::Aes;
use crate::ccm;
use crate::fcs::fcs;
use crate::frame::{
    header_len, security_len, tag_len, write_header, write_security, Address, Header, Security,
    ACKNOWLEDGMENT, BEACON, COMMAND, DATA, FCS_LEN, MAX_LEN, NONE, SHORT,
};
use crate::octets::Writer;
use crate::receive::at_least;

/// A frame as fields. The security header stands if the header's bit is set.
#[derive(Clone, Debug, Default, PartialEq, Eq)]
pub struct Plan {
    pub header: Header,
    pub security: Security,
    pub open: Vec<u8>,
    pub private: Vec<u8>,
    /// The ignored bits 7 to 9 of the frame control, 0 to 7.
    pub spare: u8,
    /// The ignored bits 5 to 7 of the security control, 0 to 7.
    pub security_spare: u8,
}

impl Plan {
    /// The octets up to the private payload, and with it.
    fn body(&self) -> (usize, Vec<u8>) {
        let mut body = vec![0; 64 + self.open.len() + self.private.len()];
        let mut writer = Writer::new(&mut body);
        write_header(&self.header, &mut writer);
        let security_at = writer.len();
        if self.header.security == 1 {
            write_security(&self.security, &mut writer);
        }
        writer.put(&self.open);
        let private_at = writer.len();
        writer.put(&self.private);
        let len = writer.len();
        body.truncate(len);
        body[0] |= (self.spare & 1) << 7;
        body[1] |= self.spare >> 1;
        if self.header.security == 1 {
            body[security_at] |= self.security_spare << 5;
        }
        (private_at, body)
    }

    /// The frame with FCS and without tag.
    pub fn bare(&self) -> Vec<u8> {
        summed(&self.body().1)
    }

    /// The frame enciphered and tagged for an originator, with FCS.
    pub fn seal(&self, key: &[u8; 16], extended: u64) -> Vec<u8> {
        let (private_at, mut body) = self.body();
        let level = self.security.level;
        let data_len = if level < 4 { body.len() } else { private_at };
        let nonce = ccm::nonce(extended, self.security.counter, level);
        let (data, message) = body.split_at_mut(data_len);
        let tag = ccm::seal(&Aes::new(key), &nonce, data, message, tag_len(level));
        body.extend(&tag[..tag_len(level)]);
        summed(&body)
    }

    /// How many private octets the longest frame has room for.
    pub fn room(&self) -> usize {
        let security = match self.header.security {
            1 => security_len(self.security.keymode) + tag_len(self.security.level),
            _ => 0,
        };
        let used = header_len(&self.header) + security + self.open.len() + FCS_LEN;
        MAX_LEN.saturating_sub(used)
    }

    /// Draws open and private payload that fit.
    fn draw_payloads(&mut self, rng: &mut Rng, command: u8) {
        self.open = match self.header.kind {
            COMMAND => vec![command],
            kind => open_payload(rng, kind),
        };
        if self.header.kind == BEACON && self.room() == 0 {
            self.open = vec![rng.octet(), rng.octet(), 0, 0];
        }
        let room = self.room();
        let len = match rng.below(4) {
            0 => rng.pick(&[0, 1, 15, 16, 17, 31, 32, 33, 48]).min(room),
            1 => room,
            _ => rng.between(0, room),
        };
        self.private = rng.octets(len);
    }
}

/// Puts the FCS behind the octets.
pub fn summed(body: &[u8]) -> Vec<u8> {
    [body, &fcs(body).to_le_bytes()].concat()
}

/// Takes the last two octets off and sums the rest afresh.
pub fn summed_again(frame: &[u8]) -> Vec<u8> {
    summed(&frame[..frame.len().saturating_sub(FCS_LEN)])
}

/// A random open payload of a type, exactly as long as it says.
pub fn open_payload(rng: &mut Rng, kind: u8) -> Vec<u8> {
    match kind {
        BEACON => beacon_payload(rng),
        COMMAND => vec![rng.pick(&[1, 1, 4, 4, 2, 7, 9, 0, 0xff])],
        _ => Vec::new(),
    }
}

fn beacon_payload(rng: &mut Rng) -> Vec<u8> {
    let slots = if rng.chance(60) { 0 } else { rng.between(0, 7) };
    let short = if rng.chance(50) { 0 } else { rng.between(0, 7) };
    let extended = if rng.chance(50) { 0 } else { rng.between(0, 7 - short) };
    let mut open = rng.octets(2);
    open.push(slots as u8 | rng.octet() & 0xf8);
    if slots > 0 {
        open.extend(rng.octets(1 + 3 * slots));
    }
    open.push(short as u8 | (extended as u8) << 4 | rng.octet() & 0x88);
    open.extend(rng.octets(2 * short + 8 * extended));
    open
}

/// What a random frame is meant to be.
#[derive(Clone, Copy, Debug, PartialEq, Eq)]
pub enum FrameCase {
    Acknowledgment,
    Unsecured,
    Secured,
    CounterBorder,
    Replayed,
    WrongTag,
    WrongKey,
    FlippedBit,
    FlippedBitSummed,
    Truncated,
    TruncatedSummed,
    Lengthened,
    Overlong,
    LegacySecured,
    LevelZeroSecured,
    WrongDestination,
    OddTypeOrVersion,
    OddControl,
    BadBeacon,
    Garbage,
    GarbageSummed,
}

impl FrameCase {
    pub const ALL: [FrameCase; 21] = [
        FrameCase::Acknowledgment,
        FrameCase::Unsecured,
        FrameCase::Secured,
        FrameCase::CounterBorder,
        FrameCase::Replayed,
        FrameCase::WrongTag,
        FrameCase::WrongKey,
        FrameCase::FlippedBit,
        FrameCase::FlippedBitSummed,
        FrameCase::Truncated,
        FrameCase::TruncatedSummed,
        FrameCase::Lengthened,
        FrameCase::Overlong,
        FrameCase::LegacySecured,
        FrameCase::LevelZeroSecured,
        FrameCase::WrongDestination,
        FrameCase::OddTypeOrVersion,
        FrameCase::OddControl,
        FrameCase::BadBeacon,
        FrameCase::Garbage,
        FrameCase::GarbageSummed,
    ];

    /// The case's name.
    pub fn name(&self) -> String {
        format!("{self:?}")
    }
}

/// A random frame for a site and what it is; about half are good.
pub fn frame(rng: &mut Rng, spec: &SiteSpec) -> (FrameCase, Vec<u8>) {
    let case = match rng.below(100) {
        0..=39 => FrameCase::Secured,
        40..=54 => FrameCase::Unsecured,
        _ => rng.pick(&FrameCase::ALL),
    };
    (case, frame_of(case, rng, spec))
}

/// A random frame of this case for a site.
pub fn frame_of(case: FrameCase, rng: &mut Rng, spec: &SiteSpec) -> Vec<u8> {
    match case {
        FrameCase::Acknowledgment => acknowledgment(rng).bare(),
        FrameCase::Unsecured => unsecured(rng, spec).bare(),
        FrameCase::Overlong => {
            let len = rng.between(MAX_LEN + 1, 255);
            summed(&rng.octets(len - FCS_LEN))
        }
        FrameCase::WrongDestination | FrameCase::OddTypeOrVersion | FrameCase::OddControl => {
            odd_header(case, rng, spec)
        }
        FrameCase::BadBeacon => bad_beacon(rng, spec),
        FrameCase::Garbage => {
            let len = rng.between(0, 140);
            rng.octets(len)
        }
        FrameCase::GarbageSummed => {
            let len = rng.between(0, 125);
            summed(&rng.octets(len))
        }
        FrameCase::FlippedBit
        | FrameCase::FlippedBitSummed
        | FrameCase::Truncated
        | FrameCase::TruncatedSummed
        | FrameCase::Lengthened => changed(case, rng, spec),
        _ => secured_case(case, rng, spec),
    }
}

/// A secured frame, right or wrong in one respect.
fn secured_case(case: FrameCase, rng: &mut Rng, spec: &SiteSpec) -> Vec<u8> {
    let mut secured = Secured::random(rng, spec);
    let counter = secured.device.counter;
    let security = &mut secured.plan.security;
    match case {
        FrameCase::CounterBorder => {
            let next = [counter, counter.wrapping_sub(1), counter.wrapping_add(1)];
            let ends = [0, 0xffff_fffd, 0xffff_fffe, 0xffff_ffff];
            security.counter = if rng.chance(50) { rng.pick(&next) } else { rng.pick(&ends) };
        }
        FrameCase::Replayed => {
            let back = rng.pick(&[1, 1, 2, 0x100, 0x1_0000]);
            security.counter = counter.saturating_sub(back);
        }
        FrameCase::LegacySecured => secured.plan.header.version = 0,
        FrameCase::LevelZeroSecured => {
            security.level = 0;
            return secured.plan.bare();
        }
        FrameCase::WrongKey => secured.key[rng.below(16)] ^= 1 << rng.below(8),
        _ => {}
    }
    let mut frame = secured.plan.seal(&secured.key, secured.device.extended);
    let tag_len = tag_len(secured.plan.security.level);
    if case == FrameCase::WrongTag && tag_len > 0 {
        let at = frame.len() - FCS_LEN - 1 - rng.below(tag_len);
        frame[at] ^= 1 << rng.below(8);
        frame = summed_again(&frame);
    }
    frame
}

/// A good frame with octets changed, taken away or added.
fn changed(case: FrameCase, rng: &mut Rng, spec: &SiteSpec) -> Vec<u8> {
    let good = rng.pick(&[FrameCase::Secured, FrameCase::Secured, FrameCase::Unsecured]);
    let mut frame = frame_of(good, rng, spec);
    let at = rng.below(frame.len());
    match case {
        FrameCase::FlippedBit => frame[at] ^= 1 << rng.below(8),
        FrameCase::FlippedBitSummed => {
            // Flips in the first 24 octets hit headers more often.
            let at = if rng.chance(60) { at.min(rng.below(24)) } else { at };
            frame[at] ^= 1 << rng.below(8);
            frame = summed_again(&frame);
        }
        FrameCase::Truncated => frame.truncate(at),
        FrameCase::TruncatedSummed => {
            frame.truncate(at);
            frame = summed(&frame);
        }
        _ => {
            frame.truncate(frame.len() - FCS_LEN);
            let more = rng.between(1, 20);
            frame.extend(rng.octets(more));
            frame = summed(&frame);
        }
    }
    frame
}

fn acknowledgment(rng: &mut Rng) -> Plan {
    let header = Header {
        kind: ACKNOWLEDGMENT,
        pending: rng.bit(50),
        request: rng.bit(10),
        version: rng.bit(30),
        sequence: rng.octet(),
        ..Header::default()
    };
    Plan { header, spare: draw_spare(rng), ..Plan::default() }
}

/// An unsecured beacon, data or command frame.
fn unsecured(rng: &mut Rng, spec: &SiteSpec) -> Plan {
    let kind = rng.pick(&[BEACON, DATA, DATA, COMMAND, COMMAND]);
    let mut source = spec.draw_peer(rng);
    if kind == BEACON && rng.chance(70) {
        source.pan = spec.settings.pan;
    }
    if kind != BEACON && rng.chance(15) {
        source = Address::default();
    }
    let mut plan = Plan {
        header: draw_header(rng, spec, kind, source),
        spare: draw_spare(rng),
        ..Plan::default()
    };
    plan.header.version = rng.bit(50);
    let command = rng.pick(&[1, 1, 4, 4, 2, 7, 9, 0]);
    plan.draw_payloads(rng, command);
    plan
}

/// A frame whose header does not fit the site or itself.
fn odd_header(case: FrameCase, rng: &mut Rng, spec: &SiteSpec) -> Vec<u8> {
    let mut plan = unsecured(rng, spec);
    let header = &mut plan.header;
    match case {
        FrameCase::WrongDestination => {
            let pan = spec.settings.pan ^ rng.pick(&[0, 0, 1, 0x100]);
            let (short, bit) = (spec.settings.short, rng.below(64));
            header.destination = match rng.chance(50) {
                true => Address::short(pan, u64::from(short ^ 1 << (bit % 16))),
                false => Address::extended(pan, spec.settings.extended ^ 1 << bit),
            };
            header.compression = 0;
        }
        FrameCase::OddTypeOrVersion => match rng.chance(50) {
            true => header.kind = rng.between(4, 7) as u8,
            false => header.version = rng.between(2, 3) as u8,
        },
        _ => {
            let mut frame = plan.bare();
            frame[0] = if rng.chance(50) { frame[0] ^ 0x40 } else { rng.octet() };
            frame[1] = if rng.chance(50) { frame[1] & 0x30 | rng.octet() } else { frame[1] };
            return summed_again(&frame);
        }
    }
    plan.private.truncate(plan.room());
    plan.bare()
}

/// A beacon with more pending addresses than it has or than are allowed.
fn bad_beacon(rng: &mut Rng, spec: &SiteSpec) -> Vec<u8> {
    let source = spec.draw_peer(rng);
    let mut plan = unsecured(rng, spec);
    plan.header = draw_header(rng, spec, BEACON, Address { pan: spec.settings.pan, ..source });
    let short = rng.between(0, 7);
    let extended = rng.between(0, 7);
    plan.open = vec![rng.octet(), rng.octet(), rng.octet() & 0xf8];
    plan.open.push((short | extended << 4) as u8);
    let len = rng.between(0, plan.room());
    plan.private = rng.octets(len);
    plan.bare()
}

/// A header from a source to us.
fn draw_header(rng: &mut Rng, spec: &SiteSpec, kind: u8, source: Address) -> Header {
    let destination = match kind {
        BEACON => Address::default(),
        _ => draw_destination(rng, spec, &source),
    };
    let both = destination.mode != NONE && source.mode != NONE;
    let equal = destination.pan == source.pan;
    Header {
        kind,
        security: 0,
        pending: rng.bit(30),
        request: rng.bit(50),
        compression: (both && equal && rng.chance(60)).into(),
        version: 1,
        sequence: rng.octet(),
        destination,
        source,
    }
}

/// Our address, the broadcast address or, where that may do, none.
fn draw_destination(rng: &mut Rng, spec: &SiteSpec, source: &Address) -> Address {
    let settings = &spec.settings;
    let free = settings.flags & 2 == 2 && source.pan == settings.pan;
    if source.mode != NONE && (free && rng.chance(30) || rng.chance(3)) {
        return Address::default();
    }
    let pan = if rng.chance(80) { settings.pan } else { 0xffff };
    match rng.below(3) {
        0 => Address::short(pan, settings.short.into()),
        1 => Address::short(pan, 0xffff),
        _ => Address::extended(pan, settings.extended),
    }
}

/// Ignored bits, mostly zero.
fn draw_spare(rng: &mut Rng) -> u8 {
    if rng.chance(20) {
        rng.below(8) as u8
    } else {
        0
    }
}

/// A secured frame that should be accepted, with its key and originator.
struct Secured {
    plan: Plan,
    key: [u8; 16],
    device: Device,
}

impl Secured {
    /// Draws a lookup record, then a device, a use and a level that fit it;
    /// where none fits, any.
    fn random(rng: &mut Rng, spec: &SiteSpec) -> Self {
        let any = Lookup { mode: rng.below(4) as u8, ..Lookup::default() };
        let lookup = rng.pick_any(&spec.lookups).unwrap_or(any);
        let key = spec.keys.get(usize::from(lookup.key)).copied().unwrap_or_default();
        let (source, device) = draw_source(rng, spec, &lookup);
        let (mut kind, command) = draw_use(rng, spec, lookup.key);
        if source.mode == NONE && kind == BEACON {
            kind = DATA;
        }
        let ahead = rng.pick(&[0, 0, 0, 1, 2, 0x100]);
        let mut plan = Plan {
            header: draw_header(rng, spec, kind, source),
            security: Security {
                level: draw_level(rng, spec, kind, command),
                keymode: lookup.mode,
                counter: device.counter.saturating_add(ahead).min(0xffff_fffe),
                keysource: lookup.source,
                keyindex: lookup.index,
            },
            spare: draw_spare(rng),
            security_spare: draw_spare(rng),
            ..Plan::default()
        };
        plan.header.security = 1;
        plan.draw_payloads(rng, command);
        Secured { plan, key, device }
    }
}

/// A device of the lookup record's key and a source address that means it.
fn draw_source(rng: &mut Rng, spec: &SiteSpec, lookup: &Lookup) -> (Address, Device) {
    let stand_in = spec.stand_in();
    let mut choices = Vec::new();
    for handle in spec.handles.iter().filter(|handle| handle.key == lookup.key) {
        let device = spec.devices[usize::from(handle.device)];
        let forms = [
            Address::short(device.pan, device.short.into()),
            Address::extended(device.pan, device.extended),
        ];
        for form in forms.into_iter().filter(|form| lookup.mode > 0 || is_peer(lookup, form)) {
            choices.push((form, device));
            if form == stand_in {
                choices.push((Address::default(), device));
            }
        }
    }
    rng.pick_any(&choices).unwrap_or_else(|| {
        let device = rng.pick_any(&spec.devices).unwrap_or_default();
        (spec.draw_peer(rng), device)
    })
}

/// Says whether a lookup record of mode 0 names the address.
fn is_peer(lookup: &Lookup, form: &Address) -> bool {
    let used = if form.mode == SHORT { 0xffff } else { u64::MAX };
    Address { address: lookup.peer.address & used, ..lookup.peer } == *form
}

/// A type and command that the key may be used for and a level record names.
fn draw_use(rng: &mut Rng, spec: &SiteSpec, key: u8) -> (u8, u8) {
    let choices: Vec<(u8, u8)> = spec
        .usages
        .iter()
        .filter(|usage| usage.key == key && usage.kind != ACKNOWLEDGMENT)
        .map(|usage| (usage.kind, usage.command))
        .filter(|&(kind, command)| rng.chance(10) || level_passes(spec, kind, command, None))
        .collect();
    let any = (rng.pick(&[BEACON, DATA, COMMAND]), rng.pick(&[1, 2, 4, 7]));
    match rng.pick_any(&choices) {
        Some(choice) if rng.chance(95) => choice,
        _ => any,
    }
}

/// A level that the policy passes, if there is one, and mostly.
fn draw_level(rng: &mut Rng, spec: &SiteSpec, kind: u8, command: u8) -> u8 {
    let choices: Vec<u8> =
        (1..=7).filter(|&level| level_passes(spec, kind, command, Some(level))).collect();
    match rng.pick_any(&choices) {
        Some(level) if rng.chance(95) => level,
        _ => rng.between(1, 7) as u8,
    }
}

/// Says whether the first level record passes the level, or some level.
fn level_passes(spec: &SiteSpec, kind: u8, command: u8, level: Option<u8>) -> bool {
    let names = |record: &&super::sites::Level| {
        record.kind == kind && (kind != COMMAND || record.command == command)
    };
    let Some(record) = spec.levels.iter().find(names) else {
        return false;
    };
    let passes = |level: u8| match record.allowed {
        0 => at_least(level, record.minimum),
        set => set >> level & 1 == 1,
    };
    level.map_or((1..=7).any(passes), passes)
}

/// Frames one after the other, each behind its length octet.
pub fn run_of<F: AsRef<[u8]>>(frames: &[F]) -> Vec<u8> {
    let mut run = Vec::new();
    for frame in frames.iter().map(AsRef::as_ref) {
        run.push(frame.len() as u8);
        run.extend(frame);
    }
    run
}

/// An input of the log program: file length, file, frames.
pub fn log_of<F: AsRef<[u8]>>(file: &[u8], frames: &[F]) -> Vec<u8> {
    let mut input = (file.len() as u16).to_le_bytes().to_vec();
    input.extend(file);
    input.extend(run_of(frames));
    input
}

/// A random input of the log program for a site: so many frames, mostly whole.
pub fn log_input(rng: &mut Rng, spec: &SiteSpec, frames: usize) -> Vec<u8> {
    let mut sent: Vec<Vec<u8>> = Vec::new();
    for _ in 0..frames {
        let frame = match sent.is_empty() || rng.chance(90) {
            true => frame(rng, spec).1,
            false => sent[rng.below(sent.len())].clone(),
        };
        sent.push(frame);
    }
    let mut input = log_of(&spec.encode(), &sent);
    if rng.chance(10) {
        input.truncate(rng.below(input.len() + 1));
    }
    input
}
