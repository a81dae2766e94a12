//! Random build requests, good and broken.

use super::frames::{open_payload, Plan};
use super::rng::Rng;
use super::sites::SiteSpec;
use crate::build::Request;
use crate::frame::{
    Address, Header, Security, ACKNOWLEDGMENT, BEACON, COMMAND, DATA, EXTENDED, NONE, SHORT,
};

/// A build request and its payloads.
#[derive(Clone, Debug, Default, PartialEq, Eq)]
pub struct BuildInput {
    pub request: Request,
    pub open: Vec<u8>,
    pub private: Vec<u8>,
}

/// A way to break one rule of a request; each gets status 17.
#[derive(Clone, Copy, Debug, PartialEq, Eq)]
pub enum RequestBreakage {
    TypeOver,
    VersionOver,
    LevelOver,
    KeyModeOver,
    LegacySecured,
    DestinationModeOne,
    DestinationModeOver,
    SourceModeOne,
    SourceModeOver,
    /// Needs a site whose short address is 0xfffe or more.
    ShortSourceUnset,
    BeaconDestination,
    BeaconNoSource,
    DataNoAddress,
    CommandNoAddress,
    AcknowledgmentLevel,
    AcknowledgmentOpen,
    AcknowledgmentPrivate,
    AcknowledgmentDestination,
    AcknowledgmentSource,
    DataOpen,
    CommandOpenEmpty,
    CommandOpenLong,
    BeaconOpenShort,
    BeaconOpenLong,
    BeaconPendingSum,
}

impl RequestBreakage {
    pub const ALL: [RequestBreakage; 25] = [
        RequestBreakage::TypeOver,
        RequestBreakage::VersionOver,
        RequestBreakage::LevelOver,
        RequestBreakage::KeyModeOver,
        RequestBreakage::LegacySecured,
        RequestBreakage::DestinationModeOne,
        RequestBreakage::DestinationModeOver,
        RequestBreakage::SourceModeOne,
        RequestBreakage::SourceModeOver,
        RequestBreakage::ShortSourceUnset,
        RequestBreakage::BeaconDestination,
        RequestBreakage::BeaconNoSource,
        RequestBreakage::DataNoAddress,
        RequestBreakage::CommandNoAddress,
        RequestBreakage::AcknowledgmentLevel,
        RequestBreakage::AcknowledgmentOpen,
        RequestBreakage::AcknowledgmentPrivate,
        RequestBreakage::AcknowledgmentDestination,
        RequestBreakage::AcknowledgmentSource,
        RequestBreakage::DataOpen,
        RequestBreakage::CommandOpenEmpty,
        RequestBreakage::CommandOpenLong,
        RequestBreakage::BeaconOpenShort,
        RequestBreakage::BeaconOpenLong,
        RequestBreakage::BeaconPendingSum,
    ];

    /// The breakage's name.
    pub fn name(&self) -> String {
        format!("{self:?}")
    }

    /// The type of frame in which this rule can be broken; any if none.
    fn kind(&self) -> Option<u8> {
        use RequestBreakage::*;
        match self {
            BeaconDestination | BeaconNoSource | BeaconOpenShort | BeaconOpenLong
            | BeaconPendingSum => Some(BEACON),
            DataNoAddress | DataOpen => Some(DATA),
            CommandNoAddress | CommandOpenEmpty | CommandOpenLong => Some(COMMAND),
            AcknowledgmentLevel
            | AcknowledgmentOpen
            | AcknowledgmentPrivate
            | AcknowledgmentDestination
            | AcknowledgmentSource => Some(ACKNOWLEDGMENT),
            _ => None,
        }
    }

    /// A request that breaks this rule.
    pub fn apply(&self, rng: &mut Rng, spec: &SiteSpec) -> BuildInput {
        let any = rng.pick(&[BEACON, DATA, COMMAND]);
        let mut input = request_of(self.kind().unwrap_or(any), rng, spec);
        if !self.break_field(rng, &mut input.request) {
            self.break_payload(rng, &mut input);
        }
        input
    }

    /// Breaks a field; false where the rule is about a payload.
    fn break_field(&self, rng: &mut Rng, request: &mut Request) -> bool {
        use RequestBreakage::*;
        match self {
            TypeOver => request.kind = rng.between(4, 255) as u8,
            VersionOver => request.version = rng.between(2, 255) as u8,
            LevelOver => request.level = rng.between(8, 255) as u8,
            KeyModeOver => request.keymode = rng.between(4, 255) as u8,
            LegacySecured => {
                request.version = 0;
                request.level = rng.between(1, 7) as u8;
            }
            DestinationModeOne => request.destination.mode = 1,
            DestinationModeOver => request.destination.mode = rng.between(4, 255) as u8,
            SourceModeOne => request.srcmode = 1,
            SourceModeOver => request.srcmode = rng.between(4, 255) as u8,
            ShortSourceUnset => request.srcmode = SHORT,
            BeaconDestination | AcknowledgmentDestination => {
                request.destination.mode = rng.pick(&[SHORT, EXTENDED]);
            }
            BeaconNoSource => request.srcmode = NONE,
            DataNoAddress | CommandNoAddress => {
                request.srcmode = NONE;
                request.destination.mode = NONE;
            }
            AcknowledgmentLevel => {
                request.version = 1;
                request.level = rng.between(1, 7) as u8;
            }
            AcknowledgmentSource => request.srcmode = EXTENDED,
            _ => return false,
        }
        true
    }

    /// Breaks a payload.
    fn break_payload(&self, rng: &mut Rng, input: &mut BuildInput) {
        use RequestBreakage::*;
        match self {
            CommandOpenEmpty => input.open.clear(),
            BeaconOpenShort => input.open.truncate(rng.below(input.open.len())),
            BeaconPendingSum => {
                let short = rng.between(1, 7);
                let extended = rng.between(8 - short, 7);
                input.open = vec![0, 0, 0, (short | extended << 4) as u8];
                input.open.extend(rng.octets(2 * short + 8 * extended));
            }
            AcknowledgmentPrivate => input.private = vec![rng.octet()],
            _ => input.open.push(rng.octet()),
        }
    }
}

/// A random request for a site; most are good.
pub fn request(rng: &mut Rng, spec: &SiteSpec) -> BuildInput {
    if rng.chance(15) {
        let breakage = rng.pick(&RequestBreakage::ALL);
        return breakage.apply(rng, spec);
    }
    let kind = rng.pick(&[BEACON, DATA, DATA, DATA, COMMAND, COMMAND, ACKNOWLEDGMENT]);
    request_of(kind, rng, spec)
}

/// A request of this type that keeps every rule; its frame may be too long
/// and its key or counter may be missing.
pub fn request_of(kind: u8, rng: &mut Rng, spec: &SiteSpec) -> BuildInput {
    let mut request = Request {
        kind,
        version: rng.bit(50),
        pending: rng.chance(30),
        request: rng.chance(50),
        sequence: rng.octet(),
        ..Request::default()
    };
    if kind == ACKNOWLEDGMENT {
        return BuildInput { request, ..BuildInput::default() };
    }
    if rng.chance(75) {
        request.version = 1;
        request.level = rng.between(1, 7) as u8;
    }
    draw_key(rng, spec, &mut request);
    draw_addresses(rng, spec, &mut request);
    let open = open_payload(rng, kind);
    let private = draw_private(rng, &request, spec, &open);
    BuildInput { request, open, private }
}

/// Names the key, and in mode 0 the destination, of a lookup record.
fn draw_key(rng: &mut Rng, spec: &SiteSpec, request: &mut Request) {
    request.keymode = rng.below(4) as u8;
    request.destination = spec.draw_peer(rng);
    let Some(lookup) = rng.pick_any(&spec.lookups) else {
        return;
    };
    request.keymode = lookup.mode;
    request.keyindex = lookup.index;
    request.keysource = lookup.source;
    if lookup.mode == 0 {
        request.destination = lookup.peer;
    }
    if rng.chance(5) {
        request.keysource[rng.below(8)] ^= 1;
    }
    if rng.chance(5) {
        request.keyindex ^= 1;
    }
}

/// Addresses that suit the type.
fn draw_addresses(rng: &mut Rng, spec: &SiteSpec, request: &mut Request) {
    let no_short = spec.settings.short >= 0xfffe;
    request.srcmode = if no_short || rng.chance(50) { EXTENDED } else { SHORT };
    if rng.chance(10) && request.kind != BEACON {
        request.srcmode = NONE;
    }
    if request.kind == BEACON || request.srcmode != NONE && rng.chance(15) {
        // The other fields of an absent destination are ignored.
        request.destination.mode = NONE;
    }
    if request.destination.mode == SHORT && rng.chance(20) {
        request.destination.address |= rng.word() << 16;
    }
}

/// A private payload around the length that just fits.
fn draw_private(rng: &mut Rng, request: &Request, spec: &SiteSpec, open: &[u8]) -> Vec<u8> {
    let source = Address { mode: request.srcmode, pan: spec.settings.pan, address: 0 };
    let both = source.mode != NONE && request.destination.mode != NONE;
    let header = Header {
        security: (request.level > 0).into(),
        compression: (both && source.pan == request.destination.pan).into(),
        destination: request.destination,
        source,
        ..Header::default()
    };
    let security =
        Security { level: request.level, keymode: request.keymode, ..Security::default() };
    let room = Plan { header, security, open: open.to_vec(), ..Plan::default() }.room();
    let len = match rng.below(10) {
        0 => room + 1,
        1 => rng.between(room, 300),
        2 => room,
        3 => rng.pick(&[0, 1, 15, 16, 17]).min(room),
        _ => rng.between(0, room),
    };
    rng.octets(len)
}
