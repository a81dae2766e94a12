//! Dividing a frame: header, security header, open and private payload, tag.

use crate::octets::{number, u32_at, Writer};

pub const BEACON: u8 = 0;
pub const DATA: u8 = 1;
pub const ACKNOWLEDGMENT: u8 = 2;
pub const COMMAND: u8 = 3;

pub const NONE: u8 = 0;
pub const SHORT: u8 = 2;
pub const EXTENDED: u8 = 3;

/// The octets of the FCS.
pub const FCS_LEN: usize = 2;
/// The longest frame.
pub const MAX_LEN: usize = 127;

/// An address and its PAN; all zero where absent.
#[derive(Clone, Copy, Debug, Default, PartialEq, Eq)]
pub struct Address {
    pub mode: u8,
    pub pan: u16,
    /// The octets as a number, least first.
    pub address: u64,
}

impl Address {
    pub fn short(pan: u16, address: u64) -> Self {
        Address { mode: SHORT, pan, address }
    }

    pub fn extended(pan: u16, address: u64) -> Self {
        Address { mode: EXTENDED, pan, address }
    }
}

/// The header's fields, 0 where absent.
#[derive(Clone, Copy, Debug, Default, PartialEq, Eq)]
pub struct Header {
    pub kind: u8,
    pub security: u8,
    pub pending: u8,
    /// Acknowledge request.
    pub request: u8,
    pub compression: u8,
    pub version: u8,
    pub sequence: u8,
    pub destination: Address,
    pub source: Address,
}

/// The security header, 0 where absent. A short key source has zeros behind.
#[derive(Clone, Copy, Debug, Default, PartialEq, Eq)]
pub struct Security {
    pub level: u8,
    pub keymode: u8,
    pub counter: u32,
    pub keysource: [u8; 8],
    pub keyindex: u8,
}

/// A frame divided behind its header: where each part starts.
#[derive(Clone, Copy, Debug, Default, PartialEq, Eq)]
pub struct Parts {
    pub security: Security,
    pub open_at: usize,
    pub private_at: usize,
    pub tag_at: usize,
    pub fcs_at: usize,
}

/// The octets of an address of this mode.
pub fn address_len(mode: u8) -> usize {
    match mode {
        SHORT => 2,
        EXTENDED => 8,
        _ => 0,
    }
}

/// The octets of a tag at this level.
pub fn tag_len(level: u8) -> usize {
    [0, 4, 8, 16][usize::from(level % 4)]
}

/// The octets of a key source in this key mode.
pub fn keysource_len(keymode: u8) -> usize {
    [0, 0, 4, 8][usize::from(keymode)]
}

/// The octets of a security header in this key mode.
pub fn security_len(keymode: u8) -> usize {
    [5, 6, 10, 14][usize::from(keymode)]
}

/// Takes fields from the front, none past the end.
struct Reader<'a> {
    octets: &'a [u8],
    at: usize,
}

impl<'a> Reader<'a> {
    fn take(&mut self, count: usize) -> Option<&'a [u8]> {
        let field = self.octets.get(self.at..self.at + count)?;
        self.at += count;
        Some(field)
    }

    fn octet(&mut self) -> Option<u8> {
        self.take(1).map(|field| field[0])
    }

    fn pan(&mut self) -> Option<u16> {
        self.take(2).map(|field| number(field) as u16)
    }

    fn address(&mut self, mode: u8) -> Option<u64> {
        self.take(address_len(mode)).map(number)
    }
}

/// The header of a frame of at least 5 octets and its length, or nothing
/// where the header is malformed.
pub fn read_header(frame: &[u8]) -> Option<(Header, usize)> {
    let body = &frame[..frame.len() - FCS_LEN];
    let mut header = control(body[0], body[1]);
    header.sequence = body[2];
    if !shape_holds(&header, frame.len()) {
        return None;
    }
    let mut reader = Reader { octets: body, at: 3 };
    if header.destination.mode != NONE {
        header.destination.pan = reader.pan()?;
        header.destination.address = reader.address(header.destination.mode)?;
    }
    if header.source.mode != NONE {
        header.source.pan = match header.compression {
            1 => header.destination.pan,
            _ => reader.pan()?,
        };
        header.source.address = reader.address(header.source.mode)?;
    }
    Some((header, reader.at))
}

/// The fields of the frame control.
fn control(low: u8, high: u8) -> Header {
    let bit = |number: u8| low >> number & 1;
    let mode = |mode: u8| Address { mode, ..Address::default() };
    Header {
        kind: low & 7,
        security: bit(3),
        pending: bit(4),
        request: bit(5),
        compression: bit(6),
        version: high >> 4 & 3,
        sequence: 0,
        destination: mode(high >> 2 & 3),
        source: mode(high >> 6),
    }
}

/// Says whether the frame control fits itself, its type and the length.
fn shape_holds(header: &Header, len: usize) -> bool {
    let (to, from) = (header.destination.mode, header.source.mode);
    let modes = to != 1 && from != 1;
    let compression = header.compression == 0 || to != NONE && from != NONE;
    let bare = header.security == 0 && len == 5;
    modes
        && compression
        && addresses_hold(header.kind, to, from)
        && (header.kind != ACKNOWLEDGMENT || bare)
}

/// Says whether a frame of this type may have just these addresses.
pub fn addresses_hold(kind: u8, to: u8, from: u8) -> bool {
    match kind {
        BEACON => to == NONE && from != NONE,
        DATA | COMMAND => to != NONE || from != NONE,
        ACKNOWLEDGMENT => to == NONE && from == NONE,
        _ => true,
    }
}

/// Divides what stands behind the header, or nothing where malformed.
pub fn divide(frame: &[u8], header: &Header, header_len: usize) -> Option<Parts> {
    let fcs_at = frame.len() - FCS_LEN;
    let mut reader = Reader { octets: &frame[..fcs_at], at: header_len };
    let security = match header.security {
        1 => read_security(&mut reader)?,
        _ => Security::default(),
    };
    let open_at = reader.at;
    let private_at = open_at + open_len(header.kind, &frame[open_at..fcs_at])?;
    let tag_at = fcs_at.checked_sub(tag_len(security.level))?;
    let parts = Parts { security, open_at, private_at, tag_at, fcs_at };
    (private_at <= tag_at).then_some(parts)
}

/// The security header at the reader's place.
fn read_security(reader: &mut Reader) -> Option<Security> {
    let control = reader.octet()?;
    let keymode = control >> 3 & 3;
    let field = reader.take(security_len(keymode) - 1)?;
    let (source, index) = field[4..].split_at(keysource_len(keymode));
    let mut security = Security {
        level: control & 7,
        keymode,
        counter: u32_at(field, 0),
        keysource: [0; 8],
        keyindex: index.first().copied().unwrap_or(0),
    };
    security.keysource[..source.len()].copy_from_slice(source);
    Some(security)
}

/// The length of the open payload that starts the given octets, or nothing
/// where it does not fit or announces more than 7 pending addresses.
pub fn open_len(kind: u8, payload: &[u8]) -> Option<usize> {
    let mut reader = Reader { octets: payload, at: 0 };
    match kind {
        BEACON => {
            reader.take(2)?;
            let slots = usize::from(reader.octet()? & 7);
            if slots > 0 {
                reader.take(1 + 3 * slots)?;
            }
            let pending = reader.octet()?;
            let (short, extended) = (usize::from(pending & 7), usize::from(pending >> 4 & 7));
            if short + extended > 7 {
                return None;
            }
            reader.take(2 * short + 8 * extended)?;
        }
        COMMAND => {
            reader.take(1)?;
        }
        _ => {}
    }
    Some(reader.at)
}

/// The octets of a header as written.
pub fn header_len(header: &Header) -> usize {
    let with_pan = |mode, pan| if mode == NONE { 0 } else { pan + address_len(mode) };
    let source_pan = if header.compression == 1 { 0 } else { 2 };
    3 + with_pan(header.destination.mode, 2) + with_pan(header.source.mode, source_pan)
}

/// Writes the header; ignored bits are zero.
pub fn write_header(header: &Header, writer: &mut Writer) {
    let low = header.kind
        | header.security << 3
        | header.pending << 4
        | header.request << 5
        | header.compression << 6;
    let (to, from) = (&header.destination, &header.source);
    writer.put(&[low, to.mode << 2 | header.version << 4 | from.mode << 6, header.sequence]);
    if to.mode != NONE {
        writer.number(to.pan.into(), 2);
        writer.number(to.address, address_len(to.mode));
    }
    if from.mode != NONE {
        if header.compression == 0 {
            writer.number(from.pan.into(), 2);
        }
        writer.number(from.address, address_len(from.mode));
    }
}

/// Writes the security header; ignored bits are zero.
pub fn write_security(security: &Security, writer: &mut Writer) {
    writer.put(&[security.level | security.keymode << 3]);
    writer.number(security.counter.into(), 4);
    writer.put(&security.keysource[..keysource_len(security.keymode)]);
    if security.keymode > 0 {
        writer.put(&[security.keyindex]);
    }
}
