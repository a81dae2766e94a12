//! Building a frame.

use crate::aes::Aes;
use crate::ccm;
use crate::fcs::fcs;
use crate::frame::{
    addresses_hold, header_len, open_len, security_len, tag_len, write_header, write_security,
    Address, Header, Security, ACKNOWLEDGMENT, COMMAND, EXTENDED, FCS_LEN, MAX_LEN, NONE, SHORT,
};
use crate::octets::Writer;
use crate::site::{set_counter, site_holds, Site};
use crate::status;

/// What to build, beside the payloads.
#[derive(Clone, Copy, Debug, Default, PartialEq, Eq)]
pub struct Request {
    pub kind: u8,
    pub version: u8,
    pub pending: bool,
    /// Acknowledge request.
    pub request: bool,
    pub sequence: u8,
    pub destination: Address,
    pub srcmode: u8,
    pub level: u8,
    pub keymode: u8,
    pub keysource: [u8; 8],
    pub keyindex: u8,
}

/// The answer; a refusal has length 0.
#[derive(Clone, Copy, Debug, Default, PartialEq, Eq)]
pub struct Built {
    pub status: u8,
    pub len: usize,
}

/// Builds a frame: on success it stands in the output and a secured frame
/// raises the own counter. A refusal changes nothing.
pub fn build(
    site: &mut [u8],
    request: &Request,
    open: &[u8],
    private: &[u8],
    out: &mut [u8],
) -> Built {
    match make(site, request, open, private, out) {
        Ok(len) => Built { status: status::SUCCESS, len },
        Err(status) => Built { status, len: 0 },
    }
}

/// The checks in order, then the frame.
fn make(
    octets: &mut [u8],
    request: &Request,
    open: &[u8],
    private: &[u8],
    out: &mut [u8],
) -> Result<usize, u8> {
    if !site_holds(octets) {
        return Err(status::SITE);
    }
    if out.len() < MAX_LEN {
        return Err(status::ROOM);
    }
    let site = Site::new(octets);
    if !request_holds(&site, request, open, private) {
        return Err(status::INVALID_PARAMETER);
    }
    if request.level > 0 && !site.security() {
        return Err(status::UNSUPPORTED_SECURITY);
    }
    let header = header(&site, request);
    if frame_len(&header, request, open.len() + private.len()) > MAX_LEN {
        return Err(status::FRAME_TOO_LONG);
    }
    if request.level == 0 {
        return Ok(write_plain(&header, open, private, out));
    }
    let security = security(&site, request)?;
    let peer = site.peer(&header.destination);
    let key = site.find_key(&security, peer.as_ref()).ok_or(status::UNAVAILABLE_KEY)?;
    let nonce = ccm::nonce(site.extended(), security.counter, security.level);
    let cipher = Aes::new(&site.key(key));
    let len = write_secured(&header, &security, &cipher, &nonce, open, private, out);
    set_counter(octets, security.counter + 1);
    Ok(len)
}

/// Says whether the request keeps its rules.
fn request_holds(site: &Site, request: &Request, open: &[u8], private: &[u8]) -> bool {
    let (to, from) = (request.destination.mode, request.srcmode);
    let fields = request.kind <= COMMAND
        && request.version <= 1
        && request.level <= 7
        && request.keymode <= 3
        && (request.level == 0 || request.version == 1);
    let modes = [to, from].iter().all(|mode| matches!(*mode, NONE | SHORT | EXTENDED))
        && (from != SHORT || site.short() < 0xfffe);
    let bare = request.level == 0 && private.is_empty();
    fields
        && modes
        && addresses_hold(request.kind, to, from)
        && (request.kind != ACKNOWLEDGMENT || bare)
        && open_len(request.kind, open) == Some(open.len())
}

/// The header of the frame; the source comes from the settings.
fn header(site: &Site, request: &Request) -> Header {
    let mut destination = Address { mode: request.destination.mode, ..Address::default() };
    if destination.mode != NONE {
        destination.pan = request.destination.pan;
        destination.address = own_form(&request.destination);
    }
    let source = match request.srcmode {
        SHORT => Address { mode: SHORT, pan: site.pan(), address: site.short().into() },
        EXTENDED => Address { mode: EXTENDED, pan: site.pan(), address: site.extended() },
        _ => Address::default(),
    };
    let both = destination.mode != NONE && source.mode != NONE;
    Header {
        kind: request.kind,
        security: (request.level > 0).into(),
        pending: u8::from(request.pending),
        request: u8::from(request.request),
        compression: (both && destination.pan == source.pan).into(),
        version: request.version,
        sequence: request.sequence,
        destination,
        source,
    }
}

/// The octets of an address that its mode uses.
fn own_form(address: &Address) -> u64 {
    match address.mode {
        SHORT => address.address & 0xffff,
        _ => address.address,
    }
}

/// The length of the whole frame.
fn frame_len(header: &Header, request: &Request, payload: usize) -> usize {
    let security = match request.level {
        0 => 0,
        level => security_len(request.keymode) + tag_len(level),
    };
    header_len(header) + security + payload + FCS_LEN
}

/// The security header, or the refusal of a spent counter.
fn security(site: &Site, request: &Request) -> Result<Security, u8> {
    match site.counter() {
        u32::MAX => Err(status::COUNTER_ERROR),
        counter => Ok(Security {
            level: request.level,
            keymode: request.keymode,
            counter,
            keysource: request.keysource,
            keyindex: request.keyindex,
        }),
    }
}

/// Writes an unsecured frame.
fn write_plain(header: &Header, open: &[u8], private: &[u8], out: &mut [u8]) -> usize {
    let mut writer = Writer::new(out);
    write_header(header, &mut writer);
    writer.put(open);
    writer.put(private);
    let len = writer.len();
    write_fcs(out, len)
}

/// Writes a secured frame.
fn write_secured(
    header: &Header,
    security: &Security,
    cipher: &Aes,
    nonce: &ccm::Nonce,
    open: &[u8],
    private: &[u8],
    out: &mut [u8],
) -> usize {
    let mut writer = Writer::new(out);
    write_header(header, &mut writer);
    write_security(security, &mut writer);
    writer.put(open);
    let private_at = writer.len();
    writer.put(private);
    let tag_at = writer.len();
    let data_len = if security.level < 4 { tag_at } else { private_at };
    let (data, message) = out[..tag_at].split_at_mut(data_len);
    let tag_len = tag_len(security.level);
    let tag = ccm::seal(cipher, nonce, data, message, tag_len);
    out[tag_at..tag_at + tag_len].copy_from_slice(&tag[..tag_len]);
    write_fcs(out, tag_at + tag_len)
}

/// Writes the FCS behind the first octets; gives the length with it.
pub fn write_fcs(out: &mut [u8], len: usize) -> usize {
    let sum = fcs(&out[..len]);
    out[len..len + FCS_LEN].copy_from_slice(&sum.to_le_bytes());
    len + FCS_LEN
}
