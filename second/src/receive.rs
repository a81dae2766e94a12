//! Receiving a frame.

use crate::aes::Aes;
use crate::ccm;
use crate::fcs::fcs_holds;
use crate::filter;
use crate::frame::{divide, read_header, Address, Header, Parts, ACKNOWLEDGMENT, COMMAND, MAX_LEN};
use crate::site::{device_counter, device_extended, set_device_counter, site_holds, Site};
use crate::status;

/// The answer; a refusal has zeros beside its status.
#[derive(Clone, Copy, Debug, Default, PartialEq, Eq)]
pub struct Received {
    pub status: u8,
    pub header: Header,
    pub level: u8,
    pub keymode: u8,
    /// From 1; 0 at level 0.
    pub device: usize,
    /// The private length.
    pub private: usize,
    /// Where the open payload starts in the frame.
    pub start: usize,
    /// The length of the open payload.
    pub len: usize,
}

/// Receives a frame: on success the private payload stands in the output and
/// a secured frame raises its device's counter. A refusal changes nothing.
pub fn receive(site: &mut [u8], frame: &[u8], out: &mut [u8]) -> Received {
    if !site_holds(site) {
        return refusal(status::SITE);
    }
    receive_valid(site, frame, out)
}

/// The same on a site known to hold its rules.
pub fn receive_valid(site: &mut [u8], frame: &[u8], out: &mut [u8]) -> Received {
    accept(site, frame, out).unwrap_or_else(refusal)
}

fn refusal(status: u8) -> Received {
    Received { status, ..Received::default() }
}

/// The checks in order.
fn accept(octets: &mut [u8], frame: &[u8], out: &mut [u8]) -> Result<Received, u8> {
    let site = Site::new(octets);
    let (header, header_len) = read(&site, frame, out.len())?;
    if header.kind == ACKNOWLEDGMENT {
        return Ok(Received { header, start: header_len, ..Received::default() });
    }
    if header.security == 1 && header.version == 0 {
        return Err(status::UNSUPPORTED_LEGACY);
    }
    let parts = divide(frame, &header, header_len).ok_or(status::MALFORMED)?;
    let level = parts.security.level;
    if header.security == 1 && (level == 0 || !site.security()) {
        return Err(status::UNSUPPORTED_SECURITY);
    }
    let peer = site.peer(&header.source);
    let command = if header.kind == COMMAND { frame[parts.open_at] } else { 0 };
    if site.security() {
        check_level(&site, &header, command, level, peer.as_ref())?;
    }
    if level == 0 {
        let private = &frame[parts.private_at..parts.tag_at];
        out[..private.len()].copy_from_slice(private);
        return Ok(answer(header, &parts, 0));
    }
    let device = unsecure(&site, frame, &header, &parts, command, peer.as_ref(), out)?;
    set_device_counter(octets, device, parts.security.counter + 1);
    Ok(answer(header, &parts, device + 1))
}

/// The checks up to the filter.
fn read(site: &Site, frame: &[u8], room: usize) -> Result<(Header, usize), u8> {
    if room < MAX_LEN {
        return Err(status::ROOM);
    }
    if frame.len() < 5 || frame.len() > MAX_LEN {
        return Err(status::LENGTH);
    }
    if !fcs_holds(frame) {
        return Err(status::FCS);
    }
    let (header, header_len) = read_header(frame).ok_or(status::MALFORMED)?;
    if !filter::passes(&header, site) {
        return Err(status::FILTERED);
    }
    Ok((header, header_len))
}

fn answer(header: Header, parts: &Parts, device: usize) -> Received {
    Received {
        status: status::SUCCESS,
        header,
        level: parts.security.level,
        keymode: parts.security.keymode,
        device,
        private: parts.tag_at - parts.private_at,
        start: parts.open_at,
        len: parts.private_at - parts.open_at,
    }
}

/// Says whether level a is at least level b in both orders.
pub fn at_least(a: u8, b: u8) -> bool {
    a / 4 >= b / 4 && a % 4 >= b % 4
}

/// The level policy.
fn check_level(
    site: &Site,
    header: &Header,
    command: u8,
    level: u8,
    peer: Option<&Address>,
) -> Result<(), u8> {
    let record = site.level(header.kind, command).ok_or(status::UNAVAILABLE_SECURITY_LEVEL)?;
    let (minimum, overridden, allowed) = (record[2], record[3] == 1, record[4]);
    let passes = match allowed {
        0 => at_least(level, minimum),
        _ => allowed >> level & 1 == 1,
    };
    if passes {
        return Ok(());
    }
    if level > 0 || !overridden {
        return Err(status::IMPROPER_SECURITY_LEVEL);
    }
    let device = site.find_any_device(peer).ok_or(status::UNAVAILABLE_DEVICE)?;
    match device[16] {
        1 => Ok(()),
        _ => Err(status::IMPROPER_SECURITY_LEVEL),
    }
}

/// Finds key and device, checks counter and tag, and writes the private
/// payload; gives the device's number from 0.
fn unsecure(
    site: &Site,
    frame: &[u8],
    header: &Header,
    parts: &Parts,
    command: u8,
    peer: Option<&Address>,
    out: &mut [u8],
) -> Result<usize, u8> {
    let security = &parts.security;
    let key = site.find_key(security, peer).ok_or(status::UNAVAILABLE_KEY)?;
    if !site.usage_holds(key, header.kind, command) {
        return Err(status::IMPROPER_KEY_TYPE);
    }
    let device = site.find_device(key, peer).ok_or(status::UNAVAILABLE_DEVICE)?;
    let record = site.device(device);
    if security.counter == u32::MAX || security.counter < device_counter(record) {
        return Err(status::COUNTER_ERROR);
    }
    let nonce = ccm::nonce(device_extended(record), security.counter, security.level);
    match open(&Aes::new(&site.key(key)), &nonce, frame, parts, out) {
        true => Ok(device),
        false => Err(status::SECURITY_ERROR),
    }
}

/// Checks the tag; only if it is right the plain private payload is written.
fn open(cipher: &Aes, nonce: &ccm::Nonce, frame: &[u8], parts: &Parts, out: &mut [u8]) -> bool {
    let private = &frame[parts.private_at..parts.tag_at];
    let tag = &frame[parts.tag_at..parts.fcs_at];
    let mut plain = [0; MAX_LEN];
    let plain = &mut plain[..private.len()];
    plain.copy_from_slice(private);
    let right = match parts.security.level {
        0..=3 => ccm::unseal(cipher, nonce, &frame[..parts.tag_at], &mut [], tag),
        _ => ccm::unseal(cipher, nonce, &frame[..parts.private_at], plain, tag),
    };
    if right {
        out[..plain.len()].copy_from_slice(plain);
    }
    right
}
