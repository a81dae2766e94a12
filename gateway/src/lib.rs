//! Receives and builds secured frames of IEEE Std 802.15.4-2011 over a site
//! that is loaded from a site file. The work is done by the proved archive;
//! this package only packs and unpacks what passes its boundary
//! (`include/wirdhalef.h`).
//!
//! ```no_run
//! fn main() -> Result<(), Box<dyn std::error::Error>> {
//!     let mut site = gateway::Site::load(&std::fs::read("site.bin")?)?;
//!     let mut out = [0; gateway::ROOM];
//!     let received = site.receive(&[0x02, 0x00, 0x6a, 0xe4, 0x79], &mut out);
//!     assert_eq!(received.status, 0);
//!     // Over a restart the octets are kept, not the file: they have the
//!     // counters.
//!     std::fs::write("kept.bin", site.octets())?;
//!     site = gateway::Site::from_octets(&std::fs::read("kept.bin")?)?;
//!     Ok(())
//! }
//! ```

#[cfg(linked)]
mod boundary;
// The archive is for x86-64 alone; elsewhere a program answers, for tests.
#[cfg(not(linked))]
#[path = "program.rs"]
mod boundary;
mod packed;
pub mod raw;
mod site;

pub use site::{Site, SiteError, SITE_LEN};

/// The shortest output buffer that receiving and building take.
pub const ROOM: usize = 127;

/// An address and its PAN; all zero where absent.
#[derive(Clone, Copy, Debug, Default, PartialEq, Eq)]
pub struct Address {
    /// 0 none, 2 short, 3 extended.
    pub mode: u8,
    pub pan: u16,
    /// The octets as a number, least first.
    pub address: u64,
}

/// The header's fields, 0 where absent.
#[derive(Clone, Copy, Debug, Default, PartialEq, Eq)]
pub struct Header {
    /// The frame type.
    pub kind: u8,
    pub security: u8,
    pub pending: u8,
    /// Acknowledge request.
    pub request: u8,
    pub compression: u8,
    pub version: u8,
    pub sequence: u8,
    pub destination: Address,
    pub source: Address,
}

/// The answer to a received frame; a refusal has zeros beside its status.
#[derive(Clone, Copy, Debug, Default, PartialEq, Eq)]
pub struct Received {
    pub status: u8,
    pub header: Header,
    pub level: u8,
    pub keymode: u8,
    /// From 1; 0 at level 0.
    pub device: usize,
    /// The private length.
    pub private: usize,
    /// Where the open payload starts in the frame.
    pub start: usize,
    /// The length of the open payload.
    pub len: usize,
}

/// What to build, beside the payloads.
#[derive(Clone, Copy, Debug, Default, PartialEq, Eq)]
pub struct Request {
    pub kind: u8,
    pub version: u8,
    pub pending: bool,
    /// Acknowledge request.
    pub request: bool,
    pub sequence: u8,
    pub destination: Address,
    pub srcmode: u8,
    pub level: u8,
    pub keymode: u8,
    pub keysource: [u8; 8],
    pub keyindex: u8,
}

/// The answer to a build request; a refusal has length 0.
#[derive(Clone, Copy, Debug, Default, PartialEq, Eq)]
pub struct Built {
    pub status: u8,
    pub len: usize,
}

/// The open payload of a frame, a part of it; empty where the frame cannot
/// be divided.
pub fn open_payload(frame: &[u8]) -> &[u8] {
    let place = boundary::open_payload(frame);
    let (start, len) = ((place >> 16) as usize, (place & 0xffff) as usize);
    &frame[start..start + len]
}
