//! A site that keeps its rules, and the calls on it.

use std::error::Error;
use std::fmt;

use crate::{raw, Built, Received, Request};

/// The octets of a site.
pub const SITE_LEN: usize = 3603;

/// Why there is no site.
#[derive(Clone, Copy, Debug, PartialEq, Eq)]
pub enum SiteError {
    /// The file breaks a rule.
    File,
    /// The kept octets are no site that keeps its rules.
    Octets,
}

impl fmt::Display for SiteError {
    fn fmt(&self, f: &mut fmt::Formatter) -> fmt::Result {
        f.write_str(match self {
            SiteError::File => "the site file breaks a rule",
            SiteError::Octets => "the kept octets are no site that keeps its rules",
        })
    }
}

impl Error for SiteError {}

/// A loaded site. It keeps its rules, so no call on it answers status 1.
///
/// It cannot be cloned: two copies would build two frames under one counter.
/// It stands in one place, so moving it leaves no key behind.
pub struct Site {
    octets: Box<[u8; SITE_LEN]>,
}

impl Site {
    /// The site of a file.
    pub fn load(file: &[u8]) -> Result<Site, SiteError> {
        let mut octets = Box::new([0; SITE_LEN]);
        // The length is right, so the one refusal is for the file.
        match raw::load(file, &mut octets[..]) {
            0 => Ok(Site { octets }),
            _ => Err(SiteError::File),
        }
    }

    /// The site whose octets were kept. Only the last that were kept will do:
    /// older ones have older counters.
    pub fn from_octets(octets: &[u8]) -> Result<Site, SiteError> {
        if !raw::site_holds(octets) {
            return Err(SiteError::Octets);
        }
        // Copied straight into its place; octets that keep the rules have the
        // length of a site.
        let mut kept = Box::new([0; SITE_LEN]);
        kept.copy_from_slice(octets);
        Ok(Site { octets: kept })
    }

    /// The site's octets, to be kept over a restart. They hold the keys and
    /// the raised counters.
    pub fn octets(&self) -> &[u8] {
        &self.octets[..]
    }

    /// Receives a frame: on success the private payload stands in the output
    /// and a secured frame raises its device's counter. A refusal changes
    /// nothing.
    pub fn receive(&mut self, frame: &[u8], out: &mut [u8]) -> Received {
        raw::receive(&mut self.octets[..], frame, out)
    }

    /// Receives frames, each a length octet and its octets, one after the
    /// other, up to the first that is cut; gives how many were accepted.
    pub fn receive_many(&mut self, frames: &[u8], out: &mut [u8]) -> u64 {
        raw::receive_many(&mut self.octets[..], frames, out)
    }

    /// Builds a frame: on success it stands in the output and a secured frame
    /// raises the own counter. A refusal changes nothing.
    pub fn build(
        &mut self,
        request: &Request,
        open: &[u8],
        private: &[u8],
        out: &mut [u8],
    ) -> Built {
        raw::build(&mut self.octets[..], request, open, private, out)
    }
}

/// Shows no octets: they hold the keys.
impl fmt::Debug for Site {
    fn fmt(&self, f: &mut fmt::Formatter) -> fmt::Result {
        f.debug_struct("Site").finish_non_exhaustive()
    }
}
