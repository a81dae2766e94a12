//! The functions of the boundary over plain octets, as C has them: each takes
//! a site of any content and length and says by its answer whether the rules
//! hold. `Site` is the same with the rules kept by its type.

use crate::{boundary, packed, Built, Received, Request};

/// Makes the site of a file and gives the status: 1 where the file breaks a
/// rule, else 2 where the site has not its length, else 0. A refusal changes
/// nothing.
pub fn load(file: &[u8], site: &mut [u8]) -> u8 {
    boundary::load(file, site)
}

/// Says whether the site keeps its rules.
pub fn site_holds(site: &[u8]) -> bool {
    boundary::site_holds(site) == 1
}

/// Receives a frame: on success the private payload stands in the output and
/// a secured frame raises its device's counter. A refusal changes nothing.
pub fn receive(site: &mut [u8], frame: &[u8], out: &mut [u8]) -> Received {
    let mut answer = [0; packed::ANSWER_LEN];
    boundary::receive(site, frame, out, &mut answer);
    packed::received(&answer)
}

/// Receives frames, each a length octet and its octets, one after the other,
/// up to the first that is cut; gives how many were accepted. The site's
/// rules are checked once; where they are broken nothing is received.
pub fn receive_many(site: &mut [u8], frames: &[u8], out: &mut [u8]) -> u64 {
    boundary::receive_many(site, frames, out)
}

/// Builds a frame: on success it stands in the output and a secured frame
/// raises the own counter. A refusal changes nothing.
pub fn build(
    site: &mut [u8],
    request: &Request,
    open: &[u8],
    private: &[u8],
    out: &mut [u8],
) -> Built {
    let answer = boundary::build(site, &packed::request(request), open, private, out);
    Built { status: answer as u8, len: (answer >> 8) as usize }
}
