//! The filter: which well-formed frames are for us.

use crate::frame::{Header, BEACON, COMMAND, DATA, EXTENDED, NONE, SHORT};
use crate::site::Site;

/// The broadcast PAN and the broadcast short address.
const BROADCAST: u16 = 0xffff;

/// Says whether no rule drops the frame.
pub fn passes(header: &Header, site: &Site) -> bool {
    header.kind <= COMMAND
        && header.version <= 1
        && destination_passes(header, site)
        && source_passes(header, site)
}

/// The rules on a destination that stands.
fn destination_passes(header: &Header, site: &Site) -> bool {
    let to = &header.destination;
    let pan = to.pan == site.pan() || to.pan == BROADCAST;
    match to.mode {
        SHORT => {
            let short = to.address as u16;
            pan && (short == site.short() || short == BROADCAST)
        }
        EXTENDED => pan && to.address == site.extended(),
        _ => true,
    }
}

/// The rules on frames without destination.
fn source_passes(header: &Header, site: &Site) -> bool {
    let ours = header.source.pan == site.pan();
    match header.kind {
        BEACON => ours || site.pan() == BROADCAST,
        DATA | COMMAND if header.destination.mode == NONE => site.coordinator() && ours,
        _ => true,
    }
}
