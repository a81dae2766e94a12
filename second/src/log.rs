//! The log program: what it prints for a whole standard input.

use crate::file::{load, FILE_MOST};
use crate::octets::u16_at;
use crate::receive::{receive_valid, Received};
use crate::site::SITE_LEN;
use crate::status;

/// The output buffer's room.
const ROOM: usize = 127;

/// The lines for an input: file length, file, frames.
pub fn log(input: &[u8]) -> Vec<u8> {
    let mut lines = String::from("frame status octets\n");
    if print(input, &mut lines).is_none() {
        lines.push_str("CUT\n");
    }
    lines.into_bytes()
}

/// Prints the lines behind the heading; nothing if the input is cut.
fn print(input: &[u8], lines: &mut String) -> Option<()> {
    let (length, rest) = split(input, 2)?;
    let length = usize::from(u16_at(length, 0));
    if length > FILE_MOST {
        lines.push_str("SITE\n");
        return Some(());
    }
    let (file, mut rest) = split(rest, length)?;
    // Receiving only raises counters, so a loaded site keeps its rules.
    let mut site = [0; SITE_LEN];
    let loaded = load(file, &mut site) == status::SUCCESS;
    let mut out = [0; ROOM];
    let mut number = 0;
    while let Some((&len, behind)) = rest.split_first() {
        let (frame, behind) = split(behind, len.into())?;
        let received = match loaded {
            true => receive_valid(&mut site, frame, &mut out),
            false => Received { status: status::SITE, ..Received::default() },
        };
        number += 1;
        let name = status::NAMES[usize::from(received.status)];
        lines.push_str(&format!("{number} {name} {}\n", received.private));
        rest = behind;
    }
    Some(())
}

/// The first octets and the rest, or nothing where there are too few.
fn split(octets: &[u8], at: usize) -> Option<(&[u8], &[u8])> {
    (at <= octets.len()).then(|| octets.split_at(at))
}
