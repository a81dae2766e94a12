//! The frame check sequence: degree 16 with terms 12, 5 and 0, start zero,
//! bit 0 of each octet first.

/// The remainder of each octet, in bit-reversed form.
static TABLE: [u16; 256] = table();

const fn table() -> [u16; 256] {
    let mut table = [0u16; 256];
    let mut octet = 0;
    while octet < 256 {
        let mut rest = octet as u16;
        let mut bit = 0;
        while bit < 8 {
            rest = if rest & 1 == 1 { rest >> 1 ^ 0x8408 } else { rest >> 1 };
            bit += 1;
        }
        table[octet] = rest;
        octet += 1;
    }
    table
}

/// The FCS of the octets; on air its low octet goes first.
pub fn fcs(octets: &[u8]) -> u16 {
    octets.iter().fold(0, |sum, &octet| sum >> 8 ^ TABLE[usize::from(sum as u8 ^ octet)])
}

/// Says whether the last two octets are the FCS of the others.
pub fn fcs_holds(frame: &[u8]) -> bool {
    let (body, sum) = frame.split_at(frame.len() - 2);
    fcs(body).to_le_bytes() == sum
}
