//! Numbers in octets, least octet first.

/// The number held by all the octets, at most eight.
pub fn number(octets: &[u8]) -> u64 {
    octets.iter().rev().fold(0, |sum, &octet| sum << 8 | u64::from(octet))
}

/// The two octets at a place as a number.
pub fn u16_at(octets: &[u8], at: usize) -> u16 {
    u16::from_le_bytes([octets[at], octets[at + 1]])
}

/// The four octets at a place as a number.
pub fn u32_at(octets: &[u8], at: usize) -> u32 {
    u32::from_le_bytes([octets[at], octets[at + 1], octets[at + 2], octets[at + 3]])
}

/// The eight octets at a place as a number.
pub fn u64_at(octets: &[u8], at: usize) -> u64 {
    number(&octets[at..at + 8])
}

/// Writes fields one after another.
pub struct Writer<'a> {
    out: &'a mut [u8],
    at: usize,
}

impl<'a> Writer<'a> {
    pub fn new(out: &'a mut [u8]) -> Self {
        Writer { out, at: 0 }
    }

    /// The octets written so far.
    pub fn len(&self) -> usize {
        self.at
    }

    /// Says whether nothing was written yet.
    pub fn is_empty(&self) -> bool {
        self.at == 0
    }

    /// Writes octets as they are.
    pub fn put(&mut self, octets: &[u8]) {
        self.out[self.at..self.at + octets.len()].copy_from_slice(octets);
        self.at += octets.len();
    }

    /// Writes the lowest `count` octets of a number.
    pub fn number(&mut self, value: u64, count: usize) {
        self.put(&value.to_le_bytes()[..count]);
    }
}
