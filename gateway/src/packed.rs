//! Answers and requests in octets, numbers least octet first.

use crate::{Address, Header, Received, Request};

/// The octets of a packed answer.
pub const ANSWER_LEN: usize = 48;
/// The octets of a packed request.
pub const REQUEST_LEN: usize = 28;

/// Takes fields from the front.
struct Reader<'a> {
    octets: &'a [u8],
}

impl Reader<'_> {
    fn number(&mut self, count: usize) -> u64 {
        let (field, rest) = self.octets.split_at(count);
        self.octets = rest;
        field.iter().rev().fold(0, |number, octet| number << 8 | u64::from(*octet))
    }

    fn octet(&mut self) -> u8 {
        self.number(1) as u8
    }

    fn size(&mut self) -> usize {
        self.number(2) as usize
    }

    fn address(&mut self) -> Address {
        Address { mode: self.octet(), pan: self.number(2) as u16, address: self.number(8) }
    }

    fn header(&mut self) -> Header {
        Header {
            kind: self.octet(),
            security: self.octet(),
            pending: self.octet(),
            request: self.octet(),
            compression: self.octet(),
            version: self.octet(),
            sequence: self.octet(),
            destination: self.address(),
            source: self.address(),
        }
    }
}

/// The answer in its octets.
pub fn received(octets: &[u8; ANSWER_LEN]) -> Received {
    let mut reader = Reader { octets };
    Received {
        status: reader.octet(),
        header: reader.header(),
        level: reader.octet(),
        keymode: reader.octet(),
        device: reader.size(),
        private: reader.size(),
        start: reader.size(),
        len: reader.size(),
    }
}

/// The octets of a request.
pub fn request(request: &Request) -> [u8; REQUEST_LEN] {
    let mut octets = [0; REQUEST_LEN];
    octets[0] = request.kind;
    octets[1] = request.version;
    octets[2] = request.pending.into();
    octets[3] = request.request.into();
    octets[4] = request.sequence;
    octets[5] = request.destination.mode;
    octets[6..8].copy_from_slice(&request.destination.pan.to_le_bytes());
    octets[8..16].copy_from_slice(&request.destination.address.to_le_bytes());
    octets[16] = request.srcmode;
    octets[17] = request.level;
    octets[18] = request.keymode;
    octets[19..27].copy_from_slice(&request.keysource);
    octets[27] = request.keyindex;
    octets
}
