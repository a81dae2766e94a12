//! CCM* with a length field of two octets (IEEE Std 802.15.4-2011, Annex B).

use crate::aes::{xor, Aes, Block};

pub type Nonce = [u8; 13];

/// The nonce of a frame: most significant octet first.
pub fn nonce(extended: u64, counter: u32, level: u8) -> Nonce {
    let mut nonce = [0; 13];
    nonce[..8].copy_from_slice(&extended.to_be_bytes());
    nonce[8..12].copy_from_slice(&counter.to_be_bytes());
    nonce[12] = level;
    nonce
}

/// Enciphers the message in place and gives the tag in the first octets.
pub fn seal(cipher: &Aes, nonce: &Nonce, data: &[u8], message: &mut [u8], tag_len: usize) -> Block {
    let tag = tag(cipher, nonce, data, message, tag_len);
    crypt(cipher, nonce, message);
    tag
}

/// Deciphers the message in place and says whether its tag is right.
/// The message is worth nothing where the tag is wrong.
pub fn unseal(cipher: &Aes, nonce: &Nonce, data: &[u8], message: &mut [u8], given: &[u8]) -> bool {
    crypt(cipher, nonce, message);
    let right = tag(cipher, nonce, data, message, given.len());
    let difference = right.iter().zip(given).fold(0, |sum, (a, b)| sum | (a ^ b));
    difference == 0
}

/// The enciphered tag of data and plain message; zeros for length 0.
fn tag(cipher: &Aes, nonce: &Nonce, data: &[u8], message: &[u8], tag_len: usize) -> Block {
    if tag_len == 0 {
        return [0; 16];
    }
    let has_data = u8::from(!data.is_empty());
    let tag_code = (tag_len as u8 - 2) / 2;
    let flags = has_data << 6 | tag_code << 3 | 1;
    let mut sum = cipher.encrypt(&block(flags, nonce, message.len()));
    if !data.is_empty() {
        sum = authenticate_data(cipher, sum, data);
    }
    for part in message.chunks(16) {
        sum = add(cipher, sum, part);
    }
    xor(&mut sum, &cipher.encrypt(&block(1, nonce, 0)));
    sum
}

/// Adds the length and the octets of the data to the sum.
fn authenticate_data(cipher: &Aes, sum: Block, data: &[u8]) -> Block {
    let (first, rest) = data.split_at(data.len().min(14));
    let mut start = [0; 16];
    start[..2].copy_from_slice(&(data.len() as u16).to_be_bytes());
    start[2..2 + first.len()].copy_from_slice(first);
    rest.chunks(16).fold(add(cipher, sum, &start), |sum, part| add(cipher, sum, part))
}

/// One step of the CBC-MAC; a short part counts as filled with zeros.
fn add(cipher: &Aes, mut sum: Block, part: &[u8]) -> Block {
    for (octet, &more) in sum.iter_mut().zip(part) {
        *octet ^= more;
    }
    cipher.encrypt(&sum)
}

/// Adds the key stream to the message.
fn crypt(cipher: &Aes, nonce: &Nonce, message: &mut [u8]) {
    for (part, number) in message.chunks_mut(16).zip(1..) {
        let stream = cipher.encrypt(&block(1, nonce, number));
        for (octet, &more) in part.iter_mut().zip(&stream) {
            *octet ^= more;
        }
    }
}

/// A block of flags, nonce and a number of two octets.
fn block(flags: u8, nonce: &Nonce, number: usize) -> Block {
    let mut block = [0; 16];
    block[0] = flags;
    block[1..14].copy_from_slice(nonce);
    block[14..].copy_from_slice(&(number as u16).to_be_bytes());
    block
}
