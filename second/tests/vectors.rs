//! Published vectors of AES-128 and CCM.

use std::fs;

use second::aes::{Aes, SBOX};
use second::ccm::{seal, unseal};
use second::testkit::hex;

fn file(name: &str) -> String {
    let path = format!("{}/vectors/{name}", env!("CARGO_MANIFEST_DIR"));
    fs::read_to_string(path).expect("a vector file")
}

fn array<const N: usize>(text: &str) -> [u8; N] {
    hex(text).try_into().expect("the right number of octets")
}

/// The word behind a label, without its comma or colon.
fn after<'a>(line: &'a str, label: &str) -> &'a str {
    let mut words = line.split_whitespace();
    words.find(|word| *word == label).expect("the label");
    words.next().expect("a value").trim_end_matches([',', ':'])
}

fn check_block(key: &str, line: &str) {
    let cipher = Aes::new(&array(key));
    let expected: [u8; 16] = array(after(line, "cipher"));
    assert_eq!(cipher.encrypt(&array(after(line, "block"))), expected, "{line}");
}

#[test]
fn fips_197_appendix_b() {
    let text = file("vectors.txt");
    let line = text.lines().find(|line| line.starts_with("FIPS 197 Appendix B")).unwrap();
    check_block(after(line, "key"), line);
}

#[test]
fn fips_197_appendix_c_1() {
    let text = file("vectors.txt");
    let line = text.lines().find(|line| line.starts_with("FIPS 197 Appendix C.1")).unwrap();
    check_block(after(line, "key"), line);
}

#[test]
fn sp_800_38a_ecb() {
    let text = file("vectors.txt");
    let mut lines = text.lines().skip_while(|line| !line.starts_with("SP 800-38A F.1.1"));
    let key = after(lines.next().unwrap(), "key");
    let blocks: Vec<&str> = lines.take_while(|line| line.starts_with("  block")).collect();
    assert_eq!(blocks.len(), 4);
    for line in blocks {
        check_block(key, line);
    }
}

#[test]
fn sbox_is_affine_image_of_inverse() {
    let product = |mut a: u8, mut b: u8| {
        let mut sum = 0;
        while b > 0 {
            sum ^= a * (b & 1);
            a = (a << 1) ^ ((a >> 7) * 0x1b);
            b >>= 1;
        }
        sum
    };
    assert_eq!(product(0x57, 0x83), 0xc1);
    for octet in 0..=255u8 {
        let inverse = (0..=255).find(|&other| product(octet, other) == 1).unwrap_or(0);
        let turned = (0..5).fold(0, |sum, bits| sum ^ inverse.rotate_left(bits));
        assert_eq!(SBOX[usize::from(octet)], turned ^ 0x63);
    }
}

#[test]
fn rfc_3610_packets_1_to_6() {
    let text = file("vectors.txt");
    let mut lines = text.lines().skip_while(|line| !line.starts_with("RFC 3610"));
    let key = after(lines.next().unwrap(), "key").trim_end_matches('.');
    let cipher = Aes::new(&array(key));
    let packets: Vec<&str> = lines.filter(|line| line.contains("nonce")).take(6).collect();
    assert_eq!(packets.len(), 6);
    for line in packets {
        let nonce = array(after(line, "nonce"));
        let len: u8 = after(line, "packet").parse().unwrap();
        let data_len: usize = after(line, "a").parse().unwrap();
        let expected = hex(line.rsplit(':').next().unwrap());
        let packet: Vec<u8> = (0..len).collect();
        let (data, message) = packet.split_at(data_len);
        let mut sealed = message.to_vec();
        let tag = seal(&cipher, &nonce, data, &mut sealed, 8);
        assert_eq!([&sealed, &tag[..8]].concat(), expected, "{line}");
        assert!(unseal(&cipher, &nonce, data, &mut sealed, &tag[..8]), "{line}");
        assert_eq!(sealed, message, "{line}");
    }
}

/// One line of the CAVP file.
fn check_cavp(line: &str) -> bool {
    let words: Vec<&str> = line.split_whitespace().collect();
    let octets = |word: usize| match words[word] {
        "-" => Vec::new(),
        text => hex(text),
    };
    let tag_len: usize = words[0].parse().unwrap();
    let (cipher, nonce) = (Aes::new(&array(words[1])), array(words[2]));
    let (data, plain, mut message, tag) = (octets(3), octets(4), octets(5), octets(6));
    assert_eq!(tag.len(), tag_len, "{line}");
    let accepted = words[7] == "accepted";
    assert!(accepted || words[7] == "refused", "{line}");
    let cipher_text = message.clone();
    assert_eq!(unseal(&cipher, &nonce, &data, &mut message, &tag), accepted, "{line}");
    if accepted {
        assert_eq!(message, plain, "{line}");
        let made = seal(&cipher, &nonce, &data, &mut message, tag_len);
        assert_eq!((message, &made[..tag_len]), (cipher_text, &tag[..]), "{line}");
    }
    accepted
}

#[test]
fn cavp_every_line() {
    let text = file("vectors-ccm-cavp.txt");
    let lines = text.lines().filter(|line| !line.starts_with('#') && !line.is_empty());
    let (accepted, refused): (Vec<bool>, Vec<bool>) = lines.map(check_cavp).partition(|a| *a);
    assert_eq!((accepted.len(), refused.len()), (336, 31));
}
