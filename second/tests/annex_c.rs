//! IEEE Std 802.15.4-2011, Annex C.2: the three frames piece by piece, and
//! whole through receiving and building. The annex omits the FCS.

use second::aes::Aes;
use second::ccm::{nonce, seal, unseal};
use second::site::{device_counter_at, COUNTER_AT};
use second::testkit::{hex, known_frames, known_requests, summed_again, KnownFrame};
use second::testkit::{ANNEX_KEY, ONE, TWO};
use second::{build, receive, site_holds, Address, Built, Header, Received};

fn block(text: &str) -> [u8; 16] {
    hex(text).try_into().unwrap()
}

/// Checks nonce, cipher text and tag in both directions.
fn check_transformation(
    level: u8,
    expected_nonce: &str,
    a: &str,
    m: &str,
    c: &str,
    tag_len: usize,
) {
    let cipher = Aes::new(&ANNEX_KEY);
    let nonce = nonce(ONE, 5, level);
    assert_eq!(nonce.to_vec(), hex(expected_nonce));
    let (data, mut message) = (hex(a), hex(m));
    let tag = seal(&cipher, &nonce, &data, &mut message, tag_len);
    assert_eq!([&message, &tag[..tag_len]].concat(), hex(c));
    assert!(unseal(&cipher, &nonce, &data, &mut message, &tag[..tag_len]));
    assert_eq!(message, hex(m));
}

#[test]
fn c_2_1_beacon_transformation() {
    let a = "08 D0 84 21 43 01 00 00 00 00 48 DE AC || 02 || 05 00 00 00 || \
        55 CF 00 00 51 52 53 54";
    let c = "22 3B C1 EC 84 1A B5 53";
    check_transformation(2, "AC DE 48 00 00 00 00 01 || 00 00 00 05 || 02", a, "", c, 8);
}

#[test]
fn c_2_2_data_transformation() {
    let a = "69 DC 84 21 43 02 00 00 00 00 48 DE AC 01 00 00 00 00 48 DE AC || 04 || 05 00 00 00";
    let nonce = "AC DE 48 00 00 00 00 01 || 00 00 00 05 || 04";
    check_transformation(4, nonce, a, "61 62 63 64", "D4 3E 02 2B", 0);
}

#[test]
fn c_2_3_command_transformation() {
    let a = "2B DC 84 21 43 02 00 00 00 00 48 DE AC FF FF 01 00 00 00 00 48 DE AC || 06 || \
        05 00 00 00 || 01";
    let c = "D8 4F DE 52 90 61 F9 C6 F1";
    check_transformation(6, "AC DE 48 00 00 00 00 01 || 00 00 00 05 || 06", a, "CE", c, 8);
}

/// Tables C.1 and C.8: each block's cipher text is the next sum.
#[test]
fn c_2_sums() {
    let beacon = [
        (
            "59 AC DE 48 00 00 00 00 01 00 00 00 05 02 00 00",
            "C4 A4 D0 BD 70 73 7E 32 11 2E 51 9A CA A2 01 F1",
        ),
        (
            "00 1A 08 D0 84 21 43 01 00 00 00 00 48 DE AC 02",
            "A9 70 2C 6E E1 7E DE E0 C7 32 88 0A 40 41 7F 9C",
        ),
        (
            "05 00 00 00 55 CF 00 00 51 52 53 54 00 00 00 00",
            "AB 6B 19 E7 5B 75 2D 9A 6E F0 CC 13 09 98 EB D0",
        ),
    ];
    let command = [
        (
            "59 AC DE 48 00 00 00 00 01 00 00 00 05 06 00 01",
            "1C E4 F7 E4 FC 48 74 6D 0C 22 20 5D E8 DB B9 B0",
        ),
        (
            "00 1D 2B DC 84 21 43 02 00 00 00 00 48 DE AC FF",
            "16 EC 61 6D 5A C1 1A A0 4B 30 89 09 5D D5 7F 89",
        ),
        (
            "FF 01 00 00 00 00 48 DE AC 06 05 00 00 00 01 00",
            "49 C3 1D 64 A5 A0 12 58 5B 07 78 B8 CD FE CE A8",
        ),
        (
            "CE 00 00 00 00 00 00 00 00 00 00 00 00 00 00 00",
            "D6 06 7B B5 9B 57 03 9C 00 98 0A 5D B3 63 BB 80",
        ),
    ];
    for table in [&beacon[..], &command[..]] {
        let mut sum = [0; 16];
        for (part, next) in table {
            second::aes::xor(&mut sum, &block(part));
            sum = Aes::new(&ANNEX_KEY).encrypt(&sum);
            assert_eq!(sum, block(next));
        }
    }
}

/// The key stream blocks of C.2.1.2.3, Table C.5, Table C.10 and C.2.3.2.3.
#[test]
fn c_2_key_stream() {
    let blocks = [
        (
            "01 AC DE 48 00 00 00 00 01 00 00 00 05 02 00 00",
            "89 50 D8 0B DF 6F 98 C9 63 F2 D5 A1 08 A1 55 C7",
        ),
        (
            "01 AC DE 48 00 00 00 00 01 00 00 00 05 04 00 01",
            "B5 5C 61 4F A6 8B 7E E0 CB 77 37 EB A8 1D 33 41",
        ),
        (
            "01 AC DE 48 00 00 00 00 01 00 00 00 05 06 00 01",
            "16 A9 67 B4 0F F9 72 DE B1 CB 46 E7 09 FD EB FF",
        ),
        (
            "01 AC DE 48 00 00 00 00 01 00 00 00 05 06 00 00",
            "99 D8 29 25 FA AE C5 6D 17 93 04 21 3B 88 69 35",
        ),
    ];
    for (input, output) in blocks {
        assert_eq!(Aes::new(&ANNEX_KEY).encrypt(&block(input)), block(output));
    }
}

/// The annex's frame of this title, at its receiver.
fn known(title: &str) -> KnownFrame {
    known_frames().into_iter().find(|known| known.title == title).expect("a frame of the annex")
}

/// Receives a secured frame; only the device's counter and the first octets
/// of the output may change.
fn check_received(title: &str, expected: Received) {
    let KnownFrame { site, frame, private, .. } = known(title);
    let mut site = site.site();
    assert!(site_holds(&site));
    let mut after = site.clone();
    let counter_at = device_counter_at(1);
    assert_eq!(after[counter_at..counter_at + 4], [5, 0, 0, 0]);
    after[counter_at] = 6;
    let mut out = [0xee; 130];
    assert_eq!(receive(&mut site, &frame, &mut out), expected);
    assert_eq!(site, after);
    assert_eq!(out[..private.len()], private);
    assert!(out[private.len()..].iter().all(|octet| *octet == 0xee));
    let again = receive(&mut site, &frame, &mut out);
    assert_eq!(again, Received { status: 14, ..Received::default() });
}

#[test]
fn c_2_1_beacon_received() {
    let expected = Received {
        header: Header {
            security: 1,
            version: 1,
            sequence: 0x84,
            source: Address::extended(0x4321, ONE),
            ..Header::default()
        },
        level: 2,
        device: 2,
        private: 4,
        start: 18,
        len: 4,
        ..Received::default()
    };
    check_received("Annex C.2.1, beacon", expected);
}

#[test]
fn c_2_2_data_received() {
    let expected = Received {
        header: Header {
            kind: 1,
            security: 1,
            request: 1,
            compression: 1,
            version: 1,
            sequence: 0x84,
            destination: Address::extended(0x4321, TWO),
            source: Address::extended(0x4321, ONE),
            ..Header::default()
        },
        level: 4,
        device: 2,
        private: 4,
        start: 26,
        ..Received::default()
    };
    check_received("Annex C.2.2, data", expected);
}

#[test]
fn c_2_3_command_received() {
    let expected = Received {
        header: Header {
            kind: 3,
            security: 1,
            request: 1,
            version: 1,
            sequence: 0x84,
            destination: Address::extended(0x4321, TWO),
            source: Address::extended(0xffff, ONE),
            ..Header::default()
        },
        level: 6,
        device: 2,
        private: 1,
        start: 28,
        len: 1,
        ..Received::default()
    };
    check_received("Annex C.2.3, command", expected);
}

#[test]
fn c_2_plain_frames_received() {
    let frames = [("C.2.1", 13, 4), ("C.2.2", 21, 0), ("C.2.3", 23, 1)];
    for (clause, start, len) in frames {
        let known = known(&format!("Annex {clause}, unsecured"));
        let (mut site, mut out) = (known.site.site(), [0xee; 127]);
        let before = site.clone();
        let received = receive(&mut site, &known.frame, &mut out);
        assert_eq!((received.status, received.start, received.len), (0, start, len));
        assert_eq!((received.level, received.keymode, received.device), (0, 0, 0));
        assert_eq!(out[..received.private], known.private);
        assert_eq!(site, before);
    }
}

/// Every single bit of the secured frames counts, the FCS being redone.
/// Level 4 has no tag, so the data frame is left out.
#[test]
fn c_2_flipped_bits_refused() {
    for title in ["Annex C.2.1, beacon", "Annex C.2.3, command"] {
        let mut known = known(title);
        known.site.levels.iter_mut().for_each(|level| level.minimum = 1);
        let before = known.site.site();
        for bit in 0..8 * (known.frame.len() - 2) {
            let mut frame = known.frame.clone();
            frame[bit / 8] ^= 1 << (bit % 8);
            let (mut site, mut out) = (before.clone(), [0xee; 127]);
            let received = receive(&mut site, &summed_again(&frame), &mut out);
            assert_ne!(received.status, 0, "bit {bit}");
            assert_eq!(received, Received { status: received.status, ..Received::default() });
            assert_eq!((&site, out), (&before, [0xee; 127]));
        }
    }
}

/// Each frame of the annex as its originator builds it, secured and not; only
/// the own counter and the first octets of the output may change.
#[test]
fn c_2_frames_built() {
    let all = known_requests();
    assert_eq!(all.len(), 6);
    for known in all {
        let (mut site, mut out) = (known.site.site(), [0xee; 127]);
        let (mut after, len) = (site.clone(), known.frame.len());
        if known.input.request.level > 0 {
            after[COUNTER_AT] = 6;
        }
        let (open, private) = (&known.input.open, &known.input.private);
        let built = build(&mut site, &known.input.request, open, private, &mut out);
        assert_eq!(built, Built { status: 0, len }, "{}", known.title);
        assert_eq!(out[..len], known.frame, "{}", known.title);
        assert!(out[len..].iter().all(|octet| *octet == 0xee));
        assert_eq!(site, after);
    }
}
