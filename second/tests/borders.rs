//! The borders of the requirements.

use second::fcs::{fcs, fcs_holds};
use second::frame::{open_len, read_header, security_len, tag_len};
use second::octets::u32_at;
use second::receive::at_least;
use second::site::{device_counter_at, COUNTER_AT};
use second::testkit::{hex, probe_frame, probe_request, probed, summed_again, Rng};
use second::{build, receive, Address, Built, Received, Request};

const KEY: [u8; 16] = [0x3c; 16];

#[test]
fn fcs_of_02_00_6a() {
    assert_eq!(fcs(&[0x02, 0x00, 0x6a]).to_le_bytes(), [0xe4, 0x79]);
    assert!(fcs_holds(&[0x02, 0x00, 0x6a, 0xe4, 0x79]));
    assert!(!fcs_holds(&[0x02, 0x00, 0x6a, 0xe4, 0x78]));
}

/// The table gives what the division bit by bit gives.
#[test]
fn fcs_bit_by_bit() {
    let mut rng = Rng::new(1);
    for len in 0..=125 {
        let octets = rng.octets(len);
        let mut rest = 0u32;
        for bit in 0..8 * len {
            let bit = octets[bit / 8] >> (bit % 8) & 1;
            rest = rest << 1 ^ u32::from(bit) << 16;
            rest = if rest & 0x1_0000 > 0 { rest ^ 0x1_1021 } else { rest };
        }
        assert_eq!(fcs(&octets), (rest as u16).reverse_bits());
    }
}

#[test]
fn levels_have_two_orders() {
    assert!(!at_least(4, 3));
    assert!(at_least(7, 3) && at_least(7, 4) && at_least(5, 1) && at_least(3, 3));
    assert!(!at_least(3, 4) && !at_least(5, 2) && !at_least(0, 1));
    assert_eq!([0, 1, 2, 3, 4, 5, 6, 7].map(tag_len), [0, 4, 8, 16, 0, 4, 8, 16]);
}

#[test]
fn security_header_lengths() {
    assert_eq!([0, 1, 2, 3].map(security_len), [5, 6, 10, 14]);
}

#[test]
fn control_61_88_and_69_98() {
    for (text, security, version) in [("61 88", 0, 0), ("69 98", 1, 1)] {
        let mut frame = hex(text);
        frame.extend(hex("01 21 43 02 03 04 05 00 00"));
        let (header, len) = read_header(&frame).unwrap();
        assert_eq!((header.kind, header.compression, len), (1, 1, 9));
        assert_eq!((header.security, header.version), (security, version));
        assert_eq!(header.destination, Address::short(0x4321, 0x0302));
        assert_eq!(header.source, Address::short(0x4321, 0x0504));
    }
}

#[test]
fn beacon_open_payloads() {
    assert_eq!(open_len(0, &hex("55 CF 00 00")), Some(4));
    assert_eq!(open_len(0, &hex("55 CF 00")), None);
    assert_eq!(open_len(0, &hex("55 CF 01 00 11 22 33 00")), Some(8));
    assert_eq!(open_len(0, &hex("55 CF 01 00 11 22 33")), None);
    let longest = [&hex("55 CF 07")[..], &[0; 22], &[0x70], &[0; 56]].concat();
    assert_eq!(open_len(0, &longest), Some(82));
    assert_eq!(open_len(0, &[&hex("55 CF 00 44")[..], &[0; 100]].concat()), None);
    assert_eq!(open_len(0, &[&hex("55 CF F8 BC")[..], &[0; 100]].concat()), Some(4 + 8 + 24));
    assert_eq!(
        (open_len(3, &[]), open_len(3, &[4, 4]), open_len(1, &[1])),
        (None, Some(1), Some(0))
    );
}

/// The status and the counter after receiving.
fn counted(site: &mut [u8], counter: u32) -> (u8, u32) {
    let frame = probe_frame(counter, 6, &KEY, b"reading");
    let mut out = [0; 127];
    let status = receive(site, &frame, &mut out).status;
    assert_eq!(&out[..7] == b"reading", status == 0);
    (status, u32_at(site, device_counter_at(0)))
}

#[test]
fn counter_at_5() {
    let mut site = probed(5, KEY).site();
    assert_eq!(counted(&mut site, 4), (14, 5));
    assert_eq!(counted(&mut site, 5), (0, 6));
    assert_eq!(counted(&mut site, 5), (14, 6));
    assert_eq!(counted(&mut site, 1000), (0, 1001));
}

#[test]
fn counter_at_the_end() {
    let mut site = probed(5, KEY).site();
    assert_eq!(counted(&mut site, 0xffff_ffff), (14, 5));
    assert_eq!(counted(&mut site, 0xffff_fffe), (0, 0xffff_ffff));
    for counter in [0, 5, 0xffff_fffe, 0xffff_ffff] {
        assert_eq!(counted(&mut site, counter), (14, 0xffff_ffff));
    }
}

#[test]
fn wrong_tag_keeps_the_counter() {
    let mut site = probed(5, KEY).site();
    let before = site.clone();
    for level in [1, 2, 3, 5, 6, 7] {
        let mut frame = probe_frame(9, level, &KEY, b"reading");
        let last = frame.len() - 3;
        frame[last] ^= 0x80;
        let mut out = [0xee; 127];
        let received = receive(&mut site, &summed_again(&frame), &mut out);
        assert_eq!(received, Received { status: 15, ..Received::default() });
        assert_eq!((&site, out), (&before, [0xee; 127]));
    }
}

#[test]
fn own_counter() {
    let request = probe_request(6);
    let mut out = [0; 127];
    let mut site = probed(0xffff_fffe, KEY).site();
    assert_eq!(build(&mut site, &request, &[], &[], &mut out).status, 0);
    assert_eq!(site[COUNTER_AT..COUNTER_AT + 4], [0xff; 4]);
    assert_eq!(out[10..14], [0xfe, 0xff, 0xff, 0xff]);
    let before = site.clone();
    assert_eq!(build(&mut site, &request, &[], &[], &mut out), Built { status: 14, len: 0 });
    let plain = Request { level: 0, ..request };
    assert_eq!(build(&mut site, &plain, &[], &[], &mut out), Built { status: 0, len: 11 });
    assert_eq!(site, before);
}

#[test]
fn header_9_mode_1_level_6_has_room_for_102() {
    let request = probe_request(6);
    let (mut site, mut out) = (probed(5, KEY).site(), [0xee; 127]);
    let built = build(&mut site, &request, &[], &[7; 103], &mut out);
    assert_eq!((built, out), (Built { status: 16, len: 0 }, [0xee; 127]));
    assert_eq!(site, probed(5, KEY).site());
    let built = build(&mut site, &request, &[], &[7; 102], &mut out);
    assert_eq!(built, Built { status: 0, len: 127 });
    assert_eq!(out[9], 0x0e);
}

#[test]
fn longest_frame_received() {
    let (mut site, mut out) = (probed(5, KEY).site(), [0xee; 127]);
    let frame = probe_frame(5, 6, &KEY, &[7; 102]);
    assert_eq!(frame.len(), 127);
    let received = receive(&mut site, &frame, &mut out);
    assert_eq!((received.status, received.private, received.device), (0, 102, 1));
    assert!(out[..102] == [7; 102] && out[102..] == [0xee; 25]);
}

#[test]
fn room_and_length() {
    let (mut site, frame) = (probed(5, KEY).site(), hex("02 00 6A E4 79"));
    assert_eq!(receive(&mut site, &frame, &mut [0; 126]).status, 2);
    assert_eq!(receive(&mut site, &frame, &mut [0; 127]).status, 0);
    assert_eq!(receive(&mut site, &frame[..4], &mut [0; 127]).status, 3);
    assert_eq!(receive(&mut site, &[0; 128], &mut [0; 127]).status, 3);
    assert_eq!(receive(&mut site, &[], &mut [0; 126]).status, 2);
    assert_eq!(receive(&mut [], &[], &mut []).status, 1);
    let request = Request::default();
    assert_eq!(build(&mut site, &request, &[], &[], &mut [0; 126]).status, 2);
    assert_eq!(build(&mut [], &request, &[], &[], &mut []).status, 1);
}
