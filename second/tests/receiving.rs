//! Receiving: each status, the order of checks, and what may change.

use second::site::device_counter_at;
use second::testkit::{frame, frame_of, Device, FrameCase, Handle, Level, Lookup, Plan, Rng};
use second::testkit::{Settings, SiteSpec, Usage};
use second::{receive, receive_valid, site_holds, Address, Header, Received};

const KEY: [u8; 16] = [0x3c; 16];
const PAN: u16 = 0x4321;
const OWN: u64 = 0xacde_4800_0000_00aa;
const PROBE: u64 = 0xacde_4800_0000_0001;
const HUB: u64 = 0xacde_4800_0000_00cc;

/// A coordinator with short address 1; probe 1 has short 5 and key 0, probe 2
/// has short 6 and key 1, the hub (short 9) has both.
fn spec() -> SiteSpec {
    let device = |short, extended| Device { pan: PAN, short, extended, counter: 5, exempt: 0 };
    SiteSpec {
        settings: Settings {
            pan: PAN,
            short: 1,
            extended: OWN,
            coordinator_short: 9,
            coordinator_extended: HUB,
            keysource: [0xff; 8],
            flags: 3,
            counter: 0,
        },
        devices: vec![device(5, PROBE), device(6, PROBE + 1), device(9, HUB)],
        levels: [(0, 0), (1, 0), (3, 4)]
            .map(|(kind, command)| Level { kind, command, ..Level::default() })
            .to_vec(),
        keys: vec![KEY, [0x5a; 16]],
        lookups: vec![
            Lookup { key: 0, mode: 1, index: 1, source: [0xff; 8], ..Lookup::default() },
            Lookup {
                key: 1,
                mode: 2,
                index: 1,
                source: [1, 2, 3, 4, 5, 6, 7, 8],
                ..Lookup::default()
            },
            Lookup {
                key: 1,
                mode: 3,
                index: 2,
                source: [1, 2, 3, 4, 5, 6, 7, 8],
                ..Lookup::default()
            },
            Lookup { key: 0, mode: 0, peer: Address::short(PAN, 0xdead_0005), ..Lookup::default() },
            Lookup { key: 0, mode: 0, peer: Address::short(PAN, 9), ..Lookup::default() },
            Lookup { key: 0, mode: 0, peer: Address::extended(PAN, HUB), ..Lookup::default() },
        ],
        usages: vec![
            Usage { key: 0, kind: 1, command: 9 },
            Usage { key: 0, kind: 3, command: 4 },
            Usage { key: 1, kind: 1, command: 0 },
        ],
        handles: [(0, 0), (1, 1), (0, 2), (1, 2)]
            .map(|(key, device)| Handle { key, device })
            .to_vec(),
    }
}

/// A secured data frame of probe 1 at level 6, key mode 1.
fn plan() -> Plan {
    let mut plan = plain();
    plan.header.security = 1;
    plan.security.level = 6;
    plan.security.keymode = 1;
    plan.security.keyindex = 1;
    plan.security.counter = 5;
    plan
}

/// An unsecured data frame of probe 1.
fn plain() -> Plan {
    Plan {
        header: Header {
            kind: 1,
            version: 1,
            sequence: 0x6a,
            destination: Address::short(PAN, 1),
            source: Address::short(PAN, 5),
            ..Header::default()
        },
        private: b"reading".to_vec(),
        ..Plan::default()
    }
}

/// Receives and checks that a refusal changes nothing and a success only
/// what it must.
fn received(spec: &SiteSpec, frame: &[u8]) -> Received {
    let mut site = spec.site();
    assert!(site_holds(&site));
    let (before, mut out) = (site.clone(), [0xee; 140]);
    let answer = receive(&mut site, frame, &mut out);
    let mut after = before.clone();
    if answer.status != 0 {
        assert_eq!(answer, Received { status: answer.status, ..Received::default() });
    }
    if answer.device > 0 {
        let at = device_counter_at(answer.device - 1);
        let counter = answer.start - [0, 1, 5, 9][usize::from(answer.keymode)] - 4;
        let counter = u32::from_le_bytes(frame[counter..counter + 4].try_into().unwrap());
        after[at..at + 4].copy_from_slice(&(counter + 1).to_le_bytes());
    }
    assert_eq!(site, after);
    assert!(out[answer.private..].iter().all(|octet| *octet == 0xee));
    answer
}

fn status(spec: &SiteSpec, frame: &[u8]) -> u8 {
    received(spec, frame).status
}

fn sealed(plan: &Plan) -> Vec<u8> {
    plan.seal(&KEY, PROBE)
}

#[test]
fn good_frames() {
    let answer = received(&spec(), &sealed(&plan()));
    assert_eq!((answer.status, answer.level, answer.keymode, answer.device), (0, 6, 1, 1));
    assert_eq!((answer.private, answer.start, answer.len), (7, 11 + 6, 0));
    assert_eq!(answer.header, plan().header);
    let answer = received(&spec(), &plain().bare());
    assert_eq!((answer.status, answer.level, answer.keymode, answer.device), (0, 0, 0, 0));
    assert_eq!((answer.private, answer.start, answer.len), (7, 11, 0));
}

#[test]
fn malformed_headers() {
    let spec = spec();
    let with = |change: &dyn Fn(&mut Plan)| {
        let mut plan = plain();
        change(&mut plan);
        status(&spec, &plan.bare())
    };
    assert_eq!(with(&|plan| plan.header.destination.mode = 1), 5);
    assert_eq!(with(&|plan| plan.header.source.mode = 1), 5);
    for kind in 4..8 {
        assert_eq!(with(&|plan| plan.header.kind = kind), 6);
        assert_eq!(with(&|plan| (plan.header.kind, plan.header.source.mode) = (kind, 1)), 5);
    }
    assert_eq!(with(&|plan| (plan.header.compression, plan.header.source.mode) = (1, 0)), 5);
    assert_eq!(with(&|plan| (plan.header.compression, plan.header.destination.mode) = (1, 0)), 5);
    assert_eq!(with(&|plan| plan.header.kind = 0), 5);
    assert_eq!(with(&|plan| (plan.header.source.mode, plan.header.destination.mode) = (0, 0)), 5);
    for kind in [0, 3] {
        let none = |plan: &mut Plan| {
            plan.header = Header { kind, ..Header::default() };
        };
        assert_eq!(with(&none), 5);
    }
    assert_eq!(with(&|plan| (plan.header.version, plan.header.source.mode) = (3, 1)), 5);
}

#[test]
fn cut_headers() {
    for (to, from, header_len) in [(2, 2, 11), (3, 2, 17), (2, 3, 17), (3, 3, 23)] {
        let mut plan = plain();
        plan.header.destination =
            Address { mode: to, pan: PAN, address: [1, OWN][usize::from(to == 3)] };
        plan.header.source = Address { mode: from, pan: PAN, address: 5 };
        plan.private.clear();
        let whole = plan.bare();
        assert_eq!(whole.len(), header_len + 2);
        assert_eq!(status(&spec(), &whole), 0);
        for len in 3..header_len {
            assert_eq!(status(&spec(), &summed(&whole[..len])), 5);
        }
    }
}

/// The octets with their FCS behind.
fn summed(octets: &[u8]) -> Vec<u8> {
    [octets, &second::fcs::fcs(octets).to_le_bytes()].concat()
}

#[test]
fn acknowledgments() {
    let spec = spec();
    let answer = received(&spec, &summed(&[0x02, 0x00, 0x6a]));
    let header = Header { kind: 2, sequence: 0x6a, ..Header::default() };
    assert_eq!(answer, Received { header, start: 3, ..Received::default() });
    assert_eq!(status(&spec, &summed(&[0x92, 0x13, 0x6a])), 0);
    assert_eq!(status(&spec, &summed(&[0x02, 0x20, 0x6a])), 6);
    assert_eq!(status(&spec, &summed(&[0x0a, 0x00, 0x6a])), 5);
    assert_eq!(status(&spec, &summed(&[0x42, 0x00, 0x6a])), 5);
    assert_eq!(status(&spec, &summed(&[0x02, 0x00, 0x6a, 0])), 5);
    assert_eq!(status(&spec, &summed(&[0x02, 0x08, 0x6a, 0x21, 0x43, 1, 0])), 5);
}

#[test]
fn filter_rules() {
    let with = |spec: &SiteSpec, change: &dyn Fn(&mut Header)| {
        let mut plan = plain();
        change(&mut plan.header);
        status(spec, &plan.bare())
    };
    let (site, mut quiet, mut open) = (spec(), spec(), spec());
    quiet.settings.flags = 1;
    open.settings.pan = 0xffff;
    for version in 2..4 {
        assert_eq!(with(&site, &|header| header.version = version), 6);
    }
    assert_eq!(with(&site, &|header| header.destination.pan = 0x4322), 6);
    assert_eq!(with(&site, &|header| header.destination.pan = 0xffff), 0);
    assert_eq!(with(&site, &|header| header.destination.address = 2), 6);
    assert_eq!(with(&site, &|header| header.destination.address = 0xffff), 0);
    assert_eq!(with(&site, &|header| header.destination.address = 0xfffe), 6);
    assert_eq!(with(&site, &|header| header.destination = Address::extended(PAN, OWN)), 0);
    assert_eq!(
        with(&site, &|header| header.destination = Address::extended(PAN, OWN ^ 1 << 63)),
        6
    );
    assert_eq!(with(&site, &|header| header.destination = Address::extended(PAN, u64::MAX)), 6);
    let bare = |pan| {
        move |header: &mut Header| {
            header.destination = Address::default();
            header.source.pan = pan;
        }
    };
    assert_eq!(with(&site, &bare(PAN)), 0);
    assert_eq!(with(&quiet, &bare(PAN)), 6);
    assert_eq!(with(&site, &bare(0xffff)), 6);
    assert_eq!(with(&open, &bare(0xffff)), 0);
    assert_eq!(with(&open, &bare(PAN)), 6);
}

#[test]
fn filter_beacons() {
    let mut plan = plain();
    plan.header.kind = 0;
    plan.header.destination = Address::default();
    plan.open = vec![0, 0, 0, 0];
    let mut spec = spec();
    spec.settings.flags = 1;
    assert_eq!(status(&spec, &plan.bare()), 0);
    plan.header.source.pan = 0xffff;
    assert_eq!(status(&spec, &plan.bare()), 6);
    spec.settings.pan = 0xffff;
    plan.header.source.pan = PAN;
    assert_eq!(status(&spec, &plan.bare()), 0);
}

#[test]
fn second_part_of_malformed() {
    let spec = spec();
    let mut whole = plan();
    whole.private.clear();
    let octets = sealed(&whole);
    // Header 11, security header 6, tag 8, FCS 2.
    assert_eq!(octets.len(), 27);
    for len in 11..25 {
        assert_eq!(status(&spec, &summed(&octets[..len])), 5, "{len} octets");
    }
    let mut legacy = octets.clone();
    legacy[1] &= 0xcf;
    assert_eq!(status(&spec, &summed(&legacy[..11])), 7);
    let mut command = plain();
    command.header.kind = 3;
    command.private.clear();
    assert_eq!(status(&spec, &command.bare()), 5);
    command.open = vec![4];
    let answer = received(&spec, &command.bare());
    assert_eq!((answer.status, answer.start, answer.len, answer.private), (0, 11, 1, 0));
}

#[test]
fn unsupported_security() {
    let (on, mut off) = (spec(), spec());
    off.settings.flags = 2;
    off.levels.clear();
    let mut level_0 = plan();
    level_0.security.level = 0;
    assert_eq!(status(&on, &level_0.bare()), 8);
    assert_eq!(status(&off, &level_0.bare()), 8);
    assert_eq!(status(&off, &sealed(&plan())), 8);
    assert_eq!(status(&off, &plain().bare()), 0);
    let mut legacy = plan();
    legacy.header.version = 0;
    assert_eq!(status(&off, &sealed(&legacy)), 7);
    // A level 0 frame has no tag to cut, but a security header.
    level_0.private.clear();
    let octets = level_0.bare();
    assert_eq!(status(&on, &summed(&octets[..16])), 5);
    assert_eq!(status(&on, &summed(&octets[..17])), 8);
}

#[test]
fn level_records() {
    let mut spec = spec();
    let mut command = plan();
    command.header.kind = 3;
    command.open = vec![4];
    assert_eq!(status(&spec, &sealed(&command)), 0);
    command.open = vec![5];
    assert_eq!(status(&spec, &sealed(&command)), 9);
    // The first record that matches decides.
    spec.levels.push(Level { kind: 1, minimum: 7, ..Level::default() });
    assert_eq!(status(&spec, &sealed(&plan())), 0);
    spec.levels.swap(1, 3);
    assert_eq!(status(&spec, &sealed(&plan())), 10);
    spec.levels.clear();
    assert_eq!(status(&spec, &sealed(&plan())), 9);
    assert_eq!(status(&spec, &plain().bare()), 9);
}

#[test]
fn level_policy() {
    for minimum in 0..8 {
        for allowed in [0, 0x40, 0x41, 0xbf, 0xff] {
            for level in 0..8 {
                let mut spec = spec();
                spec.levels[1].minimum = minimum;
                spec.levels[1].allowed = allowed;
                let mut plan = plan();
                plan.header.security = u8::from(level > 0);
                plan.security.level = level;
                let frame = if level > 0 { sealed(&plan) } else { plan.bare() };
                let order = level / 4 >= minimum / 4 && level % 4 >= minimum % 4;
                let passes = if allowed == 0 { order } else { allowed >> level & 1 == 1 };
                assert_eq!(status(&spec, &frame), if passes { 0 } else { 10 });
            }
        }
    }
}

#[test]
fn override_for_exempt_devices() {
    for allowed in [0, 0x40] {
        let mut spec = spec();
        spec.levels[1] = Level { kind: 1, minimum: 1, overridden: 1, allowed, ..Level::default() };
        spec.handles.clear();
        assert_eq!(status(&spec, &plain().bare()), 10);
        spec.devices[0].exempt = 1;
        assert_eq!(status(&spec, &plain().bare()), 0);
        let mut stranger = plain();
        stranger.header.source.address = 0x77;
        assert_eq!(status(&spec, &stranger.bare()), 13);
        spec.levels[1].overridden = 0;
        assert_eq!(status(&spec, &plain().bare()), 10);
        assert_eq!(status(&spec, &stranger.bare()), 10);
        // Only level 0 is overridden.
        spec.levels[1] = Level { kind: 1, minimum: 7, overridden: 1, allowed, ..Level::default() };
        let mut plan = plan();
        plan.security.level = 5;
        assert_eq!(status(&spec, &sealed(&plan)), 10);
    }
}

/// Three devices may share short 0xfffe; the first in file order counts.
#[test]
fn override_takes_the_first_device() {
    let mut spec = spec();
    spec.levels[1] = Level { kind: 1, minimum: 1, overridden: 1, ..Level::default() };
    spec.devices.iter_mut().for_each(|device| device.short = 0xfffe);
    let mut plan = plain();
    plan.header.source.address = 0xfffe;
    spec.devices[1].exempt = 1;
    assert_eq!(status(&spec, &plan.bare()), 10);
    spec.devices[0].exempt = 1;
    assert_eq!(status(&spec, &plan.bare()), 0);
}

#[test]
fn stand_in_for_an_absent_source() {
    let mut absent = plan();
    absent.header.source = Address::default();
    absent.security.keymode = 0;
    let from_hub = |spec: &SiteSpec, plan: &Plan| received(spec, &plan.seal(&KEY, HUB));
    let mut spec = spec();
    let answer = from_hub(&spec, &absent);
    assert_eq!((answer.status, answer.device), (0, 3));
    assert_eq!(answer.header.source, Address::default());
    spec.settings.coordinator_short = 0xfffe;
    assert_eq!(from_hub(&spec, &absent).device, 3);
    spec.settings.coordinator_extended = HUB + 1;
    assert_eq!(from_hub(&spec, &absent).status, 11);
    spec.settings.coordinator_short = 0xffff;
    spec.settings.coordinator_extended = HUB;
    assert_eq!(from_hub(&spec, &absent).status, 11);
    absent.security.keymode = 1;
    assert_eq!(from_hub(&spec, &absent).status, 13);
    spec.levels[1] = Level { kind: 1, minimum: 1, overridden: 1, ..Level::default() };
    spec.devices[2].exempt = 1;
    let mut bare = plain();
    bare.header.source = Address::default();
    assert_eq!(status(&spec, &bare.bare()), 13);
    spec.settings.coordinator_short = 0xfffe;
    assert_eq!(status(&spec, &bare.bare()), 0);
    spec.settings.coordinator_short = 9;
    assert_eq!(status(&spec, &bare.bare()), 0);
    spec.settings.coordinator_short = 6;
    assert_eq!(status(&spec, &bare.bare()), 10);
}

#[test]
fn key_by_mode_0() {
    let mut plan = plan();
    plan.security.keymode = 0;
    assert_eq!(status(&spec(), &sealed(&plan)), 0);
    plan.header.source = Address::extended(PAN, PROBE);
    assert_eq!(status(&spec(), &sealed(&plan)), 11);
    plan.header.source = Address::short(PAN, 6);
    assert_eq!(status(&spec(), &sealed(&plan)), 11);
    plan.header.source = Address::short(PAN + 1, 5);
    assert_eq!(status(&spec(), &sealed(&plan)), 11);
    plan.header.source = Address::extended(PAN, HUB);
    assert_eq!(status(&spec(), &plan.seal(&KEY, HUB)), 0);
}

#[test]
fn key_by_mode_1() {
    let mut spec = spec();
    spec.settings.keysource[7] = 0;
    assert_eq!(status(&spec, &sealed(&plan())), 11);
    spec.lookups[0].source[7] = 0;
    assert_eq!(status(&spec, &sealed(&plan())), 0);
    let mut plan = plan();
    plan.security.keyindex = 2;
    assert_eq!(status(&spec, &sealed(&plan)), 11);
}

#[test]
fn key_by_modes_2_and_3() {
    let spec = spec();
    let mut plan = plan();
    plan.header.source = Address::short(PAN, 6);
    plan.security.keymode = 2;
    plan.security.keysource = [1, 2, 3, 4, 0, 0, 0, 0];
    let sealed = |plan: &Plan| plan.seal(&[0x5a; 16], PROBE + 1);
    let answer = received(&spec, &sealed(&plan));
    assert_eq!((answer.status, answer.keymode, answer.device, answer.start), (0, 2, 2, 21));
    plan.security.keysource[3] = 5;
    assert_eq!(status(&spec, &sealed(&plan)), 11);
    plan.security.keymode = 3;
    plan.security.keyindex = 2;
    plan.security.keysource = [1, 2, 3, 4, 5, 6, 7, 8];
    let answer = received(&spec, &sealed(&plan));
    assert_eq!((answer.status, answer.keymode, answer.device, answer.start), (0, 3, 2, 25));
    plan.security.keysource[7] = 0;
    assert_eq!(status(&spec, &sealed(&plan)), 11);
}

/// The first lookup record decides, also where a later one would do.
#[test]
fn first_lookup_decides() {
    let mut spec = spec();
    let first = Lookup { key: 1, ..spec.lookups[0] };
    spec.lookups.insert(0, first);
    assert_eq!(status(&spec, &sealed(&plan())), 13);
    spec.handles.push(Handle { key: 1, device: 0 });
    assert_eq!(status(&spec, &sealed(&plan())), 15);
    spec.usages.pop();
    assert_eq!(status(&spec, &sealed(&plan())), 12);
}

#[test]
fn usages() {
    let mut spec = spec();
    let mut command = plan();
    command.header.kind = 3;
    command.open = vec![4];
    assert_eq!(status(&spec, &sealed(&command)), 0);
    spec.usages[1].command = 5;
    assert_eq!(status(&spec, &sealed(&command)), 12);
    assert_eq!(status(&spec, &sealed(&plan())), 0);
    spec.usages[0].kind = 0;
    assert_eq!(status(&spec, &sealed(&plan())), 12);
}

#[test]
fn devices_by_handles() {
    let mut spec = spec();
    let mut plan = plan();
    // Probe 2 is known but not under this key.
    plan.header.source = Address::short(PAN, 6);
    assert_eq!(status(&spec, &plan.seal(&KEY, PROBE + 1)), 13);
    spec.handles.push(Handle { key: 0, device: 1 });
    assert_eq!(received(&spec, &plan.seal(&KEY, PROBE + 1)).device, 2);
    plan.header.source = Address::extended(PAN, PROBE + 1);
    assert_eq!(received(&spec, &plan.seal(&KEY, PROBE + 1)).device, 2);
    plan.header.source = Address::extended(PAN + 1, PROBE + 1);
    assert_eq!(status(&spec, &plan.seal(&KEY, PROBE + 1)), 13);
}

/// Where several devices match, the order of handles decides.
#[test]
fn order_of_handles() {
    let mut spec = spec();
    spec.devices.iter_mut().for_each(|device| device.short = 0xfffe);
    let mut plan = plan();
    plan.header.source.address = 0xfffe;
    assert_eq!(status(&spec, &plan.seal(&KEY, HUB)), 15);
    spec.handles.swap(0, 2);
    assert_eq!(received(&spec, &plan.seal(&KEY, HUB)).device, 3);
    spec.devices[2].counter = 6;
    assert_eq!(status(&spec, &plan.seal(&KEY, HUB)), 14);
}

/// Reserved bits are ignored, but authenticated.
#[test]
fn ignored_bits() {
    let mut plan = plan();
    plan.spare = 7;
    plan.security_spare = 7;
    let frame = sealed(&plan);
    assert_eq!((frame[0] & 0x80, frame[1] & 3, frame[11] & 0xe0), (0x80, 3, 0xe0));
    assert_eq!(received(&spec(), &frame).header, plan.header);
    let mut changed = frame[..frame.len() - 2].to_vec();
    changed[1] ^= 1;
    assert_eq!(status(&spec(), &summed(&changed)), 15);
}

/// Level 4 has no tag: any counter not below the device's passes.
#[test]
fn level_4_has_no_tag() {
    let mut plan = plan();
    plan.security.level = 4;
    let answer = received(&spec(), &sealed(&plan));
    assert_eq!((answer.status, answer.private), (0, 7));
    assert_eq!(received(&spec(), &plan.seal(&[0; 16], 0)).status, 0);
}

/// Every status from 0 to 15 but 1 and 2 comes up in random frames, each case
/// of frame is drawn, and refusals change nothing.
#[test]
fn random_frames() {
    let mut rng = Rng::new(31);
    let (mut seen, mut secured) = ([0; 18], 0);
    for _ in 0..1500 {
        let mut spec = SiteSpec::random(&mut rng);
        let mut site = spec.site();
        for _ in 0..20 {
            spec.refresh(&site);
            let octets = frame(&mut rng, &spec).1;
            let answer = received(&spec, &octets);
            let mut out = [0; 127];
            assert_eq!(receive_valid(&mut site, &octets, &mut out), answer);
            seen[usize::from(answer.status)] += 1;
            secured += usize::from(answer.level > 0);
        }
    }
    println!("statuses {seen:?}, secured successes {secured}");
    assert!((0..16).all(|status| (seen[status] > 0) != (status == 1 || status == 2)), "{seen:?}");
    assert!(seen[0] > 6000 && secured > 3000, "{seen:?} {secured}");
}

#[test]
fn random_cases_do_what_they_say() {
    let mut rng = Rng::new(32);
    for case in FrameCase::ALL {
        for _ in 0..300 {
            let spec = SiteSpec::random(&mut rng);
            let status = status(&spec, &frame_of(case, &mut rng, &spec));
            let holds = match case {
                FrameCase::Acknowledgment => status == 0,
                FrameCase::Unsecured => ![1, 2, 3, 4, 5, 7, 8, 11, 12, 14, 15].contains(&status),
                FrameCase::Secured => ![1, 2, 3, 4, 5, 7].contains(&status),
                FrameCase::FlippedBit => status == 4,
                FrameCase::Overlong => status == 3,
                FrameCase::LegacySecured => status == 6 || status == 7,
                FrameCase::LevelZeroSecured => status == 6 || status == 8,
                FrameCase::BadBeacon => status != 4 && status < 14,
                _ => true,
            };
            assert!(holds, "{} {status}", case.name());
        }
    }
}
