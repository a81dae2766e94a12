//! What one implementation builds, the other receives.

mod common;

use common::{buffer, Order, Outcome, Reception};
use second::testkit::{open_payload, BuildInput, Device, Handle, Level, Lookup};
use second::testkit::{Rng, Settings, SiteSpec, Usage};
use second::{Address, Built, Received, Request};

const ONE: u64 = 0xacde_4800_0000_0001;
const TWO: u64 = 0xacde_4800_0000_0002;
const KEY: [u8; 16] = [0x3c; 16];

/// A sender and a receiver with one key.
struct Pair {
    sender: SiteSpec,
    receiver: SiteSpec,
}

fn address(spec: &SiteSpec, mode: u8) -> Address {
    let settings = &spec.settings;
    match mode {
        0 => Address::default(),
        2 => Address { mode, pan: settings.pan, address: settings.short.into() },
        _ => Address { mode, pan: settings.pan, address: settings.extended },
    }
}

fn spec(pan: u16, short: u16, extended: u64) -> SiteSpec {
    let settings = Settings { pan, short, extended, flags: 3, ..Settings::default() };
    SiteSpec { settings, keys: vec![[1; 16], KEY], ..SiteSpec::default() }
}

/// The lookup record under which a site finds the key of a request.
fn lookup(site: &SiteSpec, request: &Request, peer: Address) -> Lookup {
    let (mode, index) = (request.keymode, request.keyindex);
    let source = match mode {
        1 => site.settings.keysource,
        _ => request.keysource,
    };
    Lookup { key: 1, mode, index, source, peer }
}

/// The sites between which a request's frame passes.
fn pair(rng: &mut Rng, request: &mut Request, command: u8, pans: (u16, u16)) -> Pair {
    let mut sender = spec(pans.0, 0x0011, ONE);
    let mut receiver = spec(pans.1, 0x0022, TWO);
    sender.settings.counter = rng.below(1000) as u32;
    let mut keysource = [0; 8];
    keysource.copy_from_slice(&rng.octets(8));
    request.keysource = keysource;
    request.keyindex = rng.octet();
    receiver.settings.keysource = [7; 8];
    // Each is the other's coordinator, so an absent address means it.
    sender.settings.coordinator_short = 0xfffe;
    sender.settings.coordinator_extended = TWO;
    receiver.settings.coordinator_short = 0xfffe;
    receiver.settings.coordinator_extended = ONE;
    let to = request.destination.mode;
    request.destination = address(&receiver, to);
    let known = |spec: &SiteSpec, other: &SiteSpec, mode: u8| match mode {
        0 => Address { pan: spec.settings.pan, ..address(other, 3) },
        mode => address(other, mode),
    };
    sender.lookups = vec![lookup(&sender, request, known(&sender, &receiver, to))];
    let peer = known(&receiver, &sender, request.srcmode);
    receiver.lookups = vec![lookup(&receiver, request, peer)];
    let counter = sender.settings.counter;
    receiver.devices = vec![
        Device { pan: peer.pan, short: 0x0077, extended: 77, ..Device::default() },
        Device { pan: peer.pan, short: 0x0011, extended: ONE, counter, exempt: 0 },
    ];
    receiver.levels = vec![Level { kind: request.kind, command, ..Level::default() }];
    receiver.usages = vec![Usage { key: 1, kind: request.kind, command }];
    receiver.handles = vec![Handle { key: 1, device: 1 }];
    Pair { sender, receiver }
}

/// Builds with one, receives with the other, in both ways.
fn check(pair: &Pair, input: &BuildInput) -> bool {
    let order = Order { site: pair.sender.site(), input: input.clone(), out: buffer(127) };
    order.agreed(Some(&pair.sender));
    let builders: [fn(&Order) -> Outcome<Built>; 2] = [Order::ours, Order::theirs];
    let receivers: [fn(&Reception) -> Outcome<Received>; 2] = [Reception::theirs, Reception::ours];
    for (build, receive) in builders.into_iter().zip(receivers) {
        let built = build(&order);
        if built.answer.status == 16 {
            return false;
        }
        assert_eq!(built.answer.status, 0, "{input:?}");
        let frame = built.out[..built.answer.len].to_vec();
        let reception =
            Reception { site: pair.receiver.site(), frame: frame.clone(), out: buffer(127) };
        let outcome = receive(&reception);
        let answer = outcome.answer;
        assert_eq!(answer.status, 0, "{input:?} {frame:02x?}");
        assert_eq!(outcome.out[..answer.private], input.private);
        assert_eq!(frame[answer.start..answer.start + answer.len], input.open);
        assert_eq!(answer.level, input.request.level);
        assert_eq!(answer.device, if answer.level > 0 { 2 } else { 0 });
        let mut after = pair.receiver.clone();
        after.refresh(&outcome.site);
        let counter = pair.sender.settings.counter + u32::from(answer.level > 0);
        assert_eq!(after.devices[1].counter, counter);
    }
    true
}

/// Every type, every pair of address modes, every level and key mode, under
/// one PAN and two.
#[test]
fn built_and_received() {
    let mut rng = Rng::new(301);
    let mut passed = 0;
    for kind in [0, 1, 3] {
        for (to, from) in [(0, 2), (0, 3), (2, 0), (2, 2), (2, 3), (3, 0), (3, 2), (3, 3)] {
            let both = to > 0 && from > 0;
            if kind == 0 && to > 0 {
                continue;
            }
            for level in 0..8 {
                for keymode in 0..4 {
                    for round in 0..6 {
                        let pans = match both && round % 2 == 1 {
                            true => (0x4321, 0x1234),
                            false => (0x4321, 0x4321),
                        };
                        let mut request = Request {
                            kind,
                            version: 1,
                            pending: rng.chance(50),
                            request: rng.chance(50),
                            sequence: rng.octet(),
                            destination: Address { mode: to, ..Address::default() },
                            srcmode: from,
                            level,
                            keymode,
                            ..Request::default()
                        };
                        let open = open_payload(&mut rng, kind);
                        let command = open.first().copied().unwrap_or(0);
                        let pair = pair(&mut rng, &mut request, command, pans);
                        let len = rng.below(100);
                        let private = rng.octets(len);
                        let input = BuildInput { request, open, private };
                        passed += usize::from(check(&pair, &input));
                    }
                }
            }
        }
    }
    println!("built and received: {passed} frames each way");
    assert!(passed > 2500);
}
