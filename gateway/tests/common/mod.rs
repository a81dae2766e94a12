//! Both implementations on the same input: what each answers and leaves, and
//! an input cut down to what still tells them apart.
#![allow(dead_code)]

use std::env;
use std::process::Command;

use second::testkit::{scribbled, summed, BuildInput, Rng, SiteSpec};

/// The log program, where `rt run` in its crate leaves it.
pub const LOG: &str = concat!(env!("CARGO_MANIFEST_DIR"), "/../crates/frame_log/out/frame_log");

/// Runs a program for x86-64; WIRDHALEF_EMULATOR may name what runs it.
pub fn command(program: &str) -> Command {
    let emulator = env::var("WIRDHALEF_EMULATOR").unwrap_or_default();
    let mut words = emulator.split_whitespace().chain([program]);
    let mut command = Command::new(words.next().expect("a program"));
    command.args(words);
    command
}

/// What a call answers and what it leaves of all that was lent.
#[derive(Clone, Debug, PartialEq, Eq)]
pub struct Outcome<A> {
    pub answer: A,
    pub site: Vec<u8>,
    pub out: Vec<u8>,
}

/// What is lent to loading.
#[derive(Clone, Debug)]
pub struct Loading {
    pub file: Vec<u8>,
    pub site: Vec<u8>,
}

/// What is lent to receiving.
#[derive(Clone, Debug)]
pub struct Reception {
    pub site: Vec<u8>,
    pub frame: Vec<u8>,
    pub out: Vec<u8>,
}

/// What is lent to building.
#[derive(Clone, Debug)]
pub struct Order {
    pub site: Vec<u8>,
    pub input: BuildInput,
    pub out: Vec<u8>,
}

fn address(own: gateway::Address) -> second::Address {
    second::Address { mode: own.mode, pan: own.pan, address: own.address }
}

/// The same answer in the second implementation's type.
pub fn received(own: gateway::Received) -> second::Received {
    second::Received {
        status: own.status,
        header: second::Header {
            kind: own.header.kind,
            security: own.header.security,
            pending: own.header.pending,
            request: own.header.request,
            compression: own.header.compression,
            version: own.header.version,
            sequence: own.header.sequence,
            destination: address(own.header.destination),
            source: address(own.header.source),
        },
        level: own.level,
        keymode: own.keymode,
        device: own.device,
        private: own.private,
        start: own.start,
        len: own.len,
    }
}

/// The same request in the wrapper's type.
pub fn request(other: &second::Request) -> gateway::Request {
    let to = &other.destination;
    gateway::Request {
        kind: other.kind,
        version: other.version,
        pending: other.pending,
        request: other.request,
        sequence: other.sequence,
        destination: gateway::Address { mode: to.mode, pan: to.pan, address: to.address },
        srcmode: other.srcmode,
        level: other.level,
        keymode: other.keymode,
        keysource: other.keysource,
        keyindex: other.keyindex,
    }
}

impl Loading {
    /// What the archive does.
    pub fn ours(&self) -> Outcome<u8> {
        let mut site = self.site.clone();
        Outcome { answer: gateway::raw::load(&self.file, &mut site), site, out: Vec::new() }
    }

    /// What the second implementation does.
    pub fn theirs(&self) -> Outcome<u8> {
        let mut site = self.site.clone();
        Outcome { answer: second::load(&self.file, &mut site), site, out: Vec::new() }
    }

    fn fault(&self) -> Option<String> {
        let (ours, theirs) = (self.ours(), self.theirs());
        if ours != theirs {
            return Some(format!("ours {ours:02x?}\ntheirs {theirs:02x?}"));
        }
        match ours.answer {
            0 if gateway::raw::site_holds(&ours.site) => None,
            0 => Some("a loaded site breaks a rule".to_string()),
            _ if ours.site == self.site => None,
            _ => Some(format!("a refusal changed something: {ours:02x?}")),
        }
    }

    /// Both agree; gives the outcome.
    pub fn agreed(&self) -> Outcome<u8> {
        if let Some(fault) = self.fault() {
            panic!("file {:02x?}\nsite {} octets\n{fault}", self.file, self.site.len());
        }
        self.theirs()
    }
}

impl Reception {
    /// What the archive does.
    pub fn ours(&self) -> Outcome<second::Received> {
        let mut lent = self.clone();
        let answer = gateway::raw::receive(&mut lent.site, &lent.frame, &mut lent.out);
        Outcome { answer: received(answer), site: lent.site, out: lent.out }
    }

    /// What the second implementation does.
    pub fn theirs(&self) -> Outcome<second::Received> {
        let mut lent = self.clone();
        let answer = second::receive(&mut lent.site, &lent.frame, &mut lent.out);
        Outcome { answer, site: lent.site, out: lent.out }
    }

    /// Why the two disagree or break a promise, if they do.
    fn fault(&self) -> Option<String> {
        let (ours, theirs) = (self.ours(), self.theirs());
        if ours != theirs {
            return Some(format!("ours {ours:02x?}\ntheirs {theirs:02x?}"));
        }
        let answer = ours.answer;
        let refusal = second::Received { status: answer.status, ..second::Received::default() };
        let same = (&ours.site, &ours.out) == (&self.site, &self.out);
        if answer.status != 0 && !(answer == refusal && same) {
            return Some(format!("a refusal changed something: {ours:02x?}"));
        }
        let open = gateway::open_payload(&self.frame);
        if answer.status == 0 && *open != self.frame[answer.start..answer.start + answer.len] {
            return Some(format!("another open payload: {open:02x?}"));
        }
        None
    }

    /// Both agree; gives the outcome. A difference is cut down and printed.
    pub fn agreed(&self, spec: Option<&SiteSpec>) -> Outcome<second::Received> {
        if self.fault().is_some() {
            let least = self.least(spec);
            let fault = least.fault().unwrap_or_default();
            panic!(
                "site {:02x?}\nframe {:02x?}\nout {} octets\n{fault}",
                least.site,
                least.frame,
                least.out.len()
            );
        }
        self.theirs()
    }

    /// A small input that still tells the two apart.
    fn least(&self, spec: Option<&SiteSpec>) -> Reception {
        let mut least = self.clone();
        if let Some(spec) = spec {
            let tells =
                |spec: &SiteSpec| Reception { site: spec.site(), ..self.clone() }.fault().is_some();
            if tells(spec) {
                least.site = least_spec(spec.clone(), &tells).site();
            }
        }
        loop {
            let shorter = shorter_frames(&least.frame)
                .into_iter()
                .map(|frame| Reception { frame, ..least.clone() })
                .find(|reception| reception.fault().is_some());
            match shorter {
                Some(shorter) => least = shorter,
                None => return least,
            }
        }
    }
}

impl Order {
    /// What the archive does.
    pub fn ours(&self) -> Outcome<second::Built> {
        let mut lent = self.clone();
        let asked = request(&lent.input.request);
        let (open, private) = (&lent.input.open, &lent.input.private);
        let built = gateway::raw::build(&mut lent.site, &asked, open, private, &mut lent.out);
        let answer = second::Built { status: built.status, len: built.len };
        Outcome { answer, site: lent.site, out: lent.out }
    }

    /// What the second implementation does.
    pub fn theirs(&self) -> Outcome<second::Built> {
        let mut lent = self.clone();
        let (open, private) = (&lent.input.open, &lent.input.private);
        let answer =
            second::build(&mut lent.site, &lent.input.request, open, private, &mut lent.out);
        Outcome { answer, site: lent.site, out: lent.out }
    }

    fn fault(&self) -> Option<String> {
        let (ours, theirs) = (self.ours(), self.theirs());
        if ours != theirs {
            return Some(format!("ours {ours:02x?}\ntheirs {theirs:02x?}"));
        }
        let same = (&ours.site, &ours.out) == (&self.site, &self.out);
        (ours.answer.status != 0 && !same).then(|| format!("a refusal changed something: {ours:?}"))
    }

    /// Both agree; gives the outcome. A difference is cut down and printed.
    pub fn agreed(&self, spec: Option<&SiteSpec>) -> Outcome<second::Built> {
        if self.fault().is_some() {
            let mut least = self.clone();
            if let Some(spec) = spec {
                let tells =
                    |spec: &SiteSpec| Order { site: spec.site(), ..self.clone() }.fault().is_some();
                if tells(spec) {
                    least.site = least_spec(spec.clone(), &tells).site();
                }
            }
            least.input.private = (0..=self.input.private.len())
                .map(|len| self.input.private[..len].to_vec())
                .find(|private| {
                    let mut order = least.clone();
                    order.input.private = private.clone();
                    order.fault().is_some()
                })
                .unwrap_or_default();
            let fault = least.fault().unwrap_or_default();
            panic!(
                "site {:02x?}\n{:02x?}\nout {} octets\n{fault}",
                least.site,
                least.input,
                least.out.len()
            );
        }
        self.theirs()
    }
}

/// Drops records as long as the site still tells the two apart.
fn least_spec(mut spec: SiteSpec, tells: &dyn Fn(&SiteSpec) -> bool) -> SiteSpec {
    loop {
        match without_one(&spec).into_iter().find(|less| tells(less)) {
            Some(less) => spec = less,
            None => return spec,
        }
    }
}

/// The site without one of its records, in every way.
fn without_one(spec: &SiteSpec) -> Vec<SiteSpec> {
    let mut all = Vec::new();
    let mut add = |count: usize, remove: &dyn Fn(&mut SiteSpec, usize)| {
        for number in 0..count {
            let mut less = spec.clone();
            remove(&mut less, number);
            all.push(less);
        }
    };
    add(spec.handles.len(), &|less, number| {
        less.handles.remove(number);
    });
    add(spec.usages.len(), &|less, number| {
        less.usages.remove(number);
    });
    add(spec.lookups.len(), &|less, number| {
        less.lookups.remove(number);
    });
    add(spec.levels.len(), &|less, number| {
        less.levels.remove(number);
    });
    add(spec.devices.len(), &|less, number| {
        less.devices.remove(number);
    });
    add(spec.keys.len(), &|less, number| {
        less.keys.remove(number);
    });
    all
}

/// The frame without octets at its end, with and without its FCS redone.
fn shorter_frames(frame: &[u8]) -> Vec<Vec<u8>> {
    let mut all = Vec::new();
    for count in [64, 16, 4, 1] {
        let Some(len) = frame.len().checked_sub(count) else {
            continue;
        };
        all.push(frame[..len].to_vec());
        if let Some(body) = len.checked_sub(2) {
            all.push(summed(&frame[..body]));
        }
    }
    all
}

/// The loaded site, half of the time with random free octets.
pub fn some_free(rng: &mut Rng, spec: &SiteSpec) -> Vec<u8> {
    match rng.chance(50) {
        true => spec.site(),
        false => scribbled(rng, &spec.site()),
    }
}

/// A buffer of so many octets, none of them zero.
pub fn buffer(len: usize) -> Vec<u8> {
    (0..len).map(|place| 0x80 | place as u8).collect()
}

/// How often each of the statuses was answered.
#[derive(Default)]
pub struct Histogram {
    counts: [usize; 18],
}

impl Histogram {
    pub fn add(&mut self, status: u8) {
        self.counts[usize::from(status)] += 1;
    }

    /// Prints the counts; all statuses of a group must have been answered as
    /// often as it says.
    pub fn check(&self, title: &str, groups: &[(&[u8], usize)]) {
        println!("{title}: {} answers", self.counts.iter().sum::<usize>());
        let named = self.counts.iter().zip(second::status::NAMES);
        for (count, name) in named.filter(|(count, _)| **count > 0) {
            println!("{count:>8} {name}");
        }
        for (statuses, least) in groups {
            for &status in *statuses {
                let count = self.counts[usize::from(status)];
                assert!(count >= *least, "{title}: status {status} only {count} times");
            }
        }
    }
}
