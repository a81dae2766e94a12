//! The archive and the log program beside the second implementation, in one
//! run.
//!
//! - `cargo run --release --example bench`: frames per second, and the ratio
//!   (`tools/bench` runs it with an archive for the machine at hand). The log
//!   program is for x86-64, and its rows are timed there alone.
//! - `... bench rows`: the titles of the rows.
//! - `... bench calls ROW ours|second COUNT`: so many calls of a row alone,
//!   and `... bench input ROW COUNT`: the input of a row of the log with so
//!   many frames; for counting instructions (`tools/instructions`).
//! - `... bench log`: the second implementation's log program.
//!
//! The log program is run where it was built,
//! `crates/frame_log/out/frame_log`; WIRDHALEF_EMULATOR may name a command
//! that runs it and this program.

#[path = "../tests/common/mod.rs"]
mod common;

use std::env;
use std::fs::File;
use std::io::{stdin, stdout, Read, Write};
use std::ops::Range;
use std::path::Path;
use std::time::{Duration, Instant};

use common::{command, LOG};
use second::records::Kind;
use second::site::{device_counter_at, region_at};
use second::testkit::{log_of, probe_frame, probe_request, probed, run_of};
use second::testkit::{summed_again, Allowance, Rng, SiteSpec};

const KEY: [u8; 16] = [0x3c; 16];
const LEAST: Duration = Duration::from_millis(200);
/// The frames of a log.
const LOGGED: u32 = 20_000;
/// Settings and first device: where the calls of this program change a site.
const CHANGED: Range<usize> = region_at(Kind::Settings)..device_counter_at(0) + 4;

/// A call of both sides, and how many frames one takes.
struct Row {
    title: String,
    frames: u32,
    ours: Box<dyn FnMut()>,
    second: Box<dyn FnMut()>,
}

/// A site that is put back before each call.
struct Lent {
    fresh: Vec<u8>,
    site: Vec<u8>,
    out: [u8; 127],
}

impl Lent {
    fn new(site: &[u8]) -> Self {
        Lent { fresh: site.to_vec(), site: site.to_vec(), out: [0; 127] }
    }

    fn again(&mut self) -> (&mut [u8], &mut [u8]) {
        self.site[CHANGED].copy_from_slice(&self.fresh[CHANGED]);
        (&mut self.site, &mut self.out)
    }
}

fn row(
    title: String,
    site: &[u8],
    frames: u32,
    mut ours: impl FnMut(&mut [u8], &mut [u8]) + 'static,
    mut second: impl FnMut(&mut [u8], &mut [u8]) + 'static,
) -> Row {
    let (mut lent, mut other) = (Lent::new(site), Lent::new(site));
    let call = move || {
        let (site, out) = lent.again();
        ours(site, out)
    };
    let other_call = move || {
        let (site, out) = other.again();
        second(site, out)
    };
    Row { title, frames, ours: Box::new(call), second: Box::new(other_call) }
}

/// A file loaded over a site; no frame is taken, and the load counts as one.
fn loading(title: String, spec: &SiteSpec) -> Row {
    let file = spec.encode();
    let other = file.clone();
    row(
        title,
        &spec.site(),
        1,
        move |site, _| {
            gateway::raw::load(&file, site);
        },
        move |site, _| {
            second::load(&other, site);
        },
    )
}

fn receiving(title: String, site: &[u8], frame: Vec<u8>) -> Row {
    let other = frame.clone();
    row(
        title,
        site,
        1,
        move |site, out| {
            gateway::raw::receive(site, &frame, out);
        },
        move |site, out| {
            second::receive(site, &other, out);
        },
    )
}

/// A hundred frames on a site that is checked once.
fn many(title: String, site: &[u8], len: usize) -> Row {
    let frames = frames(len, 100);
    let run = run_of(&frames);
    row(
        title,
        site,
        100,
        move |site, out| {
            gateway::raw::receive_many(site, &run, out);
        },
        move |site, out| {
            if second::site_holds(site) {
                for frame in &frames {
                    second::receive_valid(site, frame, out);
                }
            }
        },
    )
}

fn building(title: String, site: &[u8], level: u8, len: usize) -> Row {
    let request = probe_request(level);
    let own = common::request(&request);
    let private = vec![7; len];
    let other = private.clone();
    row(
        title,
        site,
        1,
        move |site, out| {
            gateway::raw::build(site, &own, &[], &private, out);
        },
        move |site, out| {
            second::build(site, &request, &[], &other, out);
        },
    )
}

/// Frames of the probe with so many private octets, their counters rising.
fn frames(len: usize, count: u32) -> Vec<Vec<u8>> {
    (0..count).map(|counter| probe_frame(counter, 6, &KEY, &vec![7; len])).collect()
}

/// A small and the largest site, where what is sought stands first.
fn sites() -> [(&'static str, SiteSpec); 2] {
    let small = probed(0, KEY);
    let full = Allowance::Largest.apply(&mut Rng::new(1), &small);
    [("small site", small), ("full site", full)]
}

/// Short and full frames on each site: a title, the private length and the
/// site.
fn shapes() -> Vec<(String, usize, SiteSpec)> {
    let mut all = Vec::new();
    for (name, spec) in sites() {
        for (size, len) in [("short", 4), ("full", 102)] {
            all.push((format!("{size}, {name}"), len, spec.clone()));
        }
    }
    all
}

fn rows() -> Vec<Row> {
    let mut rows: Vec<Row> =
        sites().iter().map(|(name, spec)| loading(format!("load, {name}"), spec)).collect();
    for (shape, len, spec) in shapes() {
        let site = spec.site();
        let good = frames(len, 1).remove(0);
        let mut tagged = good.clone();
        tagged[good.len() - 3] ^= 1;
        rows.push(receiving(format!("receive, accepted, {shape}"), &site, good));
        rows.push(receiving(format!("receive, wrong FCS, {shape}"), &site, tagged.clone()));
        let tagged = summed_again(&tagged);
        rows.push(receiving(format!("receive, wrong tag, {shape}"), &site, tagged));
        rows.push(many(format!("receive many, accepted, {shape}"), &site, len));
        rows.push(building(format!("build, level 6, {shape}"), &site, 6, len));
        rows.push(building(format!("build, level 0, {shape}"), &site, 0, len));
    }
    rows
}

/// The inputs of the log program, with titles.
fn logs(count: u32) -> Vec<(String, Vec<u8>)> {
    let log = |(shape, len, spec): (String, usize, SiteSpec)| {
        (format!("log, accepted, {shape}"), log_of(&spec.encode(), &frames(len, count)))
    };
    shapes().into_iter().map(log).collect()
}

/// Calls per second.
fn rate(call: &mut dyn FnMut(), batch: u32) -> f64 {
    let (mut calls, start) = (0, Instant::now());
    while start.elapsed() < LEAST {
        for _ in 0..batch {
            call();
        }
        calls += batch;
    }
    f64::from(calls) / start.elapsed().as_secs_f64()
}

fn line(title: &str, frames: u32, ours: f64, second: f64) {
    let (ours, second) = (ours * f64::from(frames), second * f64::from(frames));
    println!("{title:<44} {ours:>11.0} {second:>11.0} {:>6.2}", ours / second);
}

/// Runs a log program on an input to its end.
fn run(program: &str, words: &[&str], input: &Path) {
    let output = command(program)
        .args(words)
        .stdin(File::open(input).expect("the input"))
        .output()
        .expect("the log program runs");
    let accepted = [4, 102].map(|len| format!("{LOGGED} SUCCESS {len}\n"));
    let all = accepted.iter().any(|line| output.stdout.ends_with(line.as_bytes()));
    assert!(all, "{program} accepts every frame (WIRDHALEF_EMULATOR names what runs it)");
}

/// The log program beside that of the second implementation, each with its
/// start.
fn time_logs() {
    if !Path::new(LOG).exists() {
        println!("no log program: `./read-log` builds it");
        return;
    }
    let own = env::current_exe().expect("this program");
    let own = own.to_str().expect("a readable path");
    let file = env::temp_dir().join(format!("wirdhalef-log-{}", std::process::id()));
    for (title, input) in logs(LOGGED) {
        std::fs::write(&file, input).expect("the input is written");
        let ours = rate(&mut || run(LOG, &[], &file), 1);
        let second = rate(&mut || run(own, &["log"], &file), 1);
        line(&title, LOGGED, ours, second);
    }
    std::fs::remove_file(&file).expect("the input is removed");
}

fn time_all() {
    println!("{:<44} {:>11} {:>11} {:>6}", "frames per second", "ours", "second", "ratio");
    for mut row in rows() {
        let (ours, second) = (rate(&mut row.ours, 100), rate(&mut row.second, 100));
        line(&row.title, row.frames, ours, second);
    }
    if cfg!(target_arch = "x86_64") {
        time_logs();
    }
}

/// So many calls of one side of a row.
fn calls(title: &str, side: &str, count: u32) {
    let mut row = rows().into_iter().find(|row| row.title == title).expect("a row");
    for _ in 0..count {
        match side {
            "ours" => (row.ours)(),
            _ => (row.second)(),
        }
    }
}

fn main() {
    let words: Vec<String> = env::args().skip(1).collect();
    let words: Vec<&str> = words.iter().map(String::as_str).collect();
    let number = |word: &str| word.parse().expect("a number");
    match words[..] {
        ["rows"] => {
            rows().iter().for_each(|row| println!("{} {}", row.frames, row.title));
            logs(0).iter().for_each(|(title, _)| println!("1 {title}"));
        }
        ["calls", title, side, count] => calls(title, side, number(count)),
        ["input", title, count] => {
            let mut logs = logs(number(count)).into_iter();
            let (_, input) = logs.find(|log| log.0 == title).expect("a row of the log");
            stdout().write_all(&input).expect("the input is written");
        }
        ["log"] => {
            let mut input = Vec::new();
            stdin().read_to_end(&mut input).expect("an input");
            stdout().write_all(&second::log(&input)).expect("the lines are written");
        }
        _ => time_all(),
    }
}
