//! The archive's functions, asked of the answers program: the same proved
//! code behind a pipe. For tests on machines that cannot link the archive.
//!
//! `second/src/testkit/answers.rs` has the layout of what passes. The program
//! is run where `rt ci` and `rt run` build it, in `crates/answers/out`;
//! WIRDHALEF_EMULATOR names the command that runs it.

use std::cell::RefCell;
use std::env;
use std::io::{Read, Write};
use std::process::{Child, ChildStdin, ChildStdout, Command, Stdio};

const PROGRAM: &str = concat!(env!("CARGO_MANIFEST_DIR"), "/../crates/answers/out/answers");
/// The program's room for an item's parts, for the output and for the site.
const PARTS_LEN: usize = 4096;
const OUT_LEN: usize = 512;
const SITE_ROOM: usize = 4096;
/// The kind of item that loads; its room is the site's.
const LOAD: u8 = 6;

thread_local! {
    static ASKED: RefCell<Program> = RefCell::new(Program::start());
}

struct Program {
    child: Child,
    /// Taken when the program is to end.
    input: Option<ChildStdin>,
    output: ChildStdout,
    items: Vec<u8>,
}

impl Program {
    fn start() -> Program {
        let emulator = env::var("WIRDHALEF_EMULATOR").unwrap_or_default();
        let mut words = emulator.split_whitespace().chain([PROGRAM]);
        let mut child = Command::new(words.next().expect("a program"))
            .args(words)
            .stdin(Stdio::piped())
            .stdout(Stdio::piped())
            .spawn()
            .expect("the answers program starts");
        let input = child.stdin.take();
        let output = child.stdout.take().expect("a standard output");
        Program { child, input, output, items: Vec::new() }
    }

    fn item(&mut self, kind: u8, room: usize, parts: [&[u8]; 3]) -> &mut Program {
        let parts_len = parts.iter().map(|part| part.len()).sum::<usize>();
        let most = if kind == LOAD { SITE_ROOM } else { OUT_LEN };
        assert!(room <= most && parts_len <= PARTS_LEN, "more than the program has room for");
        self.items.push(kind);
        for len in [room, parts[0].len(), parts[1].len(), parts[2].len()] {
            self.items.extend((len as u16).to_le_bytes());
        }
        for part in parts {
            self.items.extend(part);
        }
        self
    }

    fn site(&mut self, site: &[u8]) -> &mut Program {
        self.item(0, 0, [site, &[], &[]])
    }

    /// What the output holds before the next call.
    fn out(&mut self, out: &[u8]) -> &mut Program {
        self.item(5, out.len(), [out, &[], &[]])
    }

    /// The site, as the calls before left it.
    fn shown(&mut self) -> &mut Program {
        self.item(4, 0, [&[], &[], &[]])
    }

    /// Sends the items, and takes what they are answered with.
    fn answers(&mut self, answers: &mut [&mut [u8]]) {
        let input = self.input.as_mut().expect("a standard input");
        input.write_all(&self.items).expect("the program reads");
        self.items.clear();
        for answer in answers {
            self.output.read_exact(answer).expect("the program answers");
        }
    }
}

impl Drop for Program {
    fn drop(&mut self) {
        drop(self.input.take());
        let _ = self.child.wait();
    }
}

/// Lends the site's octets, loads over them, and takes them back.
pub fn load(file: &[u8], site: &mut [u8]) -> u8 {
    let mut status = [0];
    ASKED.with(|asked| {
        let mut asked = asked.borrow_mut();
        asked.site(site).item(LOAD, site.len(), [file, &[], &[]]).shown();
        asked.answers(&mut [&mut [0], &mut status, site]);
    });
    status[0]
}

pub fn site_holds(site: &[u8]) -> u8 {
    let mut holds = [0];
    ASKED.with(|asked| asked.borrow_mut().site(site).answers(&mut [&mut holds]));
    holds[0]
}

/// Lends site and output, makes one call, and takes its answer and both back.
fn call(
    kind: u8,
    site: &mut [u8],
    parts: [&[u8]; 3],
    out: &mut [u8],
    answer: &mut [u8],
    behind: &mut [u8],
) {
    ASKED.with(|asked| {
        let mut asked = asked.borrow_mut();
        asked.site(site).out(out).item(kind, out.len(), parts).shown();
        asked.answers(&mut [&mut [0], answer, out, behind, site]);
    })
}

pub fn receive(site: &mut [u8], frame: &[u8], out: &mut [u8], answer: &mut [u8]) -> u8 {
    call(1, site, [frame, &[], &[]], out, answer, &mut [0; 4]);
    answer[0]
}

pub fn receive_many(site: &mut [u8], frames: &[u8], out: &mut [u8]) -> u64 {
    let mut count = [0; 8];
    call(3, site, [frames, &[], &[]], out, &mut count, &mut []);
    u64::from_le_bytes(count)
}

pub fn open_payload(frame: &[u8]) -> u32 {
    let mut place = [0; 4];
    call(1, &mut [], [frame, &[], &[]], &mut [], &mut [0; 48], &mut place);
    u32::from_le_bytes(place)
}

pub fn build(site: &mut [u8], request: &[u8], opens: &[u8], private: &[u8], out: &mut [u8]) -> u32 {
    let mut answer = [0; 4];
    call(2, site, [request, opens, private], out, &mut answer, &mut []);
    u32::from_le_bytes(answer)
}
