//! Helpers for tests: sites, frames and build requests, made by hand or drawn
//! at random from a seed.
//!
//! - `Rng`: the generator; the same seed draws the same things.
//! - `SiteSpec`: a site as records; `encode` gives its file, `site` what
//!   loading makes of it.
//! - `FileBreakage`, `SiteBreakage`, `RecordBreakage`, `Allowance`: each way to
//!   break a rule of the file, of the site and of the records in both, and what
//!   looks broken and is not.
//! - `any_file`, `any_site`, `any_buffer`: files, sites and buffers of any
//!   content; `changed_site`, `scribbled`, `free_octets`: sites changed
//!   anywhere, and in their free octets alone.
//! - `Plan`: a frame as fields; `bare` and `seal` give its octets.
//! - `FrameCase`, `frame`: random frames that fit a site, good and damaged.
//! - `BuildInput`, `RequestBreakage`, `request`: random build requests.
//! - `summed`, `summed_again`: a frame's FCS put behind it, and redone.
//! - `KnownFrame`, `KnownRequest`: published vectors as whole frames.
//! - `probed`, `probe_frame`, `probe_request`: a small site, a frame to it and
//!   a request of it.
//! - `Cases`: the input of the answers program and what it must write.
//! - `run_of`, `log_of`, `log_input`: frames in a row, an input of the log
//!   program, and a random one.
//! - `hex`: octets from their hexadecimal digits.

mod answers;
mod damage;
mod frames;
mod kept;
mod lent;
mod requests;
mod rng;
mod sites;
mod vectors;

pub use answers::Cases;
pub use damage::{Allowance, FileBreakage, RecordBreakage, SiteBreakage};
pub use frames::{frame, frame_of, log_input, log_of, open_payload, run_of};
pub use frames::{summed, summed_again, FrameCase, Plan};
pub use lent::{any_buffer, any_file, any_site, changed_site, free_octets, scribbled, LENT_MOST};
pub use requests::{request, request_of, BuildInput, RequestBreakage};
pub use rng::Rng;
pub use sites::{Device, Handle, Level, Lookup, Settings, SiteSpec, Usage};
pub use vectors::{known_frames, known_requests, probe, probe_frame, probe_request, probed};
pub use vectors::{KnownFrame, KnownRequest, ANNEX_KEY, ONE, TWO};

/// The octets written in hexadecimal; blanks and bars are skipped.
pub fn hex(text: &str) -> Vec<u8> {
    let digits: Vec<u8> = text
        .chars()
        .filter(|digit| !digit.is_whitespace() && *digit != '|')
        .map(|digit| digit.to_digit(16).expect("a hexadecimal digit") as u8)
        .collect();
    digits.chunks(2).map(|pair| pair[0] << 4 | pair[1]).collect()
}
