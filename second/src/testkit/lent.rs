//! What may be lent: files and sites of any content and length.

use std::ops::Range;

use super::damage::{add_to, set_count, Allowance, FileBreakage, SiteBreakage};
use super::rng::Rng;
use super::sites::SiteSpec;
use crate::file::CONTENTS_LEN;
use crate::octets::u16_at;
use crate::records::{Kind, KINDS};
use crate::site::{count_at, region_at, HEADER_LEN, SITE_LEN};

/// The longest file or site that is drawn.
pub const LENT_MOST: usize = 4096;

/// Where the free octets of a site that keeps its rules stand.
pub fn free_octets(site: &[u8]) -> Vec<Range<usize>> {
    let behind = |kind: Kind| {
        let count = usize::from(u16_at(site, count_at(kind)));
        let end_of = |count: usize| region_at(kind) + count * kind.record_len();
        end_of(count)..end_of(kind.limit())
    };
    let header = count_at(Kind::Handles) + 2..HEADER_LEN;
    [header].into_iter().chain(Kind::ALL.map(behind)).collect()
}

/// The site with random octets where they are free.
pub fn scribbled(rng: &mut Rng, site: &[u8]) -> Vec<u8> {
    let mut site = site.to_vec();
    for free in free_octets(&site) {
        site[free].fill_with(|| rng.octet());
    }
    site
}

/// A file of any content: good ones, damaged ones and random octets.
pub fn any_file(rng: &mut Rng, spec: &SiteSpec) -> Vec<u8> {
    let mut file = spec.encode();
    match rng.below(10) {
        0 => rng.pick(&FileBreakage::all()).apply(rng, spec),
        1 => rng.pick(&Allowance::all()).apply(rng, spec).encode(),
        2 => {
            let len = rng.between(0, LENT_MOST);
            rng.octets(len)
        }
        3 => {
            let at = if rng.chance(50) { rng.below(CONTENTS_LEN) } else { rng.below(file.len()) };
            file[at] ^= 1 << rng.below(8);
            file
        }
        4 => cut_or_lengthened(rng, file),
        _ => file,
    }
}

/// A site of any content: good ones, changed ones and random octets.
pub fn any_site(rng: &mut Rng, spec: &SiteSpec) -> Vec<u8> {
    let site = spec.site();
    match rng.below(10) {
        0 => rng.pick(&SiteBreakage::all()).apply(rng, spec),
        1 => rng.pick(&Allowance::all()).apply(rng, spec).site(),
        2 => rng.octets(SITE_LEN),
        3 => counted(rng),
        4 => cut_or_lengthened(rng, site),
        5 | 6 => changed_site(rng, &site),
        7 => recounted(rng, &site),
        8 => scribbled(rng, &site),
        _ => site,
    }
}

/// A buffer for loading, of any content; most have a site's length.
pub fn any_buffer(rng: &mut Rng) -> Vec<u8> {
    let near = rng.between(SITE_LEN - 3, SITE_LEN + 3);
    let far = rng.between(0, LENT_MOST);
    let len = match rng.below(10) {
        0 => rng.pick(&[0, 1, HEADER_LEN, CONTENTS_LEN, LENT_MOST]),
        1 => near,
        2 => far,
        _ => SITE_LEN,
    };
    rng.octets(len)
}

/// The site with a few octets changed anywhere, often among the records.
pub fn changed_site(rng: &mut Rng, site: &[u8]) -> Vec<u8> {
    let mut site = site.to_vec();
    for _ in 0..rng.between(1, 3) {
        let kind = Kind::ALL[rng.below(KINDS)];
        let used = usize::from(u16_at(&site, count_at(kind))) * kind.record_len();
        let at = match rng.chance(80) && used > 0 {
            true => (region_at(kind) + rng.below(used)).min(site.len() - 1),
            false => rng.below(site.len()),
        };
        match rng.chance(80) {
            true => site[at] ^= 1 << rng.below(8),
            false => site[at] = rng.octet(),
        }
    }
    site
}

/// The site with another count: records less, or free octets taken for one.
fn recounted(rng: &mut Rng, site: &[u8]) -> Vec<u8> {
    let kind = Kind::ALL[rng.below(KINDS)];
    let mut site = if rng.chance(50) { scribbled(rng, site) } else { site.to_vec() };
    match rng.chance(80) {
        true => add_to(&mut site, count_at(kind), rng.pick(&[1, 0xffff])),
        false => set_count(&mut site, kind, rng.below(kind.limit() + 1)),
    }
    site
}

/// Random octets under counts that hold.
fn counted(rng: &mut Rng) -> Vec<u8> {
    let mut site = rng.octets(SITE_LEN);
    for kind in Kind::ALL {
        let count = match kind {
            Kind::Settings => 1,
            _ => rng.pick(&[0, 0, 0, 1, 1, 2]),
        };
        set_count(&mut site, kind, count);
    }
    if rng.chance(50) {
        // The flags, so that a site without other records holds.
        site[region_at(Kind::Settings) + 30] = rng.below(4) as u8;
    }
    site
}

fn cut_or_lengthened(rng: &mut Rng, mut octets: Vec<u8>) -> Vec<u8> {
    match rng.chance(50) {
        true => octets.truncate(rng.below(octets.len())),
        false => {
            let more = rng.between(1, LENT_MOST - octets.len());
            octets.extend(rng.octets(more));
        }
    }
    octets
}
