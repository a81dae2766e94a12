//! The site file: its table of contents, and loading it into a site.

use crate::octets::u16_at;
use crate::records::{room_of, Kind, Records, KINDS};
use crate::site::{write_site, SITE_LEN};
use crate::status;

/// The octets of an entry: kind 1, record length 1, count 2, offset 2.
pub const ENTRY_LEN: usize = 6;
/// The octets of the table of contents.
pub const CONTENTS_LEN: usize = KINDS * ENTRY_LEN;
/// The octets of the largest file.
pub const FILE_MOST: usize = CONTENTS_LEN + room_of(KINDS);

/// Makes the site of a file and gives the status: 1 where the file breaks a
/// rule, else 2 where the site has not its length. A refusal changes nothing.
pub fn load(file: &[u8], site: &mut [u8]) -> u8 {
    let Some(records) = file_records(file).filter(Records::hold) else {
        return status::SITE;
    };
    if site.len() != SITE_LEN {
        return status::ROOM;
    }
    write_site(&records, site);
    status::SUCCESS
}

/// The records of a file whose table of contents fits itself and the length.
fn file_records(file: &[u8]) -> Option<Records<'_>> {
    let contents = file.get(..CONTENTS_LEN)?;
    let mut octets: [&[u8]; KINDS] = [&[]; KINDS];
    let mut offset = CONTENTS_LEN;
    for (kind, entry) in Kind::ALL.into_iter().zip(contents.chunks_exact(ENTRY_LEN)) {
        let count = usize::from(u16_at(entry, 2));
        let holds = usize::from(entry[0]) == kind as usize + 1
            && usize::from(entry[1]) == kind.record_len()
            && kind.admits(count)
            && usize::from(u16_at(entry, 4)) == offset;
        if !holds {
            return None;
        }
        let end = offset + count * kind.record_len();
        octets[kind as usize] = file.get(offset..end)?;
        offset = end;
    }
    (offset == file.len()).then(|| Records::new(octets))
}
