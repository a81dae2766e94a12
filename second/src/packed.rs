//! The published vectors in the packed form that the crate `vectors` reads;
//! its `layout.txt` describes a record.

use crate::testkit::hex;

const RECORD: usize = 208;
/// Where a record says a level, this says a block of AES.
const BLOCK: u8 = 8;

/// The key and the nonce of Annex C, up to the level.
const ANNEX_KEY: &str = "C0C1C2C3C4C5C6C7C8C9CACBCCCDCECF";
const ANNEX_NONCE: &str = "ACDE480000000001 00000005";
/// Annex C.2.1 to C.2.3: title, level, authenticated octets, private
/// payload, the same as sent, tag.
const ANNEX: [(&str, u8, &str, &str, &str, &str); 3] = [
    (
        "Annex C.2.1 beacon",
        2,
        "08D0842143010000000048DEAC 02 05000000 55CF0000",
        "51525354",
        "51525354",
        "223BC1EC841AB553",
    ),
    (
        "Annex C.2.2 data",
        4,
        "69DC842143020000000048DEAC010000000048DEAC 04 05000000",
        "61626364",
        "D43E022B",
        "",
    ),
    (
        "Annex C.2.3 command",
        6,
        "2BDC842143020000000048DEACFFFF010000000048DEAC 06 05000000 01",
        "CE",
        "D8",
        "4FDE529061F9C6F1",
    ),
];

/// A vector of AES or CCM*.
#[derive(Clone, Default)]
struct Vector {
    title: String,
    level: u8,
    accepted: bool,
    key: Vec<u8>,
    nonce: Vec<u8>,
    data: Vec<u8>,
    text: Vec<u8>,
    cipher: Vec<u8>,
    tag: Vec<u8>,
}

impl Vector {
    fn pack(&self) -> [u8; RECORD] {
        let mut record = [0; RECORD];
        record[0] = self.level;
        record[1] = self.data.len() as u8;
        record[2] = self.text.len() as u8;
        record[3] = u8::from(self.accepted);
        let mut put = |at: usize, room: usize, octets: &[u8]| {
            assert!(octets.len() <= room, "{}", self.title);
            record[at..at + octets.len()].copy_from_slice(octets);
        };
        put(4, 28, format!("{:28}", self.title).as_bytes());
        put(32, 16, &self.key);
        put(48, 16, &self.nonce);
        put(64, 64, &[&self.data[..], &self.text].concat());
        put(128, 80, &[&self.data[..], &self.cipher, &self.tag].concat());
        record
    }
}

/// The word behind a label, without its comma, colon or dot.
fn after<'a>(line: &'a str, label: &str) -> &'a str {
    let mut words = line.split_whitespace();
    words.find(|word| *word == label).expect("the label");
    words.next().expect("a value").trim_end_matches([',', ':', '.'])
}

fn block(title: String, key: &str, line: &str) -> Vector {
    Vector {
        title,
        level: BLOCK,
        accepted: true,
        key: hex(key),
        text: hex(after(line, "block")),
        cipher: hex(after(line, "cipher")),
        ..Vector::default()
    }
}

/// The blocks of FIPS 197 and SP 800-38A.
fn blocks(text: &str) -> Vec<Vector> {
    let mut all = Vec::new();
    let mut key = "";
    for line in text.lines() {
        if line.starts_with("FIPS 197") || line.starts_with("SP 800-38A") {
            key = after(line, "key");
        }
        if line.starts_with("FIPS 197") {
            let title = format!("FIPS 197 Appendix {}", after(line, "Appendix"));
            all.push(block(title, key, line));
        }
        if line.starts_with("  block") {
            let title = format!("SP 800-38A F.1.1 block {}", all.len() - 1);
            all.push(block(title, key, line));
        }
    }
    all
}

/// The packets of RFC 3610.
fn packets(text: &str) -> Vec<Vector> {
    let mut lines = text.lines().skip_while(|line| !line.starts_with("RFC 3610"));
    let key = hex(after(lines.next().expect("the heading"), "key"));
    let packets = lines.take_while(|line| line.contains("nonce"));
    let packet = |line: &str| {
        let octets: Vec<u8> = (0..after(line, "packet").parse().expect("a length")).collect();
        let opens: usize = after(line, "a").parse().expect("a length");
        let sealed = hex(line.rsplit(':').next().expect("octets"));
        let end = sealed.len() - 8;
        Vector {
            title: format!("RFC 3610 packet {}", line.split(':').next().expect("a number").trim()),
            level: 6,
            accepted: true,
            key: key.clone(),
            nonce: hex(after(line, "nonce")),
            data: octets[..opens].to_vec(),
            text: octets[opens..].to_vec(),
            cipher: sealed[..end].to_vec(),
            tag: sealed[end..].to_vec(),
        }
    };
    packets.map(packet).collect()
}

/// The lines of the CAVP file; the title has the line's number.
fn cavp(text: &str) -> Vec<Vector> {
    let vector = |(number, line): (usize, &str)| {
        let words: Vec<&str> = line.split_whitespace().collect();
        let octets = |word: usize| hex(words[word].trim_matches('-'));
        Vector {
            title: format!("CAVP {} tag {} {}", number + 1, words[0], words[7]),
            level: match words[0] {
                "4" => 5,
                "8" => 6,
                "16" => 7,
                other => panic!("tag of {other}"),
            },
            accepted: words[7] == "accepted",
            key: octets(1),
            nonce: octets(2),
            data: octets(3),
            text: octets(4),
            cipher: octets(5),
            tag: octets(6),
        }
    };
    let lines = text.lines().enumerate();
    lines.filter(|(_, line)| !line.starts_with('#') && !line.is_empty()).map(vector).collect()
}

/// The three frames of Annex C.
fn annex() -> Vec<Vector> {
    let vector =
        |(title, level, data, text, cipher, tag): &(&str, u8, &str, &str, &str, &str)| Vector {
            title: title.to_string(),
            level: *level,
            accepted: true,
            key: hex(ANNEX_KEY),
            nonce: [hex(ANNEX_NONCE), vec![*level]].concat(),
            data: hex(data),
            text: hex(text),
            cipher: hex(cipher),
            tag: hex(tag),
        };
    ANNEX.iter().map(vector).collect()
}

/// All vectors, from the text of the two vector files.
pub fn packed(vectors: &str, cavp_lines: &str) -> Vec<u8> {
    let all = [blocks(vectors), packets(vectors), annex(), cavp(cavp_lines)].concat();
    all.iter().flat_map(Vector::pack).collect()
}
