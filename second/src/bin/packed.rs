//! Writes the packed vectors to standard output, for `crates/vectors/stdin`.

use std::io::Write;

fn main() -> std::io::Result<()> {
    let vectors = include_str!("../../vectors/vectors.txt");
    let cavp = include_str!("../../vectors/vectors-ccm-cavp.txt");
    std::io::stdout().write_all(&second::packed::packed(vectors, cavp))
}
