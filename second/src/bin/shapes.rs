//! Writes the site files that the crate `shapes` reads to standard output, for
//! `crates/shapes/stdin`.

use std::io::Write;

fn main() -> std::io::Result<()> {
    std::io::stdout().write_all(&second::shapes::input())
}
