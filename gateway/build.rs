//! Links the archive that `tools/archive` writes at the repository's root, on
//! x86-64, or the one in the folder that WIRDHALEF_ARCHIVE names.

use std::env;
use std::path::{Path, PathBuf};

fn folder() -> Option<PathBuf> {
    println!("cargo:rerun-if-env-changed=WIRDHALEF_ARCHIVE");
    if let Some(folder) = env::var_os("WIRDHALEF_ARCHIVE") {
        return Some(folder.into());
    }
    let machine = env::var("CARGO_CFG_TARGET_ARCH").expect("set by cargo");
    let manifest = env::var("CARGO_MANIFEST_DIR").expect("set by cargo");
    (machine == "x86_64").then(|| Path::new(&manifest).join("../target/staticlib"))
}

fn main() {
    println!("cargo:rustc-check-cfg=cfg(linked)");
    if let Some(folder) = folder() {
        println!("cargo:rustc-cfg=linked");
        println!("cargo:rustc-link-search=native={}", folder.display());
        println!("cargo:rustc-link-lib=static=export");
        println!("cargo:rerun-if-changed={}", folder.join("libexport.a").display());
    }
}
