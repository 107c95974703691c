//! Where the proved library is found: the archive that `rt lib` in crates/suvdorkhun_c
//! writes into the crate's out/. The environment variable STATICLIB names another
//! directory to take it from.

use std::env;
use std::path::PathBuf;

const ARCHIVE: &str = "libsuvdorkhun_c.a";

fn main() {
    println!("cargo:rerun-if-env-changed=STATICLIB");
    let directory = directory();
    println!("cargo:rustc-link-search=native={}", directory.display());
    let archive = directory.join(ARCHIVE);
    println!("cargo:rerun-if-changed={}", archive.display());
    if !archive.is_file() {
        let missing = format!("there is no {}", archive.display());
        let remedy = "run `rt lib` in the repository's crates/suvdorkhun_c first";
        println!("cargo:warning={}: {}", missing, remedy);
    }
}

fn directory() -> PathBuf {
    let package = PathBuf::from(env::var_os("CARGO_MANIFEST_DIR").expect("cargo sets it"));
    match env::var_os("STATICLIB") {
        Some(named) => package.join(named),
        None => package.join("../crates/suvdorkhun_c/out"),
    }
}
