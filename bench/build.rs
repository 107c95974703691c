//! Where the program `bench` finds the proved functions on links: the archive that
//! `rt lib` in crates/links_c writes into the crate's out/. The environment variable
//! STATICLIB names another directory to take it from. The program `lines` is built
//! without it.

use std::env;
use std::path::PathBuf;

fn main() {
    println!("cargo:rerun-if-env-changed=STATICLIB");
    let directory = directory();
    println!("cargo:rustc-link-search=native={}", directory.display());
    let archive = directory.join("liblinks_c.a");
    println!("cargo:rerun-if-changed={}", archive.display());
    if !archive.is_file() {
        let missing = format!("there is no {}", archive.display());
        let remedy = "run `rt lib` in the repository's crates/links_c first";
        println!("cargo:warning={}: to build bench, {}", missing, remedy);
    }
}

fn directory() -> PathBuf {
    let package = PathBuf::from(env::var_os("CARGO_MANIFEST_DIR").expect("cargo sets it"));
    match env::var_os("STATICLIB") {
        Some(named) => package.join(named),
        None => package.join("../crates/links_c/out"),
    }
}
