//! Links the static archive of the proved library.
//!
//! It is looked for in `MOVER_LIB_DIR`, or else where `hosts/archives host_calls` puts it.

use std::env;
use std::path::PathBuf;

const ARCHIVE: &str = "libhost_calls.a";

fn main() {
    println!("cargo:rerun-if-env-changed=MOVER_LIB_DIR");
    let here = PathBuf::from(env::var("CARGO_MANIFEST_DIR").expect("set by cargo"));
    let directory = match env::var_os("MOVER_LIB_DIR") {
        Some(directory) => here.join(directory),
        None => here.join("../../target/staticlib"),
    };
    let archive = directory.join(ARCHIVE);
    println!("cargo:rerun-if-changed={}", archive.display());
    if !archive.exists() {
        eprintln!("{} is not there.", archive.display());
        eprintln!("Make it with `hosts/archives host_calls` at the top of the repository,");
        eprintln!("or say in MOVER_LIB_DIR which directory has {ARCHIVE}.");
        std::process::exit(1);
    }
    println!("cargo:rustc-link-search=native={}", directory.display());
    println!("cargo:rustc-link-lib=static=host_calls");
}
