//! Compiles the LEMON solver of the benchmark, if there is a C++ compiler that finds LEMON's headers.

use std::env;
use std::path::PathBuf;
use std::process::{Command, Stdio};

const SOURCE: &str = "../../bench/src/lemon.cpp";

fn main() {
    println!("cargo:rerun-if-changed={SOURCE}");
    println!("cargo:rerun-if-env-changed=CXX");
    println!("cargo:rerun-if-env-changed=CPLUS_INCLUDE_PATH");
    if !has_header() {
        // A file that is missing makes cargo look again in the next run.
        println!("cargo:rerun-if-changed=lemon/network_simplex.h");
        return;
    }
    let out = PathBuf::from(env::var("OUT_DIR").expect("set by cargo"));
    let (object, archive) = (out.join("lemon.o"), out.join("liblemon_oracle.a"));
    run(compiler()
        .args(["-O2", "-DNDEBUG", "-c", SOURCE, "-o"])
        .arg(&object));
    run(Command::new("ar").arg("crs").arg(&archive).arg(&object));
    println!("cargo:rustc-cfg=lemon");
    println!("cargo:rustc-link-search=native={}", out.display());
    println!("cargo:rustc-link-lib=static=lemon_oracle");
    println!("cargo:rustc-link-lib=stdc++");
}

fn compiler() -> Command {
    let mut command = Command::new(env::var("CXX").unwrap_or_else(|_| "c++".into()));
    command.args(["-std=c++14", "-w"]);
    command
}

fn has_header() -> bool {
    let probe = compiler()
        .args([
            "-E",
            "-x",
            "c++",
            "-include",
            "lemon/network_simplex.h",
            "/dev/null",
        ])
        .stdout(Stdio::null())
        .stderr(Stdio::null())
        .status();
    probe.is_ok_and(|status| status.success())
}

fn run(command: &mut Command) {
    let status = command.status().expect("a C++ compiler and ar");
    assert!(status.success(), "{command:?} failed");
}
