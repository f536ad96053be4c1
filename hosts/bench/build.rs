//! Compiles the LEMON solvers and links them.

use std::env;
use std::path::PathBuf;
use std::process::Command;

fn run(command: &mut Command) {
    let status = command.status().expect("a C++ compiler and ar");
    assert!(status.success(), "{command:?} failed");
}

fn main() {
    println!("cargo:rerun-if-env-changed=CXX");
    let out = PathBuf::from(env::var("OUT_DIR").expect("set by cargo"));
    let compiler = env::var("CXX").unwrap_or_else(|_| "c++".into());
    let objects = ["lemon", "dijkstra"].map(|name| {
        let (source, object) = (format!("src/{name}.cpp"), out.join(format!("{name}.o")));
        println!("cargo:rerun-if-changed={source}");
        run(Command::new(&compiler)
            .args(["-std=c++14", "-O3", "-DNDEBUG", "-w", "-c", &source, "-o"])
            .arg(&object));
        object
    });
    run(Command::new("ar")
        .arg("crs")
        .arg(out.join("liblemon_solver.a"))
        .args(&objects));
    println!("cargo:rustc-link-search=native={}", out.display());
    println!("cargo:rustc-link-lib=static=lemon_solver");
    println!("cargo:rustc-link-lib=stdc++");
}
