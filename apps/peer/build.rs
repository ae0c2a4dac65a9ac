//! Compiles the peer, `tests/peer/peer.cpp`, with `c++` or the C++ compiler that `CXX` names, and
//! links it.

use std::env;
use std::path::{Path, PathBuf};
use std::process::Command;

/// For speed, and without what would need the C++ library.
const OPTIONS: [&str; 7] = [
    "-std=c++17",
    "-O3",
    "-fPIC",
    "-fno-exceptions",
    "-fno-rtti",
    "-Wall",
    "-Wextra",
];

fn main() {
    let source = Path::new(env!("CARGO_MANIFEST_DIR")).join("../../tests/peer");
    let out = PathBuf::from(env::var_os("OUT_DIR").expect("cargo names the folder"));
    println!("cargo:rerun-if-changed={}", source.display());
    println!(
        "cargo:rerun-if-changed={}",
        source.join("../../include/ceviloneth.h").display()
    );
    println!("cargo:rerun-if-env-changed=CXX");
    let (object, archive) = (out.join("peer.o"), out.join("libpeer.a"));
    let compiler = env::var("CXX").unwrap_or_else(|_| "c++".to_string());
    let mut compile = Command::new(&compiler);
    compile.args(OPTIONS).arg("-c").arg(source.join("peer.cpp"));
    run(
        compile.arg("-o").arg(&object),
        "install a C++ compiler (on Debian: apt-get install g++), or set CXX to one",
    );
    // An archive of an earlier build would keep its old object.
    let _ = std::fs::remove_file(&archive);
    run(
        Command::new("ar").arg("crs").args([&archive, &object]),
        "install binutils",
    );
    println!("cargo:rustc-link-search=native={}", out.display());
    println!("cargo:rustc-link-lib=static=peer");
}

/// Runs a command that must succeed; `advice` is for a machine that lacks it.
fn run(command: &mut Command, advice: &str) {
    let name = command.get_program().to_string_lossy().into_owned();
    match command.status() {
        Ok(status) if status.success() => {}
        Ok(status) => panic!("{name} failed on the peer: {status}"),
        Err(error) => panic!("the peer needs {name}, which can't be run ({error}): {advice}"),
    }
}
