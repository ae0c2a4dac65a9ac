//! Links the proved archive: from `CEVILONETH_ARCHIVE_DIR`, else where `tools/archive.sh` writes it.

use std::env;
use std::path::{Path, PathBuf};

fn main() {
    let variable = "CEVILONETH_ARCHIVE_DIR";
    println!("cargo:rerun-if-env-changed={variable}");
    let folder = env::var_os(variable).map_or_else(default_folder, PathBuf::from);
    let archive = folder.join("libceviloneth.a");
    println!("cargo:rerun-if-changed={}", archive.display());
    if !archive.is_file() {
        let asked = "run `tools/archive.sh`";
        panic!(
            "{} is missing: {asked}, or set {variable}",
            archive.display()
        );
    }
    let folder = folder.canonicalize().expect("the archive's folder");
    println!("cargo:rustc-link-search=native={}", folder.display());
    println!("cargo:rustc-link-lib=static=ceviloneth");
}

fn default_folder() -> PathBuf {
    Path::new(env!("CARGO_MANIFEST_DIR")).join("../../target/staticlib")
}
