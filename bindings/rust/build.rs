//! Links the proved library statically.
//!
//! REPLICA_LIB_DIR names the folder of an installed libreplica.a, an absolute path; without it the
//! archive is the repository's own, crates/capi/out/libcapi.a.

use std::env;
use std::path::{Path, PathBuf};
use std::process::exit;

const VARIABLE: &str = "REPLICA_LIB_DIR";
const OWN_FOLDER: &str = "../../crates/capi/out";

fn main() {
    println!("cargo:rerun-if-env-changed={VARIABLE}");
    let (folder, name) = match env::var_os(VARIABLE) {
        Some(folder) => (named_folder(PathBuf::from(folder)), "replica"),
        None => (own_folder(), "capi"),
    };
    let archive = folder.join(format!("lib{name}.a"));
    println!("cargo:rerun-if-changed={}", archive.display());
    if !archive.is_file() {
        fail(&format!(
            "{} is not there: run `rt lib` in the repository's crates/capi, \
             or set {VARIABLE} to the folder of an installed libreplica.a",
            archive.display()
        ));
    }
    println!("cargo:rustc-link-search=native={}", folder.display());
    println!("cargo:rustc-link-lib=static={name}");
}

/// Cargo runs this in the package's folder, so a relative path would not mean what was typed.
fn named_folder(folder: PathBuf) -> PathBuf {
    if folder.is_relative() {
        fail(&format!(
            "{VARIABLE} is {}: an absolute path is needed",
            folder.display()
        ));
    }
    folder
}

fn own_folder() -> PathBuf {
    let package = env::var_os("CARGO_MANIFEST_DIR").expect("cargo sets CARGO_MANIFEST_DIR");
    let folder = Path::new(&package).join(OWN_FOLDER);
    folder.canonicalize().unwrap_or(folder)
}

fn fail(message: &str) -> ! {
    eprintln!("replica: {message}");
    exit(1);
}
