//! Finds the archives of the checker and has tests and programs linked with them.
//!
//! An archive that is not there does not stop the build here, as most tests
//! have no need of it. Those that do say so (`needs_checker!`, `needs_probe!`)
//! and then fail to build with a message that names the folder.

use std::env;
use std::path::PathBuf;

const VARIABLE: &str = "TZELMARUF_LIBRARY";

fn main() {
    println!("cargo::rerun-if-changed=build.rs");
    println!("cargo::rerun-if-env-changed={VARIABLE}");
    offer("host_calls", true);
    offer("probe", env::var_os("CARGO_FEATURE_FOLLOWING").is_some());
}

/// The folder of an archive: the variable's, else that where `rt lib` leaves it.
fn folder(name: &str) -> PathBuf {
    let package = env::var_os("CARGO_MANIFEST_DIR").map(PathBuf::from);
    let package = package.expect("cargo sets the folder of the package");
    let given = env::var_os(VARIABLE).filter(|value| !value.is_empty());
    let usual = PathBuf::from(format!("../crates/{name}/out"));
    let folder = package.join(given.map_or(usual, PathBuf::from));
    folder.canonicalize().unwrap_or(folder)
}

/// Links an archive if it is wanted and there, and tells the code whether it is, and where.
fn offer(name: &str, is_wanted: bool) {
    let folder = folder(name);
    let constant = format!("TZELMARUF_{}", name.to_uppercase());
    println!("cargo::rustc-env={constant}={}", folder.display());
    println!("cargo::rustc-check-cfg=cfg({name}_archive)");
    if !is_wanted {
        return;
    }
    let archive = folder.join(format!("lib{name}.a"));
    // Of a file that is not there this asks for another look in each build.
    println!("cargo::rerun-if-changed={}", archive.display());
    if archive.is_file() {
        println!("cargo::rustc-cfg={name}_archive");
        println!("cargo::rustc-link-search=native={}", folder.display());
        println!("cargo::rustc-link-lib=static={name}");
    }
}
