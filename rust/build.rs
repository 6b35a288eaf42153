//! Finds the archive and links it: in the folder that `KIFWALEB_ARCHIVE_DIR`
//! names, or in `target/staticlib` of the repository that this package is in.

use std::os::unix::process::parent_id;
use std::path::{Path, PathBuf};
use std::{env, fs, process};

const NAMED: &str = "KIFWALEB_ARCHIVE_DIR";

fn main() {
    println!("cargo:rerun-if-changed=build.rs");
    println!("cargo:rerun-if-env-changed={NAMED}");
    let directory = directory();
    let archive = directory.join("libcapi.a");
    if !archive.is_file() {
        eprintln!("there is no archive {}", archive.display());
        eprintln!("run 'tools/archive capi' in the repository of kifwaleb, or let {NAMED} name the folder it is in");
        process::exit(1);
    }
    // A renewed archive must be linked anew.
    println!("cargo:rerun-if-changed={}", archive.display());
    println!("cargo:rustc-link-search=native={}", directory.display());
    println!("cargo:rustc-link-lib=static=capi");
    // The outside check takes its second archive from there.
    println!("cargo:directory={}", directory.display());
}

fn directory() -> PathBuf {
    match env::var_os(NAMED) {
        Some(named) => from_caller(Path::new(&named)),
        None => repository().join("target/staticlib"),
    }
}

fn repository() -> PathBuf {
    let package = env::var_os("CARGO_MANIFEST_DIR").expect("cargo sets CARGO_MANIFEST_DIR");
    let package = Path::new(&package);
    package.parent().unwrap_or(package).to_path_buf()
}

/// A relative folder is taken from where cargo was started, not from this
/// package, in which a build script runs.
fn from_caller(named: &Path) -> PathBuf {
    if named.is_relative() {
        // Started elsewhere, cargo may mean another folder.
        println!("cargo:rerun-if-env-changed=PWD");
    }
    caller().join(named)
}

/// Cargo's own folder: it runs this script. PWD is what a shell says of itself
/// and can be out of date, as when another program starts cargo, so it comes
/// second.
fn caller() -> PathBuf {
    let cargo = fs::read_link(format!("/proc/{}/cwd", parent_id()));
    cargo.unwrap_or_else(|_| env::var_os("PWD").unwrap_or_default().into())
}
