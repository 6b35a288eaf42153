//! Links the second archive, which is for this check alone, from the folder of the
//! first: the package kifwaleb names it.

use std::path::PathBuf;
use std::{env, process};

fn main() {
    let directory = env::var_os("DEP_CAPI_DIRECTORY").map(PathBuf::from);
    let directory = directory.expect("kifwaleb names its folder");
    let archive = directory.join("libsearch.a");
    if !archive.is_file() {
        eprintln!("there is no archive {}", archive.display());
        eprintln!("run 'tools/archive search' in the repository of kifwaleb");
        process::exit(1);
    }
    // A renewed archive must be linked anew.
    println!("cargo:rerun-if-changed={}", archive.display());
    println!("cargo:rustc-link-search=native={}", directory.display());
    println!("cargo:rustc-link-lib=static=search");
}
