//! Links the archive of the functions that are measured, from the folder that RUFFLESQUASH_LIB names where it is there, else from
//! crates/ffi_bench/out.
use std::path::PathBuf;
use std::{env, process};

/// The crate of Rattle that is linked.
const LIBRARY: &str = "ffi_bench";

fn main() {
    let here = PathBuf::from(env::var("CARGO_MANIFEST_DIR").expect("cargo sets it"));
    let file = format!("lib{LIBRARY}.a");
    let folders = env::var("RUFFLESQUASH_LIB").map(PathBuf::from).into_iter().chain([here.with_file_name("crates").join(LIBRARY).join("out")]);
    let Some(folder) = folders.into_iter().find(|folder| folder.join(&file).is_file()) else {
        eprintln!("{file} is missing: run `rt lib` in crates/{LIBRARY} of the repository");
        process::exit(1);
    };
    println!("cargo:rerun-if-env-changed=RUFFLESQUASH_LIB");
    println!("cargo:rerun-if-changed={}", folder.join(&file).display());
    println!("cargo:rustc-link-search=native={}", folder.display());
    println!("cargo:rustc-link-lib=static={LIBRARY}");
}
