//! Links the proved archive, which `rt lib` in crates/ffi_export makes in its out/; RUFFLESQUASH_LIB names another folder that holds it.
use std::path::PathBuf;
use std::{env, fs, process};

/// The crate of Rattle that is linked.
const LIBRARY: &str = "ffi_export";
/// Every archive of this crate's kind has it; what number it answers is compared when a run begins.
const INTERFACE: &[u8] = b"rufflesquash_abi";

fn fail(archive: &str, what: &str) -> ! {
    eprintln!("{archive} {what}: run `rt lib` in crates/{LIBRARY} of the repository");
    process::exit(1);
}

fn main() {
    let here = PathBuf::from(env::var("CARGO_MANIFEST_DIR").expect("cargo sets it"));
    let folder = match env::var("RUFFLESQUASH_LIB") {
        Ok(folder) => PathBuf::from(folder),
        Err(_) => here.with_file_name("crates").join(LIBRARY).join("out"),
    };
    let archive = folder.join(format!("lib{LIBRARY}.a"));
    let name = archive.display().to_string();
    let Ok(bytes) = fs::read(&archive) else { fail(&name, "is missing") };
    if !bytes.windows(INTERFACE.len()).any(|part| part == INTERFACE) {
        fail(&name, "is stale");
    }
    println!("cargo:rerun-if-env-changed=RUFFLESQUASH_LIB");
    println!("cargo:rerun-if-changed={name}");
    println!("cargo:rustc-link-search=native={}", folder.display());
    println!("cargo:rustc-link-lib=static={LIBRARY}");
}
