//! Links nothing but the program, the crate and its archive: no start files, no C library.
fn main() {
    for word in ["-nostartfiles", "-nostdlib", "-static", "-no-pie"] {
        println!("cargo:rustc-link-arg-bins={word}");
    }
}
