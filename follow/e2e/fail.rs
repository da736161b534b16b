//! How a comparison ends that finds a difference.
use std::process;

pub fn fail(line: &str) -> ! {
    eprintln!("e2e: {line}");
    process::exit(1)
}
