//! What the benchmarks share: the archive of the Rattle functions that they measure, which this crate's build.rs links, and how they are run.

/// Whether `cargo bench` runs the benchmark, which then measures. Else it only compares the results of both sides, on short inputs.
pub fn measuring() -> bool {
    std::env::args().any(|argument| argument == "--bench")
}
