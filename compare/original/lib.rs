//! The sources, unchanged, and the few lines that make a crate of them. The set-up links the sources beside these files.
// What is unused, and what clippy says of the sources, is theirs.
#![allow(dead_code, unused_variables, clippy::all)]

pub mod client;
pub mod config;
pub mod error;
pub mod lsn;
pub mod protocol;

pub use client::feedback::{FeedbackObserver, FeedbackSent};
