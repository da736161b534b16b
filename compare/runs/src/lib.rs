//! The comparison with the Rust: scenarios, both sides' traces of them, and the first difference.

pub mod bounds;
pub mod cell;
pub mod classes;
pub mod compare;
pub mod coverage;
pub mod draw;
pub mod generate;
pub mod leaf_records;
pub mod modelled;
pub mod nanoseconds;
pub mod original;
pub mod ours;
pub mod replay_script;
pub mod rust_leaves;
pub mod scenario;
pub mod server;
pub mod side;
pub mod sizes;
pub mod stepped;
pub mod text;
pub mod trace;
