//! The model of a run that makes the project's vectors, with what their makers share, as a crate.
#![allow(dead_code, clippy::should_implement_trait)]

#[path = "../../../vectors/coverage.rs"]
mod coverage;
#[path = "../../../vectors/model.rs"]
mod model;
#[path = "../../../vectors/position.rs"]
mod position;
#[path = "../../../vectors/protocol.rs"]
mod protocol;
#[path = "../../../vectors/server.rs"]
pub mod server;
#[path = "../../../vectors/shared.rs"]
mod shared;

pub use model::{query, Answer, Event, Input, Metrics, Queue, Run, Settings, State};
pub use position::position_of;
pub use protocol::framed;
pub use shared::{display, hex, sum, Draw};
