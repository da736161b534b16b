//! What is compared: two of these.

use crate::scenario::Scenario;
use crate::trace::Trace;

pub trait Side {
    fn name(&self) -> &'static str;

    /// The trace of a scenario. The n-th status bears the n-th client time, where the side does not read a clock of its own.
    fn run(&mut self, scenario: &Scenario, client_times: &[i64]) -> Trace;
}
