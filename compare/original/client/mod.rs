pub mod feedback;
pub mod metrics;
mod progress;

pub mod worker {
    include!("worker.rs");

    /// What is private in the sources, for those who compare.
    pub mod reach {
        use super::*;

        pub fn boundary(data: &Bytes) -> Result<Option<ReplicationEvent>> {
            parse_pgoutput_boundary(data)
        }

        pub fn data_row(payload: &Bytes) -> Result<QueryRow> {
            parse_data_row(payload)
        }

        pub async fn query<S: AsyncRead + AsyncWrite + Unpin>(stream: &mut S, sql: &str, limit: usize) -> Result<Vec<QueryRow>> {
            simple_query(stream, sql, limit).await
        }

        pub async fn terminate<S: AsyncWrite + Unpin>(stream: &mut S) -> Result<()> {
            write_terminate(stream).await
        }

        /// The progress cell by itself; a moment is handed in where the Rust reads its clock.
        pub struct Cell(ProgressCell);

        impl Cell {
            pub fn new(start: u64, timed: bool) -> Self {
                Cell(ProgressCell::new(start, timed))
            }

            pub fn load(&self) -> u64 {
                self.0.load()
            }

            pub fn raise(&self, position: u64, moment: u64) -> bool {
                self.0.raise(position, || moment)
            }

            pub fn take_signal(&self) -> u64 {
                self.0.take_signal()
            }

            pub fn take_pending(&self, sent: u64, loaded_at: u64) -> u64 {
                self.0.take_pending(sent, loaded_at)
            }

            pub fn pending_since(&self) -> u64 {
                self.0.pending_since()
            }

            pub fn carry_pending(&self, since: u64) {
                self.0.carry_pending(since)
            }
        }

        /// The cell's own calls, with what stands around it: the clock, and the waking of the task.
        pub fn take_signal(progress: &SharedProgress) -> Lsn {
            progress.take_signal()
        }

        pub fn take_pending(progress: &SharedProgress, sent: Lsn) -> bool {
            progress.cell.take_pending(sent.as_u64(), progress.clock()) != 0
        }

        pub fn option_value(names: Vec<String>) -> String {
            crate::config::Publication::from(names).to_option_value()
        }
    }
}
