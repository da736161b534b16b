//! A line on a terminal that tells how following goes; elsewhere nothing.
use crate::ffi::LINE_SHOWN;
use rufflesquash::Lsn;
use std::io::{self, IsTerminal, Write};
use std::sync::atomic::Ordering::SeqCst;
use std::time::{Duration, Instant};

const EVERY: Duration = Duration::from_millis(500);

/// Takes the line away, before another is written or the program ends.
pub fn clear() {
    if LINE_SHOWN.swap(false, SeqCst) {
        let _ = write!(io::stderr(), "\r\x1b[K");
    }
}

/// The status line.
pub struct Progress {
    at: Instant,
    events: u64,
}

/// What it tells.
pub struct Standing {
    /// Events handed on in all streams.
    pub events: u64,
    /// What would be confirmed now.
    pub position: Lsn,
    /// The end of the server's log, as it told it last.
    pub server: Lsn,
}

impl Progress {
    /// None where it was not asked for, or standard error is no terminal.
    pub fn start(wanted: bool) -> Option<Progress> {
        (wanted && io::stderr().is_terminal()).then(|| Progress { at: Instant::now(), events: 0 })
    }

    /// How long until the line is due again.
    pub fn due(&self) -> Duration {
        EVERY.saturating_sub(self.at.elapsed())
    }

    /// Shows the line where it is due.
    pub fn show(&mut self, standing: &Standing) {
        let passed = self.at.elapsed();
        if passed < EVERY {
            return;
        }
        let line = line(standing, standing.events.saturating_sub(self.events), passed);
        (self.at, self.events) = (Instant::now(), standing.events);
        LINE_SHOWN.store(true, SeqCst);
        let _ = write!(io::stderr(), "\r\x1b[K{line}");
    }
}

fn line(standing: &Standing, events: u64, passed: Duration) -> String {
    let rate = events as f64 / passed.as_secs_f64().max(0.001);
    let behind = standing.server.0.saturating_sub(standing.position.0);
    format!("{rate:.0} events/s  position {}  {} behind the server", standing.position, bytes(behind))
}

fn bytes(n: u64) -> String {
    match n {
        0..=9_999 => format!("{n} bytes"),
        10_000..=9_999_999 => format!("{} kB", n / 1_000),
        10_000_000..=9_999_999_999 => format!("{} MB", n / 1_000_000),
        _ => format!("{} GB", n / 1_000_000_000),
    }
}

#[cfg(test)]
mod tests {
    use super::*;

    #[test]
    fn what_the_line_tells() {
        let standing = Standing { events: 900, position: Lsn(0x100), server: Lsn(0x100 + 12_345) };
        assert_eq!(line(&standing, 500, Duration::from_millis(500)), "1000 events/s  position 0/100  12 kB behind the server");
        assert_eq!((bytes(9_999), bytes(10_000_000), bytes(u64::MAX)), ("9999 bytes".into(), "10 MB".into(), "18446744073 GB".into()));
        let ahead = Standing { events: 0, position: Lsn(2), server: Lsn(1) };
        assert!(line(&ahead, 0, Duration::ZERO).ends_with(" 0 bytes behind the server"));
    }
}
