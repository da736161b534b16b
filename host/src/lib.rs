//! The part of a PostgreSQL logical replication client that works after authentication: a run takes the server's bytes, hands on events
//! and writes what is to be sent. It opens no socket, reads no clock and allocates nothing: the host lends buffers and calls.
//!
//! Each call is a function of Rattle that is proved to meet its contract; this crate lends it slices and reads its words.
//!
//! ```
//! use rufflesquash::{Input, Lsn, Moment, Queue, Run, Settings, STEP_OUTPUT};
//!
//! let settings = Settings { max_message_size: 65_536, ..Settings::default() };
//! let mut run = Run::already_open(&settings, Lsn(0x10))?;
//! let mut payload = vec![0; settings.payload_len()];
//! let mut out = [0; STEP_OUTPUT];
//! let input = Input { moment: Moment(1), client_time_micros: 0, stop: false, queue: Queue::Free, ended: false };
//! let step = run.step(&input, b"", &mut payload, &mut out);
//! assert_eq!((step.refusal, step.written), (None, 39));
//! # Ok::<(), rufflesquash::Refusal>(())
//! ```
//!
//! The data of an event are rows of pgoutput, which [`Event::row`] reads (module [`rows`]):
//!
//! ```
//! use rufflesquash::{rows::Column, Event, Lsn, Refusal};
//!
//! fn texts<'a>(event: &Event<'a>) -> Result<Vec<&'a [u8]>, Refusal> {
//!     let Some(row) = event.row()? else { return Ok(Vec::new()) };
//!     Ok(row.columns().filter_map(|column| if let Column::Text(text) = column { Some(text) } else { None }).collect())
//! }
//!
//! let data = b"I\x00\x00\x40\x01N\x00\x02t\x00\x00\x00\x02abn";
//! let event = Event::XLogData { wal_start: Lsn(1), wal_end: Lsn(2), server_time_micros: 0, data };
//! assert_eq!(texts(&event)?, [b"ab"]);
//! # Ok::<(), Refusal>(())
//! ```
//!
//! The crate needs neither std nor a heap; of the C library the archive calls `memcpy` and `memset` alone. The feature `std`, which is on unless
//! `default-features = false` is said, adds what needs a heap: [`relations::RelationCache::boxed`].
#![no_std]
#![warn(missing_docs)]
#![deny(unsafe_code)]

#[cfg(any(feature = "std", test))]
extern crate std;

mod archive;
mod cell;
mod ffi;
mod hours;
mod load;
mod messages;
mod refusal;
pub mod relations;
pub mod rows;
mod run;
mod startup;
mod text;
mod touched;
mod types;

pub use archive::{check_archive, WrongArchive};
pub use cell::ProgressCell;
pub use hours::{HoursAt, OpeningHours, Weekday, Window};
pub use load::{write_load, Load};
pub use messages::{write_copy_done, write_query, write_startup, write_status, write_terminate};
pub use refusal::{Kind, Refusal};
pub use run::Run;
pub use startup::{error_field, AuthRequest, Column, DataRow, ErrorField, Message, MessageReader, Query, QueryAnswer, Read};
pub use text::Text;
pub use touched::{Files, Touched};
pub use types::{Event, Input, LastStatus, Lsn, Metrics, Moment, NextStep, Queue, Settings, State, Step};

/// The shortest output that a step takes, in bytes.
pub const STEP_OUTPUT: usize = 39;

/// How many bytes the service page of a run has.
pub const PAGE: usize = 198;

/// How many words a run has, for a host that keeps them elsewhere.
pub const RUN_WORDS: usize = ffi::RUN_WORDS;

/// How many words a progress cell has.
pub const CELL_WORDS: usize = ffi::CELL_WORDS;

/// A text that was written: how long it is, and how many U+FFFD were put in, one for each ill-formed part. One that was in the bytes already is
/// not counted.
#[derive(Clone, Copy, Debug, PartialEq, Eq)]
pub struct Lossy {
    /// How many bytes were written over the front of the output.
    pub bytes: usize,
    /// How many marks are among them.
    pub marks: usize,
}

/// Writes the text of bytes over the front of `out`, as `String::from_utf8_lossy` makes it, and answers its length and its marks.
/// Refused (25, 4), `out` is as it was.
///
/// ```
/// use rufflesquash::{lossy, Lossy};
///
/// let mut out = [0; 16];
/// assert_eq!(lossy(b"gr\xFCn", &mut out)?, Lossy { bytes: 6, marks: 1 });
/// assert_eq!(&out[..6], "gr\u{FFFD}n".as_bytes());
/// # Ok::<(), rufflesquash::Refusal>(())
/// ```
pub fn lossy(text: &[u8], out: &mut [u8]) -> Result<Lossy, Refusal> {
    shown(ffi::lossy(text, out))
}

/// The same, where every byte is looked up in the constant table of UTF-8's states, one after the other. It answers and writes what [`lossy`] does,
/// which is faster.
///
/// ```
/// use rufflesquash::{lossy_by_table, Lossy};
///
/// let mut out = [0; 16];
/// assert_eq!(lossy_by_table(b"gr\xFCn", &mut out)?, Lossy { bytes: 6, marks: 1 });
/// # Ok::<(), rufflesquash::Refusal>(())
/// ```
pub fn lossy_by_table(text: &[u8], out: &mut [u8]) -> Result<Lossy, Refusal> {
    shown(ffi::lossy_by_table(text, out))
}

/// The length of the longest well-formed beginning of a text of any length: the largest n whose first n bytes are UTF-8.
///
/// ```
/// assert_eq!(rufflesquash::well_formed_prefix(b"gr\xC3\xBC\xC3"), 4);
/// ```
pub fn well_formed_prefix(text: &[u8]) -> usize {
    ffi::well_formed_prefix(text) as usize
}

/// Writes the text of the error that an ErrorResponse's payload holds over the front of `out`, and answers its length and the marks of the
/// message and the code, which are all that it shows. Refused (25, 4), `out` is as it was.
///
/// ```
/// let mut out = [0; 64];
/// let text = rufflesquash::error_text(b"SFATAL\0C57P01\0Mthe server shuts down\0\0", &mut out)?;
/// assert_eq!(&out[..text.bytes], b"the server shuts down (SQLSTATE 57P01)");
/// # Ok::<(), rufflesquash::Refusal>(())
/// ```
pub fn error_text(payload: &[u8], out: &mut [u8]) -> Result<Lossy, Refusal> {
    shown(ffi::error_text(payload, out))
}

// A writer's answer: the length that it wrote.
fn written((number, written): ffi::Written) -> Result<usize, Refusal> {
    Refusal::checked(number).map(|()| written as usize)
}

// .. and its marks.
fn shown((number, written, marks): ffi::Shown) -> Result<Lossy, Refusal> {
    Refusal::checked(number).map(|()| Lossy { bytes: written as usize, marks: marks as usize })
}

// README's Rust example is a test.
#[cfg(doctest)]
#[doc = include_str!("../../README.md")]
struct Readme;
