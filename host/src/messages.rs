//! Messages of the client outside a run: each is written over the front of `out`, and its length is answered. Refused (25, 4), `out` is as it was.

use crate::ffi;
use crate::{written, Lsn, Refusal, Text};

/// The version of the protocol that a startup message asks for: 3.0.
const PROTOCOL: i32 = 196_608;

/// The startup message with its parameters, each a name and a value.
///
/// ```
/// use rufflesquash::{write_startup, Text};
///
/// let mut out = [0; 64];
/// let len = write_startup(&[[Text::from("user"), Text::from("me")]], &mut out)?;
/// assert_eq!(&out[..len], b"\0\0\0\x11\0\x03\0\0user\0me\0\0");
/// # Ok::<(), rufflesquash::Refusal>(())
/// ```
pub fn write_startup(parameters: &[[Text<'_>; 2]], out: &mut [u8]) -> Result<usize, Refusal> {
    written(ffi::write_startup(PROTOCOL, parameters.as_flattened(), out))
}

/// A simple query.
pub fn write_query(text: &[u8], out: &mut [u8]) -> Result<usize, Refusal> {
    written(ffi::write_query(text, out))
}

/// CopyDone, 5 bytes: the client's end of a stream.
pub fn write_copy_done(out: &mut [u8]) -> Result<usize, Refusal> {
    written(ffi::write_copy_done(out))
}

/// Terminate, 5 bytes: the end of the session.
pub fn write_terminate(out: &mut [u8]) -> Result<usize, Refusal> {
    written(ffi::write_terminate(out))
}

/// A status, 39 bytes: confirms a position as written, flushed and applied. A run writes its own; this is for a host that confirms once more after
/// its run has ended. The client's time is microseconds from 2000-01-01.
pub fn write_status(position: Lsn, client_time_micros: i64, reply: bool, out: &mut [u8]) -> Result<usize, Refusal> {
    written(ffi::write_status(position.0, client_time_micros, reply, out))
}
