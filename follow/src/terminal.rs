//! The question for a password.
use crate::failure::{Failure, FAILED};
use crate::ffi::{self, NoEcho, Waiter};
use crate::progress;
use std::fs::{File, OpenOptions};
use std::io::{ErrorKind, Read, Write};
use std::os::fd::AsRawFd;
use std::os::unix::fs::OpenOptionsExt;

/// What the user types at the terminal, which does not show it; none where there is no terminal. A stop request ends the question.
pub fn ask_password(user: &str, waiter: &Waiter) -> Result<Option<Vec<u8>>, Failure> {
    // Opened anew, so that not waiting for a line is a matter of this descriptor alone.
    let flags = libc::O_NOCTTY | libc::O_NONBLOCK;
    let Ok(mut terminal) = OpenOptions::new().read(true).write(true).custom_flags(flags).open("/dev/tty") else { return Ok(None) };
    progress::clear();
    let prompt = format!("Password for user {}: ", printable(user));
    let typed = terminal.write_all(prompt.as_bytes()).map_err(|e| no_answer(e.to_string())).and_then(|()| line(&terminal, waiter));
    let _ = terminal.write_all(b"\n");
    typed.map(Some)
}

// A name must not move the cursor.
fn printable(name: &str) -> String {
    name.chars().map(|c| if c.is_control() { '?' } else { c }).collect()
}

fn line(mut terminal: &File, waiter: &Waiter) -> Result<Vec<u8>, Failure> {
    let _hidden = NoEcho::new(terminal).map_err(|e| no_answer(e.to_string()))?;
    let (mut typed, mut bytes) = (Vec::new(), [0; 1024]);
    loop {
        match terminal.read(&mut bytes) {
            Ok(0) => return Ok(typed),
            Ok(n) => typed.extend_from_slice(&bytes[..n]),
            Err(e) if matches!(e.kind(), ErrorKind::WouldBlock | ErrorKind::Interrupted) => waiter.wait(Some((terminal.as_raw_fd(), false)), None),
            Err(e) => return Err(no_answer(e.to_string())),
        }
        if let Some(end) = typed.iter().position(|byte| matches!(byte, b'\n' | b'\r')) {
            typed.truncate(end);
            return Ok(typed);
        }
        if ffi::stop_requested() {
            return Err(Failure::new(FAILED, "stopped while a password was asked for"));
        }
    }
}

fn no_answer(reason: String) -> Failure {
    Failure::new(FAILED, format!("the password cannot be read from the terminal: {reason}; set PGPASSWORD or name it in ~/.pgpass"))
}
