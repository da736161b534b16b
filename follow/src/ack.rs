//! Acknowledgements: a thread reads lines `POSITION` or `FILE POSITION` from the consumer, and only what they say is reported.
use crate::failure::{tell, Failure, FAILED};
use crate::ffi;
use rufflesquash::{Lsn, Run};
use std::fs::File;
use std::io::{self, BufRead, BufReader, ErrorKind, Read};
use std::os::fd::RawFd;
use std::sync::atomic::{AtomicBool, AtomicU64, Ordering::SeqCst};
use std::sync::Arc;
use std::thread;
use std::time::Duration;

const FILES: usize = Run::FILES as usize;
/// A longer line is no acknowledgement; it is read on and forgotten.
const LONGEST_LINE: u64 = 256;

/// Which files a line speaks for, and the position.
#[derive(Clone, Copy, Debug, PartialEq)]
struct Ack {
    /// All four where none is named.
    file: Option<usize>,
    position: Lsn,
}

/// What both threads see. Positions rise only.
#[derive(Default)]
struct Shared {
    // The largest position of each file.
    done: [AtomicU64; FILES],
    // Nothing beyond it was printed yet.
    printed: AtomicU64,
    // What an earlier run printed to the same file and was not acknowledged then.
    before: AtomicU64,
    // A keepalive's position behind all that was printed; 0 where something was printed since, u64::MAX where that was a message, which no line
    // acknowledges before the next commit's.
    passed: AtomicU64,
    ended: AtomicBool,
}

impl Shared {
    fn last_printed(&self) -> u64 {
        self.printed.load(SeqCst).max(self.before.load(SeqCst))
    }
}

/// What the consumer has acknowledged so far.
pub struct Acks {
    shared: Arc<Shared>,
    // Files that no table belongs to hold nothing up.
    used: [bool; FILES],
}

impl Acks {
    /// Starts to read lines. Where tables have files, these alone are waited for.
    pub fn start(fd: RawFd, used: [bool; FILES]) -> Result<Acks, Failure> {
        let failed = |e: io::Error| Failure::new(FAILED, format!("cannot read acknowledgements from descriptor {fd}: {e}"));
        if ffi::write_only(fd) {
            return Err(failed(io::Error::from_raw_os_error(libc::EBADF)));
        }
        let input = BufReader::new(Patient(ffi::file_of(fd).map_err(failed)?));
        let shared = Arc::new(Shared::default());
        let reader = Reader { shared: shared.clone() };
        thread::Builder::new().spawn(move || reader.run(input)).map_err(failed)?;
        Ok(Acks { shared, used })
    }

    /// This is printed now; what lies beyond was not, so no line can acknowledge it.
    pub fn printed(&self, position: Lsn) {
        self.shared.passed.store(0, SeqCst);
        self.shared.printed.fetch_max(position.0, SeqCst);
    }

    /// This was printed to the same file by an earlier run, and is not acknowledged yet.
    pub fn printed_before(&self, position: Lsn) {
        self.shared.before.store(position.0, SeqCst);
    }

    /// What was printed and acknowledged so far has nothing to do with what comes: the positions of another log do.
    pub fn forget(&self) {
        let Shared { done, printed, before, passed, .. } = &*self.shared;
        done.iter().chain([printed, before, passed]).for_each(|position| position.store(0, SeqCst));
    }

    /// All before it was sent, and nothing was printed for it: once the rest is acknowledged it is done, too.
    pub fn passed(&self, position: Lsn) {
        if self.shared.passed.load(SeqCst) != u64::MAX {
            self.shared.passed.store(position.0, SeqCst);
        }
    }

    /// A message is printed now.
    pub fn message(&self) {
        self.shared.passed.store(u64::MAX, SeqCst);
    }

    /// Up to where each file is done. A file without tables is as far as the furthest.
    pub fn done(&self) -> [Lsn; FILES] {
        let done = |file: usize| Lsn(self.shared.done[file].load(SeqCst));
        let furthest = (0..FILES).map(done).max().unwrap_or_default();
        let all: [Lsn; FILES] = std::array::from_fn(|file| if self.used[file] { done(file) } else { furthest });
        let (printed, passed) = (self.shared.last_printed(), self.shared.passed.load(SeqCst));
        if passed == u64::MAX || all.iter().any(|done| done.0 < printed) {
            return all;
        }
        // Kept, so that what is done never falls back.
        for done in &self.shared.done {
            done.fetch_max(passed, SeqCst);
        }
        all.map(|done| done.max(Lsn(passed)))
    }

    /// Whether all that was printed is acknowledged.
    pub fn all_done(&self) -> bool {
        self.done().into_iter().all(|done| done.0 >= self.shared.printed.load(SeqCst))
    }

    /// Whether no line will come any more.
    pub fn ended(&self) -> bool {
        self.shared.ended.load(SeqCst)
    }
}

/// A descriptor that another program may have made non-blocking.
struct Patient(File);

impl Read for Patient {
    fn read(&mut self, buffer: &mut [u8]) -> io::Result<usize> {
        loop {
            match self.0.read(buffer) {
                Err(e) if e.kind() == ErrorKind::WouldBlock => thread::sleep(Duration::from_millis(5)),
                read => return read,
            }
        }
    }
}

struct Reader {
    shared: Arc<Shared>,
}

impl Reader {
    fn run(self, mut input: impl BufRead) {
        let mut line = Vec::new();
        loop {
            line.clear();
            match read_line(&mut input, &mut line) {
                Ok(true) => self.line(&line),
                Ok(false) => break,
                Err(e) => {
                    tell(format_args!("cannot read acknowledgements: {e}"));
                    break;
                }
            }
        }
        self.shared.ended.store(true, SeqCst);
        ffi::wake();
    }

    fn line(&self, line: &[u8]) {
        let text = String::from_utf8_lossy(line).into_owned();
        let printed = Lsn(self.shared.last_printed());
        match parse(line) {
            Some(ack) if ack.position > printed => {
                tell(format_args!("{:?} is no acknowledgement: nothing beyond {printed} was printed yet", text.trim_end()));
            }
            Some(ack) => {
                let files = ack.file.map_or(0..FILES, |file| file..file + 1);
                for done in &self.shared.done[files] {
                    done.fetch_max(ack.position.0, SeqCst);
                }
                ffi::wake();
            }
            None => {
                let text: String = text.trim_end().chars().take(60).collect();
                tell(format_args!("{text:?} is no acknowledgement: a line is a position, as 16/B374D848, or a file from 0 to 3 and a position"));
            }
        }
    }
}

// A line with its end, cut where it is too long; false at the end of the input. What has no end of line was cut off with its writer.
fn read_line(input: &mut impl BufRead, line: &mut Vec<u8>) -> io::Result<bool> {
    io::Read::take(&mut *input, LONGEST_LINE).read_until(b'\n', line)?;
    if line.last() == Some(&b'\n') {
        return Ok(true);
    }
    let mut rest = Vec::new();
    while !line.is_empty() && io::Read::take(&mut *input, LONGEST_LINE).read_until(b'\n', &mut rest)? > 0 {
        if rest.last() == Some(&b'\n') {
            return Ok(true);
        }
        rest.clear();
    }
    Ok(false)
}

fn parse(line: &[u8]) -> Option<Ack> {
    let text = std::str::from_utf8(line.strip_suffix(b"\n")?).ok()?;
    let words: Vec<&str> = text.split_ascii_whitespace().collect();
    match words[..] {
        [position] => Some(Ack { file: None, position: position.parse().ok()? }),
        [file, position] if file.len() == 1 => {
            let file = file.parse().ok().filter(|file| *file < FILES)?;
            Some(Ack { file: Some(file), position: position.parse().ok()? })
        }
        _ => None,
    }
}

#[cfg(test)]
pub(crate) mod tests {
    use super::*;

    /// What is done after these lines, where this was printed.
    pub(crate) fn read(lines: &[u8], printed: u64) -> [Lsn; FILES] {
        let shared = Arc::new(Shared::default());
        shared.printed.store(printed, SeqCst);
        Reader { shared: shared.clone() }.run(lines);
        Acks { shared, used: [true; FILES] }.done()
    }

    #[test]
    fn lines() {
        let ack = |file, position| Some(Ack { file, position: Lsn(position) });
        assert_eq!(parse(b"16/B374D848\n"), ack(None, 0x16_B374_D848));
        assert_eq!(parse(b" 3  0/10 \r\n"), ack(Some(3), 0x10));
        for bad in [&b"\n"[..], b"0/10", b"4 0/10\n", b"00 0/10\n", b"-1 0/10\n", b"0 0/10 x\n", b"0/100000000\n", b"16\n", b"\xFF/0\n", b"+0/1\n"] {
            assert_eq!(parse(bad), None, "{bad:?}");
        }
    }

    #[test]
    fn bad_lines_say_nothing() {
        let shared = Arc::new(Shared::default());
        shared.printed.store(0x30, SeqCst);
        let long = [&b"0/2"[..], &[b'0'; 1000], b"\n"].concat();
        let input = [&b"0/10\nwhat\n1 0/20\n0/31\n"[..], &long, b"0/5\n2 0/30\n0/29"].concat();
        Reader { shared: shared.clone() }.run(&input[..]);
        let all = Acks { shared, used: [true; FILES] };
        assert_eq!(all.done(), [Lsn(0x10), Lsn(0x20), Lsn(0x30), Lsn(0x10)]);
        assert!(all.ended() && !all.all_done());
        let some = Acks { shared: all.shared, used: [true, true, false, false] };
        assert_eq!(some.done(), [Lsn(0x10), Lsn(0x20), Lsn(0x30), Lsn(0x30)]);
        some.forget();
        assert!(some.done() == [Lsn(0); FILES] && some.all_done());
    }

    #[test]
    fn what_an_earlier_run_printed() {
        let acks = Acks { shared: Arc::default(), used: [true; FILES] };
        acks.printed_before(Lsn(0x20));
        acks.passed(Lsn(0x40));
        // A keepalive counts only once that is acknowledged, too; a stop does not wait for it.
        assert!(acks.done() == [Lsn(0); FILES] && acks.all_done());
        Reader { shared: acks.shared.clone() }.run(&b"0/21\n0/20\n"[..]);
        assert_eq!(acks.done(), [Lsn(0x40); FILES]);
    }
}
