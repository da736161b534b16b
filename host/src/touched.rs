//! The files that a transaction touched.

use crate::archive::assert_archive;
use crate::ffi;
use crate::{Event, Refusal};
use core::fmt;

/// Which of the four files the rows of a transaction touched, by a list of relations and their files.
///
/// It is shown every event of a run in order. A Begin clears all four; an Insert, Update, Delete or Truncate sets the file of every relation that it
/// names, as far as the list has it; all else leaves them. So the answer to a Commit is what its transaction touched. A row that is cut short or has
/// a letter that the protocol does not list touches nothing. It can be copied and kept, and allocates nothing.
///
/// ```
/// use rufflesquash::{Event, Lsn, Touched};
///
/// let mut touched = Touched::new(&[(16384, 0), (16385, 2)])?;
/// let insert = b"I\x00\x00\x40\x01N\x00\x01n"; // a row of one null column for relation 16385
/// let row = Event::XLogData { wal_start: Lsn(0), wal_end: Lsn(0), server_time_micros: 0, data: insert };
/// assert!(touched.event(&row).contains(2));
/// let commit = Event::Commit { lsn: Lsn(1), end_lsn: Lsn(2), commit_time_micros: 0 };
/// assert_eq!(touched.event(&commit).iter().collect::<Vec<_>>(), [2]);
/// # Ok::<(), rufflesquash::Refusal>(())
/// ```
#[derive(Clone, PartialEq, Eq)]
pub struct Touched {
    identifiers: [u32; Touched::ENTRIES],
    files: [u64; Touched::ENTRIES],
    entries: usize,
    bits: u64,
}

impl Touched {
    /// How many entries of a list are read.
    pub const ENTRIES: usize = 64;

    /// A list of relations, by their identifiers, and their files, 0 to 3. Relations outside it touch no file; of a repeated one the first entry
    /// holds; entries past the sixty-fourth are not read. Refused (31) where one of the others has a file above 3. No file is touched at first.
    pub fn new(entries: &[(u32, u64)]) -> Result<Touched, Refusal> {
        assert_archive();
        let mut touched = Touched { identifiers: [0; Self::ENTRIES], files: [0; Self::ENTRIES], entries: entries.len().min(Self::ENTRIES), bits: 0 };
        for (i, (identifier, file)) in entries.iter().take(Self::ENTRIES).enumerate() {
            touched.identifiers[i] = *identifier;
            touched.files[i] = *file;
        }
        Refusal::checked(touched.call(ffi::EVENT_NOTHING, &[])).map(|()| touched)
    }

    /// The next event of the run; answers the files that were touched since the last Begin, or since the first event where there was none.
    pub fn event(&mut self, event: &Event<'_>) -> Files {
        let data = match event {
            Event::XLogData { data, .. } => data,
            _ => &[][..],
        };
        self.call(event.kind(), data); // the list was not refused
        self.files()
    }

    /// The files as the last event left them.
    pub fn files(&self) -> Files {
        Files(self.bits as u8)
    }

    fn call(&mut self, kind: u64, data: &[u8]) -> u64 {
        ffi::touched(&self.identifiers[..self.entries], &self.files[..self.entries], kind, data, &mut self.bits)
    }
}

impl fmt::Debug for Touched {
    fn fmt(&self, f: &mut fmt::Formatter<'_>) -> fmt::Result {
        f.debug_struct("Touched").field("entries", &self.entries).field("files", &self.files()).finish_non_exhaustive()
    }
}

/// Some of the four files, which are numbered from 0.
#[derive(Clone, Copy, Default, PartialEq, Eq, Hash)]
pub struct Files(u8);

impl Files {
    /// Whether a file is among them; no other number is.
    pub fn contains(self, file: u64) -> bool {
        self.iter().any(|f| f == file)
    }

    /// Their numbers, from the lowest on.
    pub fn iter(self) -> impl Iterator<Item = u64> {
        (0..crate::Run::FILES).filter(move |file| self.0 >> file & 1 == 1)
    }

    /// Whether there is none.
    pub fn is_empty(self) -> bool {
        self.0 == 0
    }

    /// The number, 0 to 15, whose bit n stands for file n.
    pub fn bits(self) -> u8 {
        self.0
    }
}

impl fmt::Debug for Files {
    fn fmt(&self, f: &mut fmt::Formatter<'_>) -> fmt::Result {
        f.debug_set().entries(self.iter()).finish()
    }
}
