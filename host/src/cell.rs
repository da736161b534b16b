//! The progress cell by itself.

use crate::archive::assert_archive;
use crate::ffi;
use crate::{Lsn, Moment};
use core::fmt;

/// The position that a status would confirm, and what is known of raises that no status has covered. A [`crate::Run`] has four files in its
/// place; a host that keeps a cell of its own, for a session to come, carries what is pending over. It can be copied and kept.
///
/// ```
/// use rufflesquash::{Lsn, Moment, ProgressCell};
///
/// let mut cell = ProgressCell::new(Lsn(0x10), true);
/// assert!(cell.raise(Lsn(0x20), Moment(5)));
/// assert_eq!((cell.load(), cell.pending_since()), (Lsn(0x20), Some(Moment(5))));
/// // A status that confirms all of it leaves nothing pending.
/// assert_eq!(cell.take_pending(Lsn(0x20), Moment(7)), Some(Moment(5)));
/// assert_eq!(cell.pending_since(), None);
/// ```
#[derive(Clone, PartialEq, Eq)]
pub struct ProgressCell {
    words: ffi::CellWords,
}

impl ProgressCell {
    /// A cell at a position. With timing it keeps the moment of the first raise that no status has covered.
    pub fn new(start: Lsn, timed: bool) -> ProgressCell {
        assert_archive();
        ProgressCell { words: ffi::cell_new(start.0, timed) }
    }

    /// The position.
    pub fn load(&self) -> Lsn {
        Lsn(ffi::cell_load(&self.words))
    }

    /// The pending moment, where there is one.
    pub fn pending_since(&self) -> Option<Moment> {
        some(ffi::cell_pending_since(&self.words))
    }

    /// Reports a position at a moment; true where the signal is new. A lower position than before changes nothing.
    pub fn raise(&mut self, position: Lsn, moment: Moment) -> bool {
        ffi::cell_raise(&mut self.words, position.0, moment.0) != 0
    }

    /// Clears the signal and answers the position.
    pub fn take_signal(&mut self) -> Lsn {
        Lsn(ffi::cell_take_signal(&mut self.words))
    }

    /// A status with a position was sent that was read at a moment: answers the moment that was pending. Where the cell's position is above
    /// the one sent, `loaded_at` is pending from now on.
    pub fn take_pending(&mut self, sent: Lsn, loaded_at: Moment) -> Option<Moment> {
        some(ffi::cell_take_pending(&mut self.words, sent.0, loaded_at.0))
    }

    /// Carries a pending moment over from an earlier session: the older one counts. Without timing nothing changes.
    pub fn carry_pending(&mut self, since: Moment) {
        ffi::cell_carry_pending(&mut self.words, since.0)
    }

    /// The cell's words, to keep them elsewhere.
    pub fn as_words(&self) -> &ffi::CellWords {
        &self.words
    }

    /// The cell that words stand for; any words are those of some cell.
    pub fn from_words(words: ffi::CellWords) -> ProgressCell {
        ProgressCell { words }
    }
}

fn some(moment: u64) -> Option<Moment> {
    (moment != 0).then_some(Moment(moment))
}

impl fmt::Debug for ProgressCell {
    fn fmt(&self, f: &mut fmt::Formatter<'_>) -> fmt::Result {
        f.debug_struct("ProgressCell").field("position", &self.load()).field("pending_since", &self.pending_since()).finish_non_exhaustive()
    }
}
