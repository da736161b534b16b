//! A load for benchmarks: a server's stream of messages that are drawn from a seed, and the events that a run hands on for it.

use crate::archive::assert_archive;
use crate::{ffi, Event, Refusal};

/// Writes so many messages that are drawn from a seed over the front of `out`, and answers how many bytes they have. The same seed gives the same
/// messages everywhere; each has 23 to 94 bytes. Refused (35 for a seed of 0, then 4), `out` is as it was.
///
/// ```
/// let mut stream = vec![0; 94 * 1000];
/// let len = rufflesquash::write_load(7, 1000, &mut stream)?;
/// assert!((23 * 1000..=stream.len()).contains(&len));
/// # Ok::<(), rufflesquash::Refusal>(())
/// ```
pub fn write_load(seed: u64, messages: u64, out: &mut [u8]) -> Result<usize, Refusal> {
    assert_archive();
    let (number, written) = ffi::load(seed, messages, out);
    Refusal::checked(number).map(|()| written as usize)
}

/// The events of a load, in their order: what a run that was opened already, without a stop position or stop request, hands on for the stream of
/// [`write_load`] with the same seed and number of messages.
#[derive(Clone, Copy, Debug)]
pub struct Load {
    state: u64,
    left: u64,
}

impl Load {
    /// The load of so many messages from a seed; 35 for a seed of 0.
    pub fn new(seed: u64, messages: u64) -> Result<Load, Refusal> {
        assert_archive();
        match seed {
            0 => Err(Refusal::SeedZero),
            state => Ok(Load { state, left: messages }),
        }
    }
}

// The payload of other data, of which every event's data are a part.
static PAYLOAD: [u8; 89] = {
    let mut payload = [b'A'; 89];
    payload[25] = b'I';
    payload
};

impl Iterator for Load {
    type Item = Event<'static>;

    fn next(&mut self) -> Option<Event<'static>> {
        self.left = self.left.checked_sub(1)?;
        let (state, [kind, words @ ..]) = ffi::load_event(self.state);
        self.state = state;
        Event::of_words(kind, words, &PAYLOAD).expect("the archive's own event")
    }

    fn size_hint(&self) -> (usize, Option<usize>) {
        (usize::try_from(self.left).unwrap_or(usize::MAX), usize::try_from(self.left).ok())
    }
}
