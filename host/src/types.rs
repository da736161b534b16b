//! What a run is given and what it answers.

use crate::ffi;
use crate::rows::Row;
use crate::Refusal;
use core::fmt;
use core::str::FromStr;
use core::time::Duration;

/// A position in the server's log.
///
/// ```
/// use rufflesquash::{Lsn, Refusal};
///
/// assert_eq!("16/b374d848".parse(), Ok(Lsn(0x16_B374_D848)));
/// assert_eq!(Lsn(0x16_B374_D848).to_string(), "16/B374D848");
/// assert_eq!("16".parse::<Lsn>(), Err(Refusal::MissingSlash));
/// ```
#[derive(Clone, Copy, Debug, Default, PartialEq, Eq, PartialOrd, Ord, Hash)]
pub struct Lsn(pub u64);

/// Nanoseconds of a clock of the host's, 1 to 9,223,372,036,854,775,807. Another type than a position, so that none is taken for the other.
#[derive(Clone, Copy, Debug, Default, PartialEq, Eq, PartialOrd, Ord, Hash)]
pub struct Moment(pub u64);

impl Lsn {
    /// The position that a text names, as `16/B374D848`: two hexadecimal numbers of 1 to 8 digits with a slash between; refusals 22, 23 and 24.
    pub fn parse(text: &[u8]) -> Result<Lsn, Refusal> {
        let (number, position) = ffi::parse_position(text);
        Refusal::checked(number).map(|()| Lsn(position))
    }

    /// Writes the position's text, at most 17 bytes, over the front of `out`, and answers its length. Refused (4), `out` is as it was.
    pub fn write(self, out: &mut [u8]) -> Result<usize, Refusal> {
        crate::written(ffi::display_position(self.0, out))
    }
}

impl FromStr for Lsn {
    type Err = Refusal;

    fn from_str(text: &str) -> Result<Lsn, Refusal> {
        Lsn::parse(text.as_bytes())
    }
}

impl fmt::Display for Lsn {
    fn fmt(&self, f: &mut fmt::Formatter<'_>) -> fmt::Result {
        let mut text = [0; 17];
        let n = self.write(&mut text).map_err(|_| fmt::Error)?;
        f.write_str(core::str::from_utf8(&text[..n]).map_err(|_| fmt::Error)?)
    }
}

/// The settings of a run.
#[derive(Clone, Copy, Debug, PartialEq, Eq)]
pub struct Settings {
    /// How long after a status the next is due; at most 86,400 seconds.
    pub status_interval: Duration,
    /// How long a wait lasts until a status is sent; at most 86,400 seconds.
    pub idle_wakeup_interval: Duration,
    /// The longest payload of a message in bytes, held to 1,073,741,824.
    pub max_message_size: usize,
    /// The run ends after the event that reaches this position.
    pub stop_at_lsn: Option<Lsn>,
    /// Whether statuses tell how long a confirmed position had waited.
    pub timing: bool,
    /// Whether the query asks for binary values.
    pub binary: bool,
}

impl Default for Settings {
    fn default() -> Settings {
        Settings {
            status_interval: Duration::from_secs(10),
            idle_wakeup_interval: Duration::from_secs(10),
            max_message_size: 1_073_741_824,
            stop_at_lsn: None,
            timing: false,
            binary: false,
        }
    }
}

impl Settings {
    /// The shortest payload buffer that a step of such a run takes.
    pub fn payload_len(&self) -> usize {
        self.max_message_size.min(1_073_741_824)
    }

    pub(crate) fn words(&self) -> [u64; ffi::SETTINGS_WORDS] {
        let mut words = [0; ffi::SETTINGS_WORDS];
        words[ffi::SETTINGS_STATUS_INTERVAL_NANOS] = nanos(self.status_interval);
        words[ffi::SETTINGS_IDLE_WAKEUP_INTERVAL_NANOS] = nanos(self.idle_wakeup_interval);
        words[ffi::SETTINGS_MAX_MESSAGE_BYTES] = self.max_message_size as u64;
        words[ffi::SETTINGS_HAS_STOP] = self.stop_at_lsn.is_some() as u64;
        words[ffi::SETTINGS_STOP_AT_LSN] = self.stop_at_lsn.unwrap_or_default().0;
        words[ffi::SETTINGS_TIMING] = self.timing as u64;
        words[ffi::SETTINGS_BINARY] = self.binary as u64;
        words
    }
}

// An interval past 64 bits is too long as well.
fn nanos(interval: Duration) -> u64 {
    u64::try_from(interval.as_nanos()).unwrap_or(u64::MAX)
}

/// The queue to the consumer, as a step finds it.
#[derive(Clone, Copy, Debug, PartialEq, Eq)]
pub enum Queue {
    /// An event is taken.
    Free,
    /// No event is taken now.
    Full,
    /// Events are dropped.
    Closed,
}

impl Queue {
    pub(crate) fn word(self) -> u64 {
        match self {
            Queue::Free => ffi::QUEUE_FREE,
            Queue::Full => ffi::QUEUE_FULL,
            Queue::Closed => ffi::QUEUE_CLOSED,
        }
    }
}

/// What a step is given beside the lent bytes.
#[derive(Clone, Copy, Debug, PartialEq, Eq)]
pub struct Input {
    /// Now; never before that of an accepted step.
    pub moment: Moment,
    /// The client's time for a status: microseconds from 2000-01-01.
    pub client_time_micros: i64,
    /// Whether the run is to stop.
    pub stop: bool,
    /// The queue now.
    pub queue: Queue,
    /// Whether the server's bytes have ended; counts only where none are unread.
    pub ended: bool,
}

impl Input {
    #[inline]
    pub(crate) fn given(&self) -> ffi::Given {
        ffi::Given { moment: self.moment.0, client_time: self.client_time_micros, stop: self.stop, queue: self.queue.word(), ended: self.ended }
    }
}

/// The state of a run.
#[derive(Clone, Copy, Debug, PartialEq, Eq)]
pub enum State {
    /// The server has not yet begun the stream.
    Opening,
    /// A round begins.
    Turn,
    /// Messages at hand are looked for.
    Drain,
    /// A message is read.
    Reading,
    /// Nothing was at hand.
    Waiting,
    /// A whole message is there.
    Handling,
    /// An event is offered to the queue.
    Offering,
    /// No further step is accepted. Without a refusal a run ends at a stop request, at its stop position, or at the server's CopyDone; it has
    /// then written its own.
    Ended,
}

impl State {
    pub(crate) fn of_word(word: u64) -> State {
        match word {
            ffi::STATE_OPENING => State::Opening,
            ffi::STATE_TURN => State::Turn,
            ffi::STATE_DRAIN => State::Drain,
            ffi::STATE_READING => State::Reading,
            ffi::STATE_WAITING => State::Waiting,
            ffi::STATE_HANDLING => State::Handling,
            ffi::STATE_OFFERING => State::Offering,
            _ => State::Ended,
        }
    }
}

/// An event for the consumer. Its parts lie in the payload buffer that was lent to the step. Times are microseconds from 2000-01-01.
#[derive(Clone, Copy, Debug, PartialEq, Eq)]
#[non_exhaustive]
pub enum Event<'a> {
    /// The server tells how far its log goes.
    KeepAlive {
        /// The end of the server's log.
        wal_end: Lsn,
        /// The server's clock when it sent the message.
        server_time_micros: i64,
        /// Whether the server asked for a status at once; the run has then written it before this event.
        reply_requested: bool,
    },
    /// A transaction begins.
    Begin {
        /// The position of its commit.
        final_lsn: Lsn,
        /// When it was committed.
        commit_time_micros: i64,
        /// Its number.
        xid: u32,
    },
    /// A transaction ends.
    Commit {
        /// The position of the commit.
        lsn: Lsn,
        /// The end of the transaction: what a consumer reports that has applied it.
        end_lsn: Lsn,
        /// When it was committed.
        commit_time_micros: i64,
    },
    /// A logical message.
    Message {
        /// Whether it belongs to the transaction that is open.
        transactional: bool,
        /// Its position.
        lsn: Lsn,
        /// Its prefix; [`crate::lossy`] makes a text of it, and counts the marks.
        prefix: &'a [u8],
        /// Its content.
        content: &'a [u8],
    },
    /// Any other data of the plugin: rows, relations, types, origins; [`Event::row`] reads them.
    XLogData {
        /// The position at which the data begin.
        wal_start: Lsn,
        /// The end of the server's log.
        wal_end: Lsn,
        /// The server's clock when it sent the message.
        server_time_micros: i64,
        /// The data, as the plugin wrote them.
        data: &'a [u8],
    },
    /// The stop position was reached; the run ends with this event.
    StoppedAt {
        /// The position that reached it.
        reached: Lsn,
    },
}

impl<'a> Event<'a> {
    // The event of its kind and six more words, with its parts in the payload buffer. A kind that this crate does not know is no event that may
    // be passed over.
    pub(crate) fn of_words(kind: u64, words: [u64; 6], payload: &'a [u8]) -> Result<Option<Event<'a>>, Refusal> {
        let [a, b, c, d, e, f] = words;
        Ok(Some(match kind {
            ffi::EVENT_NOTHING => return Ok(None),
            ffi::EVENT_KEEP_ALIVE => Event::KeepAlive { wal_end: Lsn(a), server_time_micros: b as i64, reply_requested: c != 0 },
            ffi::EVENT_BEGIN => Event::Begin { final_lsn: Lsn(a), commit_time_micros: b as i64, xid: c as u32 },
            ffi::EVENT_COMMIT => Event::Commit { lsn: Lsn(a), end_lsn: Lsn(b), commit_time_micros: c as i64 },
            ffi::EVENT_MESSAGE => Event::Message { transactional: a != 0, lsn: Lsn(b), prefix: part(payload, c, d), content: part(payload, e, f) },
            ffi::EVENT_XLOG_DATA => Event::XLogData { wal_start: Lsn(a), wal_end: Lsn(b), server_time_micros: c as i64, data: part(payload, d, e) },
            ffi::EVENT_STOPPED_AT => Event::StoppedAt { reached: Lsn(a) },
            _ => return Err(Refusal::Unknown),
        }))
    }

    // The number of its kind.
    pub(crate) fn kind(&self) -> u64 {
        match self {
            Event::KeepAlive { .. } => ffi::EVENT_KEEP_ALIVE,
            Event::Begin { .. } => ffi::EVENT_BEGIN,
            Event::Commit { .. } => ffi::EVENT_COMMIT,
            Event::Message { .. } => ffi::EVENT_MESSAGE,
            Event::XLogData { .. } => ffi::EVENT_XLOG_DATA,
            Event::StoppedAt { .. } => ffi::EVENT_STOPPED_AT,
        }
    }

    /// The row in the data of an [`Event::XLogData`]; none of every other event. Refused (26, 27) where the data are no row of protocol version 1;
    /// the run goes on.
    #[inline]
    pub fn row(&self) -> Result<Option<Row<'a>>, Refusal> {
        match *self {
            Event::XLogData { data, .. } => Row::parse(data),
            _ => Ok(None),
        }
    }
}

// A part that an answer names. It lies in the buffer, as the archive promises; this crate does not rely on that.
#[inline]
pub(crate) fn part(payload: &[u8], from: u64, len: u64) -> &[u8] {
    let end = payload.len() as u64;
    let from = from.min(end);
    let to = from.saturating_add(len).min(end);
    &payload[from as usize..to as usize]
}

/// What a step answers. All of it counts: bytes taken are not lent again, bytes written are sent before the next step, and the event is the
/// consumer's.
#[derive(Clone, Copy, Debug, PartialEq, Eq)]
#[must_use = "the step has taken bytes, and may have bytes to send and an event"]
#[non_exhaustive]
pub struct Step<'a> {
    /// Why the step was refused. 2 to 5 change nothing; 6 to 19 end the run.
    pub refusal: Option<Refusal>,
    /// How many of the unread bytes were taken.
    pub taken: usize,
    /// How many bytes at the output's front are to be sent.
    pub written: usize,
    /// The event that is handed on.
    pub event: Option<Event<'a>>,
    /// How long the position that a status confirmed had waited, where that is told.
    pub waited: Option<Duration>,
}

impl<'a> Step<'a> {
    #[inline]
    pub(crate) fn of_words(answer: [u64; ffi::ANSWER_WORDS], payload: &'a [u8]) -> Step<'a> {
        let [number, taken, written, told, waited, kind, a, b, c, d, e, f] = answer;
        let (unknown, event) = match Event::of_words(kind, [a, b, c, d, e, f], payload) {
            Ok(event) => (None, event),
            Err(refusal) => (Some(refusal), None),
        };
        Step {
            refusal: Refusal::of_word(number).or(unknown),
            taken: taken as usize,
            written: written as usize,
            event,
            waited: (told != 0).then(|| Duration::from_nanos(waited)),
        }
    }
}

/// When to step again while nothing new comes: no byte, no end of the input, no stop request, no change of the queue, no report.
///
/// It is the answer for a host whose next step would find no byte unread, the input not ended and no stop request. A host that has unread bytes,
/// has met the end of the input or was asked to stop steps at once, whatever this says.
#[derive(Clone, Copy, Debug, PartialEq, Eq)]
pub enum NextStep {
    /// The next step moves.
    AtOnce,
    /// Steps from this moment on move; it may lie at or before the last accepted one.
    From(Moment),
    /// No step moves until something comes.
    OnInput,
    /// The run has ended.
    Never,
}

/// The counters of a run; each starts again at zero after its largest value.
#[derive(Clone, Copy, Debug, Default, PartialEq, Eq)]
#[non_exhaustive]
pub struct Metrics {
    /// Events handed on.
    pub events_forwarded: u64,
    /// Statuses sent.
    pub feedback_sent: u64,
    /// Of these, those in reply to a keepalive.
    pub keepalive_replies: u64,
    /// Stalls begun.
    pub stall_count: u64,
    /// Microseconds of stalls that ended.
    pub stall_micros_total: u64,
    /// The position last confirmed.
    pub last_applied_lsn: Lsn,
    /// The server's end last told.
    pub last_wal_end: Lsn,
}

/// The last status that a run sent.
#[derive(Clone, Copy, Debug, PartialEq, Eq)]
pub struct LastStatus {
    /// The position that it confirmed.
    pub position: Lsn,
    /// The moment of its step.
    pub at: Moment,
}
