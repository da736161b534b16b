//! A run and its calls.

use crate::archive::assert_archive;
use crate::ffi;
use crate::types::part;
use crate::{Input, LastStatus, Lsn, Metrics, Moment, NextStep, Queue, Refusal, Settings};
use crate::{State, Step, Text};
use core::fmt;

/// A run of the stream: its whole state. It can be copied and kept; a copy goes on by itself.
#[derive(Clone, PartialEq, Eq)]
pub struct Run {
    words: ffi::RunWords,
}

impl Run {
    /// Writes the query that opens a stream over the front of `out`; answers the run and the query's length.
    ///
    /// `position` is what the query asks for, `start` where confirmations begin. Refused (1, 25, 4), `out` is as it was.
    pub fn open(
        settings: &Settings,
        slot: &[u8],
        publications: &[Text<'_>],
        position: Lsn,
        start: Lsn,
        out: &mut [u8],
    ) -> Result<(Run, usize), Refusal> {
        assert_archive();
        let (number, words, written) = ffi::open(&settings.words(), slot, publications, position.0, start.0, out);
        Refusal::checked(number).map(|()| (Run { words }, written as usize))
    }

    /// A run whose stream has begun already: no query is sent. Refused (1) where an interval is too long.
    pub fn already_open(settings: &Settings, start: Lsn) -> Result<Run, Refusal> {
        assert_archive();
        let (number, words) = ffi::already_open(&settings.words(), start.0);
        Refusal::checked(number).map(|()| Run { words })
    }

    /// One step: makes one move of the run.
    ///
    /// `payload` has at least [`Settings::payload_len`] bytes and is lent unchanged to every step of the run: it keeps what was read of a
    /// message. `out` has at least [`crate::STEP_OUTPUT`] bytes; what a step writes there is to be sent before the next.
    pub fn step<'a>(&mut self, input: &Input, unread: &[u8], payload: &'a mut [u8], out: &mut [u8]) -> Step<'a> {
        let answer = ffi::step(&mut self.words, &input.given(), unread, payload, out);
        Step::of_words(answer, payload)
    }

    /// Up to four steps with the same input, until one has a refusal, an event or bytes to send: what it answers, with all bytes taken.
    ///
    /// Four steps hand on a message that lies whole in `unread`. In a drain `advance` does not make them one after another: it hands the message on
    /// directly, in a third of their time and with the same result.
    pub fn advance<'a>(&mut self, input: &Input, unread: &[u8], payload: &'a mut [u8], out: &mut [u8]) -> Step<'a> {
        let answer = ffi::advance(&mut self.words, &input.given(), unread, payload, out);
        Step::of_words(answer, payload)
    }

    /// How many files a run has. They are numbered from 0.
    pub const FILES: u64 = ffi::FILES;

    /// Tells the run that one of the four files has applied all before a position. A lower position than this file's changes nothing.
    ///
    /// A status confirms the smallest over the four files of the largest of the start and that file's reports. A number above 3 is refused with
    /// [`Refusal::NoSuchFile`], and nothing changes.
    pub fn report(&mut self, file: u64, position: Lsn, moment: Moment) -> Result<(), Refusal> {
        Refusal::checked(ffi::report(&mut self.words, file, position.0, moment.0))
    }

    /// The same for each of the four files in one call, none of which is refused, and what a status would confirm now.
    pub fn report_each(&mut self, positions: [Lsn; ffi::POSITIONS_WORDS], moment: Moment) -> Lsn {
        Lsn(ffi::report_each(&mut self.words, &positions.map(|position| position.0), moment.0))
    }

    /// The same with one position for all four files: what a consumer does that has fewer of them.
    pub fn report_all(&mut self, position: Lsn, moment: Moment) -> Lsn {
        self.report_each([position; ffi::POSITIONS_WORDS], moment)
    }

    /// When to step again while nothing new comes, with a payload buffer of this length and the queue as it is now.
    ///
    /// The answer is promised for a next step that finds no byte unread, the input not ended and no stop request; a host with unread bytes, at the
    /// end of the input or asked to stop steps at once. See [`NextStep`].
    pub fn next_step(&self, payload_len: usize, queue: Queue) -> NextStep {
        match ffi::next_step(&self.words, payload_len, queue.word()) {
            [ffi::NEXT_AT_ONCE, _] => NextStep::AtOnce,
            [ffi::NEXT_FROM, moment] => NextStep::From(Moment(moment)),
            [ffi::NEXT_ON_INPUT, _] => NextStep::OnInput,
            _ => NextStep::Never,
        }
    }

    /// The state of the run.
    pub fn state(&self) -> State {
        State::of_word(ffi::state(&self.words))
    }

    /// The counters of the run.
    pub fn metrics(&self) -> Metrics {
        let m = ffi::metrics(&self.words);
        Metrics {
            events_forwarded: m[ffi::METRICS_EVENTS_FORWARDED],
            feedback_sent: m[ffi::METRICS_FEEDBACK_SENT],
            keepalive_replies: m[ffi::METRICS_KEEPALIVE_REPLIES],
            stall_count: m[ffi::METRICS_STALL_COUNT],
            stall_micros_total: m[ffi::METRICS_STALL_MICROS_TOTAL],
            last_applied_lsn: Lsn(m[ffi::METRICS_LAST_APPLIED_LSN]),
            last_wal_end: Lsn(m[ffi::METRICS_LAST_WAL_END]),
        }
    }

    /// What a status would confirm now: the smallest over the four files of the largest of the start and that file's reports.
    pub fn position(&self) -> Lsn {
        Lsn(ffi::position(&self.words))
    }

    /// The last status, where one was sent.
    pub fn last_sent(&self) -> Option<LastStatus> {
        let status = ffi::last_sent(&self.words);
        let last = LastStatus { position: Lsn(status[ffi::STATUS_POSITION]), at: Moment(status[ffi::STATUS_AT]) };
        (status[ffi::STATUS_SENT] != 0).then_some(last)
    }

    /// Writes the service page, [`crate::PAGE`] bytes, over the front of `out`, and answers its length. Refused (4), `out` is as it was.
    ///
    /// Six lines of 32 characters and a newline, each a label flush left in 12 and a value flush right in 20: POSITION, what a status would confirm
    /// now; SENT, what the last status confirmed, a hyphen before the first; SERVER, the wal_end of the last XLogData or keepalive that was handled
    /// without refusal; EVENTS handed on; STALLS begun; STATE.
    pub fn page(&self, out: &mut [u8]) -> Result<usize, Refusal> {
        crate::written(ffi::page(&self.words, out))
    }

    /// The payload of the server's error that ended the run, where one did, from the payload buffer of its steps.
    /// [`crate::error_text`] makes a text of it.
    pub fn error<'a>(&self, payload: &'a [u8]) -> Option<&'a [u8]> {
        let [given, len] = ffi::error_part(&self.words, payload.len());
        (given != 0).then(|| part(payload, 0, len))
    }

    /// The run's words, to keep them elsewhere.
    pub fn as_words(&self) -> &ffi::RunWords {
        &self.words
    }

    /// The run that words stand for; any words are those of some run.
    pub fn from_words(words: ffi::RunWords) -> Run {
        Run { words }
    }
}

impl fmt::Debug for Run {
    fn fmt(&self, f: &mut fmt::Formatter<'_>) -> fmt::Result {
        f.debug_struct("Run")
            .field("state", &self.state())
            .field("position", &self.position())
            .field("last_sent", &self.last_sent())
            .field("metrics", &self.metrics())
            .finish_non_exhaustive()
    }
}
