//! The thread that writes the output, and what it shares with the session.
use super::target::{self, Target};
use crate::ffi;
use crate::options::Options;
use crate::state::{self, Origin, State};
use rufflesquash::Lsn;
use std::collections::VecDeque;
use std::path::PathBuf;
use std::sync::atomic::{AtomicBool, AtomicU64, Ordering::SeqCst};
use std::sync::{Arc, Condvar, Mutex, MutexGuard, PoisonError};
use std::time::{Duration, Instant};

/// Memory of larger batches is not kept.
const SPARE: usize = 1024 * 1024;
const SPARES: usize = 16;
/// The time between two states of a file that is not synced.
const UNSYNCED_STATES: Duration = Duration::from_millis(100);

/// Whole lines.
#[derive(Default)]
pub struct Batch {
    pub bytes: Vec<u8>,
    /// What is done once the first `counts` bytes are written; 0 where these lines end nothing.
    pub position: Lsn,
    pub counts: usize,
    /// The last position in these lines that can be acknowledged; 0 where there is none.
    pub printed: Lsn,
    /// Whether the file is to be opened again after it.
    pub reopen: bool,
    /// Where what follows comes from, and whether changes before it may be missing.
    pub origin: Option<(Origin, bool)>,
}

/// What the writing thread is to do.
#[derive(Default)]
pub struct Queue {
    pub batches: VecDeque<Batch>,
    /// Memory of batches that are written.
    pub spare: Vec<Vec<u8>>,
    pub sync: bool,
    /// Whether the file is to be opened again between two streams, when all batches are written.
    pub reopen: bool,
    pub ended: bool,
    /// Ends as a kill would, without a sync.
    #[cfg(test)]
    pub killed: bool,
    // Whether the writing thread waits.
    waits: bool,
}

/// What both threads see. Counts rise only.
#[derive(Default)]
pub struct Shared {
    queue: Mutex<Queue>,
    ready: Condvar,
    written: AtomicU64,
    done: AtomicU64,
    position: AtomicU64,
    failed: AtomicBool,
}

impl Shared {
    // No thread panics while it holds the queue, and what is there would be whole all the same.
    pub fn queue(&self) -> MutexGuard<'_, Queue> {
        self.queue.lock().unwrap_or_else(PoisonError::into_inner)
    }

    /// Lets the queue go, and wakes the writing thread where it waits.
    pub fn notify(&self, mut queue: MutexGuard<Queue>) {
        let waits = std::mem::take(&mut queue.waits);
        drop(queue);
        if waits {
            self.ready.notify_one();
        }
    }

    /// How many bytes are written.
    #[inline]
    pub fn written(&self) -> u64 {
        self.written.load(SeqCst)
    }

    /// How many batches are written, and synced where that is asked for.
    pub fn done(&self) -> u64 {
        self.done.load(SeqCst)
    }

    /// The position of these batches.
    pub fn position(&self) -> Lsn {
        Lsn(self.position.load(SeqCst))
    }

    #[inline]
    pub fn failed(&self) -> bool {
        self.failed.load(SeqCst)
    }
}

/// Writes batch after batch.
pub struct Writer {
    target: Target,
    // Of a regular file that was opened by its name.
    state: Option<Beside>,
    shared: Arc<Shared>,
    /// None where nothing is synced.
    interval: Option<Duration>,
    // Whether the file and its state are synced, and not only written.
    syncs: bool,
    last_sync: Option<Instant>,
    // What is written.
    batches: u64,
    position: Lsn,
    printed: Lsn,
    // Whether something is written that does not count yet, and whether it has bytes.
    unsynced: bool,
    bytes: bool,
}

/// The state of an output file.
struct Beside {
    path: PathBuf,
    // None before a server is known.
    origin: Option<Origin>,
    last: Option<State>,
    // Whether the file was cut back to the state.
    recovered: bool,
    verbose: bool,
}

impl Writer {
    /// Opens the output. Answers the state of a file that was written before.
    pub fn open(options: &Options, shared: Arc<Shared>) -> Result<(Writer, Option<State>), String> {
        let target = Target::open(options.output.as_deref())?;
        let (mut interval, syncs, mut state, mut before) = (options.fsync_interval, options.fsync_interval.is_some(), None, None);
        if let Some(path) = options.output.as_deref().filter(|_| target.is_regular()) {
            let path = state::path_of(path);
            before = State::read(&path)?;
            state = Some(Beside { path, origin: None, last: before.clone(), recovered: false, verbose: options.verbose });
            interval = interval.or(Some(UNSYNCED_STATES));
        }
        let (position, printed) = before.as_ref().map_or((Lsn(0), Lsn(0)), |state| (state.position, state.printed));
        shared.position.store(position.0, SeqCst);
        let (last_sync, batches, unsynced, bytes) = (None, 0, false, false);
        let writer = Writer { target, state, shared, interval, syncs, last_sync, batches, position, printed, unsynced, bytes };
        Ok((writer, before))
    }

    // The first time a file is cut back to its state, but not where what is cut off may never come again.
    fn begin(&mut self, origin: Origin, gap: bool) -> Result<(), String> {
        let Some(beside) = &mut self.state else { return Ok(()) };
        beside.origin = Some(origin);
        if std::mem::replace(&mut beside.recovered, true) {
            return Ok(());
        }
        if let Some(last) = beside.last.as_ref().filter(|_| !gap) {
            target::recover(&mut self.target, last, beside.verbose)?;
        }
        self.target.end_line().map_err(|e| format!("cannot write to {}: {e}", self.target.name()))
    }

    /// Whether a state stands beside the output.
    pub fn keeps_state(&self) -> bool {
        self.state.is_some()
    }

    /// Until the queue is ended or something fails; answers what has failed.
    pub fn run(mut self) -> Result<(), String> {
        let result = self.write_all();
        if result.is_err() {
            self.target.cut_back();
            self.shared.failed.store(true, SeqCst);
            ffi::wake();
        }
        result
    }

    fn write_all(&mut self) -> Result<(), String> {
        loop {
            let work = self.next();
            for batch in work.batches {
                let reopen = batch.reopen;
                self.write(batch)?;
                if reopen {
                    self.reopen()?;
                }
            }
            if work.reopen {
                self.reopen()?;
            }
            #[cfg(test)]
            if work.killed {
                return Ok(());
            }
            if work.sync || work.ended || self.due().is_some_and(|due| due <= Instant::now()) {
                self.sync()?;
            }
            if work.ended {
                return Ok(());
            }
        }
    }

    // Waits for something to do, or until a sync is due.
    fn next(&self) -> Queue {
        let mut queue = self.shared.queue();
        loop {
            let left = self.due().map(|due| due.saturating_duration_since(Instant::now()));
            if queue.sync || queue.reopen || queue.ended || !queue.batches.is_empty() || left.is_some_and(|left| left.is_zero()) {
                let spare = std::mem::take(&mut queue.spare);
                let work = std::mem::take(&mut *queue);
                (queue.spare, queue.ended) = (spare, work.ended);
                return work;
            }
            queue.waits = true;
            queue = match left {
                Some(left) => self.shared.ready.wait_timeout(queue, left).unwrap_or_else(PoisonError::into_inner).0,
                None => self.shared.ready.wait(queue).unwrap_or_else(PoisonError::into_inner),
            };
            queue.waits = false;
        }
    }

    // When the next sync is due, where something is unsynced.
    fn due(&self) -> Option<Instant> {
        let interval = self.interval.filter(|_| self.unsynced)?;
        self.last_sync.map_or_else(|| Some(Instant::now()), |last| last.checked_add(interval))
    }

    fn write(&mut self, batch: Batch) -> Result<(), String> {
        let other = batch.origin.is_some();
        if let Some((origin, gap)) = batch.origin {
            self.begin(origin, gap)?;
        }
        let begin = self.target.len;
        self.bytes |= !batch.bytes.is_empty();
        self.unsynced |= self.interval.is_some() && self.target.is_regular() && (!batch.bytes.is_empty() || self.state.is_some());
        let result = self.target.write(&batch.bytes);
        let counted = begin + batch.counts as u64;
        if batch.position != Lsn(0) && self.target.len >= counted {
            (self.position, self.target.whole) = (batch.position, counted);
            // Another origin has positions of its own.
            self.printed = if other { batch.printed } else { self.printed.max(batch.printed) };
        }
        if let Err(e) = result {
            // What is whole counts, where it can be synced.
            let _ = self.sync();
            return Err(format!("cannot write to {}: {e}", self.target.name()));
        }
        self.batches += 1;
        self.shared.written.fetch_add(batch.bytes.len() as u64, SeqCst);
        if self.unsynced {
            ffi::wake();
        } else {
            self.done();
        }
        let mut queue = self.shared.queue();
        if batch.bytes.capacity() <= SPARE && queue.spare.len() < SPARES {
            queue.spare.push(batch.bytes);
        }
        Ok(())
    }

    // What is written counts. The position stands before the count, so that who sees the count sees it.
    fn done(&mut self) {
        self.target.done = self.target.whole;
        self.shared.position.store(self.position.0, SeqCst);
        self.shared.done.store(self.batches, SeqCst);
        ffi::wake();
    }

    // The state that says so is written after the file, and before anybody can confirm the position.
    fn sync(&mut self) -> Result<(), String> {
        if self.unsynced {
            if self.syncs && self.bytes {
                self.target.sync().map_err(|e| format!("cannot sync {}: {e}", self.target.name()))?;
            }
            self.write_state()?;
            self.last_sync = Some(Instant::now());
            (self.unsynced, self.bytes) = (false, false);
        }
        self.done();
        Ok(())
    }

    fn write_state(&mut self) -> Result<(), String> {
        let Some(beside) = &mut self.state else { return Ok(()) };
        let Some(origin) = &beside.origin else { return Ok(()) };
        let (file, len) = (self.target.id, self.target.whole_now().map_err(|e| format!("cannot look at {}: {e}", self.target.name()))?);
        let state = State { origin: origin.clone(), position: self.position, printed: self.printed, file, len };
        if beside.last.as_ref() != Some(&state) {
            state.write(&beside.path, self.syncs).map_err(|e| format!("cannot write {}: {e}", beside.path.display()))?;
            beside.last = Some(state);
        }
        Ok(())
    }

    // Between two lines, after all before is synced. The new file has its state before it has a line.
    fn reopen(&mut self) -> Result<(), String> {
        self.sync()?;
        let Some(path) = self.target.path.clone().filter(|path| !self.target.is_at(path)) else { return Ok(()) };
        let again = |line: String| line.replacen(&path.display().to_string(), &format!("{} again", path.display()), 1);
        self.target = Target::open(Some(&path)).map_err(again)?;
        self.target.end_line().map_err(|e| format!("cannot write to {}: {e}", path.display()))?;
        self.write_state()
    }
}
