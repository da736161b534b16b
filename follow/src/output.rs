//! The output: lines are gathered in batches, a thread writes them, and tells up to where it is done.
mod target;
mod writer;

use crate::failure::{Failure, FAILED};
use crate::json::Text;
use crate::options::Options;
use crate::print::Lines;
use crate::state::{Origin, State};
use rufflesquash::{Event, Files, Lsn, Queue, Touched};
use std::sync::Arc;
use std::thread::JoinHandle;
use writer::{Batch, Shared, Writer};

/// A batch of so many bytes is handed over; one line may go beyond.
const BATCH: usize = 128 * 1024;
/// Where more bytes than these are not written yet, no event is taken.
const UNWRITTEN: u64 = 1024 * 1024;

/// The session's end of the output.
pub struct Output {
    lines: Lines,
    // The present batch.
    text: Text,
    position: Lsn,
    counts: usize,
    printed: Lsn,
    keepalives: bool,
    shared: Arc<Shared>,
    thread: Option<JoinHandle<Result<(), String>>>,
    // How many bytes and batches were handed over.
    bytes: u64,
    batches: u64,
    // Which files the open transaction has touched, where tables have files.
    touched: Option<Touched>,
    outstanding: bool,
    handed: Lsn,
    // A stream that begins again is told when it has begun: an attempt that fails has resumed nothing.
    resumed: Option<Lsn>,
    // Whether a state stands beside the output, and the one that stood there.
    keeps_state: bool,
    before: Option<State>,
}

impl Output {
    /// Opens the output and starts the thread that writes it.
    pub fn start(options: &Options) -> Result<Output, Failure> {
        let shared = Arc::new(Shared::default());
        let (writer, before) = Writer::open(options, shared.clone()).map_err(|line| Failure::new(FAILED, line))?;
        let keeps_state = writer.keeps_state();
        let thread = std::thread::Builder::new().name("output".to_string()).spawn(move || writer.run());
        let thread = thread.map_err(|e| Failure::new(FAILED, format!("cannot start the thread that writes the output: {e}")))?;
        Ok(Output {
            lines: Lines::new(options),
            text: Text::default(),
            position: Lsn(0),
            counts: 0,
            printed: Lsn(0),
            keepalives: options.keepalives,
            shared,
            thread: Some(thread),
            bytes: 0,
            batches: 0,
            touched: None,
            outstanding: false,
            handed: before.as_ref().map_or(Lsn(0), |state| state.position),
            resumed: None,
            keeps_state,
            before,
        })
    }

    /// Whether a state stands beside the output, so that what is written comes never again.
    pub fn keeps_state(&self) -> bool {
        self.keeps_state
    }

    /// The state of the file that was there before.
    pub fn before(&self) -> Option<&State> {
        self.before.as_ref()
    }

    /// From here on changes come from this origin, the first of them after the position; where they are others than those that were awaited, because
    /// of this gap. A file is cut back to its state now, where there is no gap.
    pub fn begins(&mut self, origin: &Origin, from: Lsn, gap: Option<&str>) {
        if let Some(reason) = gap {
            self.lines.gap(&mut self.text, self.handed, from, reason);
            self.outstanding = false;
        } else {
            self.printed = self.before.as_ref().map_or(Lsn(0), |state| state.printed);
        }
        self.handed = from;
        self.counts_to(from);
        self.hand_over(Batch { origin: Some((origin.clone(), gap.is_some())), ..Batch::default() });
    }

    /// From here on each commit tells which files it touched.
    pub fn tell_files(&mut self, touched: Touched) {
        self.touched = Some(touched);
    }

    /// Adds an event's line to the batch, or answers why that cannot be.
    #[inline]
    pub fn take(&mut self, event: Event) -> Result<(), &'static str> {
        self.begun();
        let files: Option<Files> = self.touched.as_mut().map(|touched| touched.event(&event));
        self.lines.event(&mut self.text, &event, files)?;
        match event {
            Event::Begin { .. } => self.outstanding = true,
            Event::Commit { end_lsn, .. } => {
                self.outstanding = false;
                self.printed = end_lsn;
                self.counts_to(end_lsn);
            }
            Event::KeepAlive { wal_end, .. } if !self.outstanding => {
                self.printed = if self.keepalives { wal_end } else { self.printed };
                self.counts_to(wal_end);
            }
            // All that was committed before it was sent before it.
            Event::Message { transactional: false, lsn, .. } if !self.outstanding => self.counts_to(lsn),
            Event::StoppedAt { .. } if !self.outstanding => self.counts_to(Lsn(0)),
            _ => {}
        }
        if self.text.len() >= BATCH {
            self.hand_over(Batch::default());
        }
        Ok(())
    }

    // Whoever has the batch up to here is done with all before the position.
    fn counts_to(&mut self, position: Lsn) {
        self.handed = self.handed.max(position);
        (self.position, self.counts) = (self.handed, self.text.len());
    }

    /// A stream is asked for after a cut.
    pub fn resumed(&mut self, from: Lsn) {
        self.outstanding = false;
        self.resumed = Some(from);
    }

    /// The stream has begun, so that is told now.
    #[inline]
    pub fn begun(&mut self) {
        if let Some(from) = self.resumed.take() {
            self.lines.resumed(&mut self.text, from);
        }
    }

    /// The stream ends at a keepalive that reaches the end position.
    pub fn stopped(&mut self, reached: Lsn) {
        self.lines.stopped(&mut self.text, reached);
        self.counts_to(Lsn(0));
    }

    /// Hands the batch to the writing thread; called when the input is used up.
    pub fn flush(&mut self) {
        if self.text.len() > 0 || self.position != Lsn(0) {
            self.hand_over(Batch::default());
        }
    }

    // With what else the batch is to do.
    fn hand_over(&mut self, with: Batch) {
        let (position, counts, printed) = (std::mem::take(&mut self.position), std::mem::take(&mut self.counts), std::mem::take(&mut self.printed));
        let mut queue = self.shared.queue();
        // A position alone goes with the last batch that waits: keepalives may come while nothing is written.
        let alone = self.text.len() == 0 && !with.reopen && with.origin.is_none();
        if let Some(last) = queue.batches.back_mut().filter(|last| alone && !last.reopen) {
            (last.position, last.counts) = (position, last.bytes.len());
            return;
        }
        self.batches += 1;
        self.bytes += self.text.len() as u64;
        let bytes = self.text.replace(queue.spare.pop().unwrap_or_default());
        queue.batches.push_back(Batch { bytes, position, counts, printed, ..with });
        self.shared.notify(queue);
    }

    /// Asks the writing thread to sync the file now, whatever the interval.
    pub fn sync(&mut self) {
        self.flush();
        let mut queue = self.shared.queue();
        queue.sync = true;
        self.shared.notify(queue);
    }

    /// Asks the writing thread to open the file again, after what was taken so far.
    pub fn reopen(&mut self) {
        self.hand_over(Batch { reopen: true, ..Batch::default() });
    }

    /// What asks for the same between two streams, when nothing is taken.
    pub fn reopener(&self) -> impl Fn() + 'static {
        let shared = self.shared.clone();
        move || {
            let mut queue = shared.queue();
            queue.reopen = true;
            shared.notify(queue);
        }
    }

    /// Whether a transaction has begun and not ended.
    pub fn in_transaction(&self) -> bool {
        self.outstanding
    }

    /// The queue as a step is to find it.
    #[inline]
    pub fn queue(&self) -> Queue {
        if self.failed() {
            Queue::Closed
        } else if self.bytes - self.shared.written() <= UNWRITTEN {
            Queue::Free
        } else {
            Queue::Full
        }
    }

    /// Up to where what was taken is written, and synced where that is asked for.
    pub fn position(&self) -> Lsn {
        self.shared.position()
    }

    /// Whether all that was taken is written and synced, or never will be.
    pub fn settled(&self) -> bool {
        let empty = self.text.len() == 0 && self.position == Lsn(0);
        self.failed() || empty && self.shared.done() == self.batches
    }

    /// Whether the output can no longer be written.
    #[inline]
    pub fn failed(&self) -> bool {
        self.shared.failed()
    }

    /// Lets the writing thread end, and waits for it.
    pub fn finish(&mut self) -> Result<(), Failure> {
        self.flush();
        let mut queue = self.shared.queue();
        queue.ended = true;
        self.shared.notify(queue);
        let result = match self.thread.take().map(JoinHandle::join) {
            Some(Ok(Err(line))) => Err(line),
            Some(Err(_)) => Err("the thread that writes the output has failed".to_string()),
            _ => Ok(()),
        };
        result.map_err(|line| Failure::new(FAILED, format!("{line}; what was not written is not confirmed and comes again")))
    }
}

#[cfg(test)]
mod tests {
    use super::*;
    use crate::options::{self, Wanted};
    use std::fs;
    use std::io::Read;
    use std::os::unix::fs::PermissionsExt;
    use std::path::{Path, PathBuf};
    use std::time::{Duration, Instant};

    // An empty folder of the test's own.
    fn folder(name: &str) -> PathBuf {
        let folder = std::env::temp_dir().join(format!("follow_output_{}_{name}", std::process::id()));
        let _ = fs::remove_dir_all(&folder);
        fs::create_dir(&folder).unwrap();
        folder
    }

    fn output(file: &str, more: &[&str]) -> Result<Output, Failure> {
        let words = ["-S", "s", "--publication", "p", "-f", file].into_iter().chain(more.iter().copied()).map(Into::into);
        match options::parse(words).unwrap() {
            Wanted::Follow(options) => Output::start(&options),
            other => panic!("{other:?}"),
        }
    }

    // Begin and Commit that ends here; their lines.
    fn transaction(output: &mut Output, end: u64) -> String {
        output.take(Event::Begin { final_lsn: Lsn(end), commit_time_micros: 0, xid: 1 }).unwrap();
        assert!(output.in_transaction());
        output.take(Event::Commit { lsn: Lsn(end), end_lsn: Lsn(end), commit_time_micros: 0 }).unwrap();
        let (end, zero) = (Lsn(end), "2000-01-01T00:00:00.000000Z");
        format!("begin 1 final {end} at {zero}\ncommit {end} end {end} at {zero}\n")
    }

    fn until(what: impl Fn() -> bool) {
        let begun = Instant::now();
        while !what() {
            assert!(begun.elapsed() < Duration::from_secs(20), "nothing happens");
            std::thread::sleep(Duration::from_millis(1));
        }
    }

    #[test]
    fn a_file_is_appended_to_and_what_is_written_counts() {
        let folder = folder("append");
        let file = folder.join("f");
        let mut lines = String::new();
        for end in [16, 32] {
            let mut output = output(file.to_str().unwrap(), &["-F", "0"]).unwrap();
            lines += &transaction(&mut output, end);
            assert!(!output.settled() && output.position() == Lsn(0));
            output.flush();
            until(|| output.settled());
            assert_eq!((output.position(), fs::read_to_string(&file).unwrap()), (Lsn(end), lines.clone()));
            // A keepalive counts where no transaction is open, and is not printed.
            let keepalive = |wal_end| Event::KeepAlive { wal_end: Lsn(wal_end), server_time_micros: 0, reply_requested: false };
            output.take(keepalive(end + 1)).unwrap();
            output.take(Event::Begin { final_lsn: Lsn(99), commit_time_micros: 0, xid: 2 }).unwrap();
            output.take(keepalive(end + 2)).unwrap();
            lines += &format!("begin 2 final {} at 2000-01-01T00:00:00.000000Z\n", Lsn(99));
            output.finish().unwrap();
            assert_eq!(output.position(), Lsn(end + 1));
        }
        assert_eq!(fs::read_to_string(&file).unwrap(), lines);
        assert_eq!(fs::metadata(&file).unwrap().permissions().mode() & 0o777, 0o600);
        fs::remove_dir_all(folder).unwrap();
    }

    fn origin() -> Origin {
        Origin { system: 7, timeline: 1, slot: "s".into() }
    }

    // One that follows a server whose slot stands here, as it was before a kill.
    fn begun(file: &Path, from: u64, gap: Option<&str>) -> Output {
        let mut output = output(file.to_str().unwrap(), &["-F", "1000", "--keepalives"]).unwrap();
        let from = output.before().map_or(Lsn(from), |state| state.position);
        output.begins(&origin(), from, gap);
        output.sync();
        until(|| output.settled());
        output
    }

    fn killed(output: Output) {
        // The lock goes with the process, and here with the thread.
        let Output { shared, thread, .. } = output;
        let mut queue = shared.queue();
        (queue.ended, queue.killed) = (true, true);
        shared.notify(queue);
        thread.unwrap().join().unwrap().unwrap();
    }

    #[test]
    fn a_file_without_a_state_is_appended_to() {
        let folder = folder("stateless");
        let file = folder.join("f");
        // What is left of another program stays a line of its own.
        fs::write(&file, "begin 3 fin").unwrap();
        let mut output = begun(&file, 16, None);
        let lines = transaction(&mut output, 48);
        output.finish().unwrap();
        assert_eq!(fs::read_to_string(&file).unwrap(), format!("begin 3 fin\n{lines}"));
        fs::remove_dir_all(folder).unwrap();
    }

    #[test]
    fn after_a_kill_a_file_is_cut_back_to_its_state() {
        let folder = folder("killed");
        let file = folder.join("f");
        let mut output = begun(&file, 16, None);
        let lines = transaction(&mut output, 32);
        output.sync();
        until(|| output.settled());
        // Written, but not synced: a whole transaction and a part of one.
        transaction(&mut output, 48);
        output.take(Event::Begin { final_lsn: Lsn(64), commit_time_micros: 0, xid: 2 }).unwrap();
        output.flush();
        until(|| fs::metadata(&file).unwrap().len() > lines.len() as u64 * 2);
        assert_eq!(output.position(), Lsn(32));
        // Nobody else writes it meanwhile.
        let line = super::tests::output(file.to_str().unwrap(), &[]).err().unwrap().line;
        assert!(line.ends_with("is written by another follow: name another file, or end that one"), "{line}");
        killed(output);
        let mut output = begun(&file, 99, None);
        assert_eq!((output.position(), fs::read_to_string(&file).unwrap()), (Lsn(32), lines.clone()));
        let state = output.before().unwrap().clone();
        assert_eq!((state.position, state.printed, state.len), (Lsn(32), Lsn(32), lines.len() as u64));
        // A message and a printed keepalive outside a transaction stay, too.
        output.take(Event::Message { transactional: false, lsn: Lsn(40), prefix: b"p", content: b"c" }).unwrap();
        output.take(Event::KeepAlive { wal_end: Lsn(41), server_time_micros: 0, reply_requested: false }).unwrap();
        output.sync();
        until(|| output.settled());
        let longer = fs::read_to_string(&file).unwrap();
        transaction(&mut output, 48);
        killed(output);
        assert_eq!(begun(&file, 0, None).position(), Lsn(41));
        assert_eq!(fs::read_to_string(&file).unwrap(), longer);
        fs::remove_dir_all(folder).unwrap();
    }

    #[test]
    fn a_file_that_was_renamed_is_cut_back_where_it_is() {
        let folder = folder("renamed");
        let (file, moved) = (folder.join("f"), folder.join("f.1"));
        let mut output = begun(&file, 16, None);
        let lines = transaction(&mut output, 32);
        output.sync();
        until(|| output.settled());
        transaction(&mut output, 48);
        output.flush();
        until(|| fs::metadata(&file).unwrap().len() > lines.len() as u64);
        fs::rename(&file, &moved).unwrap();
        killed(output);
        let mut output = begun(&file, 0, None);
        assert_eq!((output.position(), fs::read_to_string(&moved).unwrap()), (Lsn(32), lines));
        let lines = transaction(&mut output, 48);
        output.finish().unwrap();
        assert_eq!(fs::read_to_string(&file).unwrap(), lines);
        // One that is shorter than its state is not lengthened; one that is gone has nothing to cut.
        fs::write(&file, "").unwrap();
        begun(&file, 0, None).finish().unwrap();
        assert_eq!(fs::read_to_string(&file).unwrap(), "");
        fs::remove_file(&file).unwrap();
        assert_eq!(begun(&file, 0, None).position(), Lsn(48));
        fs::remove_dir_all(folder).unwrap();
    }

    #[test]
    fn before_a_gap_nothing_is_cut_off() {
        let folder = folder("gap");
        let file = folder.join("f");
        let mut output = begun(&file, 16, None);
        let mut lines = transaction(&mut output, 32);
        output.sync();
        until(|| output.settled());
        lines += &transaction(&mut output, 48);
        output.flush();
        until(|| fs::read_to_string(&file).unwrap() == lines);
        killed(output);
        let mut output = super::tests::output(file.to_str().unwrap(), &[]).unwrap();
        output.begins(&Origin { timeline: 2, ..origin() }, Lsn(24), Some("another \"server\""));
        lines += "gap done 0/20 from 0/18 \"another \\\"server\\\"\"\n";
        lines += &transaction(&mut output, 40);
        output.finish().unwrap();
        // Positions of another log may be smaller.
        assert_eq!((output.position(), fs::read_to_string(&file).unwrap()), (Lsn(40), lines));
        assert_eq!(begun(&file, 0, None).before().unwrap().origin.timeline, 2);
        fs::remove_dir_all(folder).unwrap();
    }

    #[test]
    fn what_is_not_synced_does_not_count() {
        let folder = folder("sync");
        let file = folder.join("f");
        let mut output = output(file.to_str().unwrap(), &["-F", "1000"]).unwrap();
        let mut lines = transaction(&mut output, 16);
        output.flush();
        // The first is synced at once, the next when it is asked for.
        until(|| output.settled());
        assert_eq!(output.position(), Lsn(16));
        lines += &transaction(&mut output, 32);
        output.flush();
        until(|| fs::read_to_string(&file).unwrap() == lines);
        assert!(!output.settled() && output.position() == Lsn(16));
        output.sync();
        until(|| output.settled());
        assert_eq!(output.position(), Lsn(32));
        transaction(&mut output, 48);
        output.finish().unwrap();
        assert_eq!(output.position(), Lsn(48));
        fs::remove_dir_all(folder).unwrap();
    }

    #[test]
    fn a_sync_comes_when_it_is_due() {
        let folder = folder("due");
        let mut output = output(folder.join("f").to_str().unwrap(), &["-F", "0.3"]).unwrap();
        for end in [16, 32, 48] {
            let begun = Instant::now();
            transaction(&mut output, end);
            output.flush();
            until(|| output.position() == Lsn(end));
            assert!(end == 16 || begun.elapsed() > Duration::from_millis(150), "{:?}", begun.elapsed());
        }
        output.finish().unwrap();
        fs::remove_dir_all(folder).unwrap();
    }

    #[test]
    fn a_file_is_opened_again() {
        let folder = folder("again");
        let (file, moved) = (folder.join("f"), folder.join("moved"));
        let mut output = output(file.to_str().unwrap(), &[]).unwrap();
        let before = transaction(&mut output, 16);
        output.flush();
        until(|| output.settled());
        fs::rename(&file, &moved).unwrap();
        let between = transaction(&mut output, 32);
        output.reopen();
        let after = transaction(&mut output, 48);
        output.sync();
        until(|| output.settled());
        assert_eq!(fs::read_to_string(&moved).unwrap(), before + &between);
        assert_eq!((fs::read_to_string(&file).unwrap(), output.position()), (after, Lsn(48)));
        // A folder in its place cannot be opened.
        fs::remove_file(&file).unwrap();
        fs::create_dir(&file).unwrap();
        output.reopen();
        until(|| output.failed());
        let line = output.finish().unwrap_err().line;
        assert!(line.starts_with(&format!("cannot open {} again: ", file.display())), "{line}");
        assert_eq!(output.queue(), Queue::Closed);
        fs::remove_dir_all(folder).unwrap();
    }

    #[test]
    fn what_cannot_be_opened_or_written_is_told() {
        let folder = folder("full");
        let missing = folder.join("no/f");
        let line = output(missing.to_str().unwrap(), &[]).err().unwrap().line;
        assert!(line.starts_with(&format!("cannot open {}: ", missing.display())), "{line}");
        let mut output = output("/dev/full", &[]).unwrap();
        transaction(&mut output, 16);
        output.sync();
        until(|| output.failed());
        let line = output.finish().unwrap_err().line;
        assert!(line.starts_with("cannot write to /dev/full: No space left on device"), "{line}");
        assert_eq!((output.position(), output.settled()), (Lsn(0), true));
        fs::remove_dir_all(folder).unwrap();
    }

    #[test]
    fn a_pipe_that_nobody_reads_fills_the_queue() {
        let folder = folder("pipe");
        let pipe = folder.join("p");
        assert!(std::process::Command::new("mkfifo").arg(&pipe).status().unwrap().success());
        let reader = std::thread::spawn({
            let pipe = pipe.clone();
            move || fs::File::open(pipe).unwrap()
        });
        let mut output = output(pipe.to_str().unwrap(), &[]).unwrap();
        let mut reader = reader.join().unwrap();
        let data = [&b"I\0\0\0\x07N\0\x01t\0\0\x40\0"[..], &[b'x'; 16384]].concat();
        let mut taken = 0;
        while output.queue() == Queue::Free {
            output.take(Event::XLogData { wal_start: Lsn(1), wal_end: Lsn(1), server_time_micros: 0, data: &data }).unwrap();
            taken += 1;
            assert!(taken < 200);
        }
        assert_eq!(output.queue(), Queue::Full);
        let lines = std::thread::spawn(move || {
            let mut text = Vec::new();
            reader.read_to_end(&mut text).unwrap();
            text.iter().filter(|b| **b == b'\n').count()
        });
        until(|| output.queue() == Queue::Free);
        // A pipe is never synced.
        transaction(&mut output, 16);
        output.flush();
        until(|| output.position() == Lsn(16) && output.settled());
        output.finish().unwrap();
        assert_eq!(lines.join().unwrap(), taken + 2);
        fs::remove_dir_all(folder).unwrap();
    }
}
