//! `follow`: prints what a logical replication slot of PostgreSQL hands on.
#![deny(unsafe_code)]

mod ack;
mod auth;
mod conninfo;
mod failure;
mod ffi;
#[cfg(test)]
mod fuzz;
mod json;
mod link;
mod names;
mod options;
mod output;
mod print;
mod progress;
mod rows;
mod session;
mod slot;
mod startup;
mod state;
mod terminal;
mod tls;

use ack::Acks;
use conninfo::Conninfo;
use failure::{tell, Failure, FAILED, USAGE};
use ffi::Waiter;
use options::{Options, Wanted};
use output::Output;
use progress::Progress;
use rufflesquash::{Lsn, Run, Settings, Text, Touched};
use session::{Clock, End, Host, Session, Totals};
use startup::{Passwords, Talk};
use state::{Origin, Standing};
use std::io::{self, Write};
use std::process::ExitCode;
use std::time::{Duration, Instant};

const FIRST_PAUSE: Duration = Duration::from_millis(50);
const LONGEST_PAUSE: Duration = Duration::from_secs(10);
/// A query for a slot and publications is no longer than what the library takes together.
const QUERY: usize = 3 * 1_048_576;

fn main() -> ExitCode {
    let result = run();
    progress::clear();
    match result {
        Ok(()) => ExitCode::SUCCESS,
        Err(failure) => {
            tell(format_args!("{failure}"));
            ExitCode::from(failure.status)
        }
    }
}

fn run() -> Result<(), Failure> {
    check_descriptors()?;
    rufflesquash::check_archive().map_err(|wrong| Failure::new(FAILED, wrong.to_string()))?;
    match options::parse(std::env::args_os().skip(1))? {
        Wanted::Follow(options) => act(&options),
        Wanted::Help => print(options::HELP),
        Wanted::Version => print(concat!("follow ", env!("CARGO_PKG_VERSION"), "\n")),
    }
}

// What is printed to a closed descriptor is printed nowhere, and would be confirmed. So that is looked at before anything is opened.
fn check_descriptors() -> Result<(), Failure> {
    for (fd, name, mend) in [
        (0, "standard input", "give it something, as < /dev/null"),
        (1, "standard output", "give it a file or a pipe, or > /dev/null to drop what is printed"),
        (2, "standard error", "give it a file or a pipe, or 2> /dev/null"),
    ] {
        let wrong = if ffi::closed_at_start(fd) {
            "is closed"
        } else if fd > 0 && ffi::read_only(fd) {
            "cannot be written"
        } else {
            continue;
        };
        return Err(Failure::new(USAGE, format!("{name} {wrong}: {mend}")));
    }
    Ok(())
}

fn print(text: &str) -> Result<(), Failure> {
    let unwritable = |e: io::Error| Failure::new(FAILED, format!("cannot write to standard output: {e}"));
    ffi::standard_output().and_then(|mut out| out.write_all(text.as_bytes())).map_err(unwritable)
}

// One connection makes or drops a slot; following connects as often as is needed.
fn act(options: &Options) -> Result<(), Failure> {
    let conninfo = Conninfo::resolve(&options.given)?;
    let waiter = Waiter::new(options.output.is_some()).map_err(|e| Failure::new(FAILED, format!("cannot wait for signals: {e}")))?;
    let passwords = Passwords { ask: options.ask, typed: None };
    let mut client = Client { options, conninfo, waiter: &waiter, passwords };
    if options.start {
        return Following::start(&mut client)?.follow(client);
    }
    let mut talk = client.connect()?;
    if options.drop_slot {
        talk.drop_slot(options)?;
    } else {
        talk.create_slot(options)?;
    }
    if options.verbose {
        tell(format_args!("slot {} {}", options.slot, if options.drop_slot { "was dropped" } else { "is there" }));
    }
    Ok(())
}

/// Opens connections.
struct Client<'a> {
    options: &'a Options,
    conninfo: Conninfo,
    waiter: &'a Waiter,
    passwords: Passwords,
}

impl<'a> Client<'a> {
    fn connect(&mut self) -> Result<Talk<'a>, Failure> {
        let talk = Talk::connect(&self.conninfo, self.waiter, &mut self.passwords)?;
        if self.options.verbose {
            tell(format_args!("connected: {}", talk.about()));
        }
        Ok(talk)
    }

    fn connect_next(&mut self) -> Result<Talk<'a>, Failure> {
        self.conninfo.refresh(&self.options.given);
        self.connect()
    }

    // The first connection also finds out what the stream itself would tell only with the first change.
    fn connect_first(&mut self, output: &mut Output) -> Result<Talk<'a>, Failure> {
        let options = self.options;
        let mut talk = self.connect()?;
        talk.check_publications(options, &self.conninfo)?;
        if !options.files.is_empty() {
            let touched = Touched::new(&talk.files(options)?).map_err(|refusal| Failure::refused(refusal, options.max_message_size))?;
            output.tell_files(touched);
        }
        if options.create_slot {
            talk.create_slot(options)?;
        }
        Ok(talk)
    }
}

/// What lasts from one stream to the next.
struct Following {
    settings: Settings,
    payload: Box<[u8]>,
    clock: Clock,
    output: Output,
    acks: Option<Acks>,
    progress: Option<Progress>,
    totals: Totals,
    // Where what is done came from, and where the slot stood when it was first seen.
    origin: Option<Origin>,
    first: Lsn,
}

impl Following {
    fn start(client: &mut Client) -> Result<Following, Failure> {
        let options = client.options;
        let settings = Settings {
            status_interval: options.status_interval,
            idle_wakeup_interval: options.status_interval,
            max_message_size: options.max_message_size,
            stop_at_lsn: options.endpos,
            timing: false,
            binary: options.binary,
        };
        let no_memory = || {
            let line = format!("there is no memory for a message of {} bytes; give less with --max-message-size", options.max_message_size);
            Failure::new(FAILED, line)
        };
        let payload = ffi::zeroed(settings.payload_len()).ok_or_else(no_memory)?;
        let used = |file| options.files.is_empty() || options.files.iter().any(|of| of.file == file as u64);
        let acks = options.ack.map(|fd| Acks::start(fd, std::array::from_fn(used))).transpose()?;
        let (progress, output, totals) = (Progress::start(options.progress), Output::start(options)?, Totals::default());
        let origin = output.before().map(|state| state.origin.clone());
        Ok(Following { settings, payload, clock: Clock::start(), output, acks, progress, totals, origin, first: Lsn(0) })
    }

    fn follow(mut self, mut client: Client) -> Result<(), Failure> {
        let mut result = self.connect_again(&mut client);
        self.settle(client.waiter, Some(Duration::from_secs(1)));
        if result.as_ref().is_err_and(|failure| failure.server) {
            self.await_acks(client.waiter);
            // A status that was sent may not have been read before the error.
            if self.position() != Lsn(0) {
                self.confirm_by_query(&mut client);
            }
        }
        if self.output.settled() {
            if let Err(failure) = self.output.finish() {
                result = Err(failure);
            }
        }
        if client.options.verbose && self.totals.streams > 0 {
            let Totals { streams, events, statuses, stalls, last_status } = self.totals;
            let last = last_status.unwrap_or_default();
            tell(format_args!("{streams} streams, {events} events, {statuses} statuses, {stalls} stalls, last status {last}"));
        }
        result
    }

    // Until the stream ends as wanted or with a failure that does not go away; after a cut, and after the server's own end, a pause that grows while
    // nothing new is confirmed.
    fn connect_again(&mut self, client: &mut Client) -> Result<(), Failure> {
        let options = client.options;
        let (mut pause, mut confirmed, mut first, mut there) = (FIRST_PAUSE, Lsn(0), true, false);
        loop {
            self.look_after_signals(client.waiter);
            let connected = if first { client.connect_first(&mut self.output) } else { client.connect_next() };
            first &= connected.is_err();
            let failure = match connected.and_then(|talk| self.one_connection(client, talk)) {
                Ok(End::Server) if !options.no_loop => Failure::cut("the server ended the stream"),
                Ok(end) => return self.acknowledged(end),
                Err(failure) => failure,
            };
            // All that was handed on is printed before more is asked for: the position is then the consumer's.
            self.settle(client.waiter, None);
            if ffi::stop_requested() || self.output.failed() {
                return Ok(());
            }
            if self.acks.as_ref().is_some_and(Acks::ended) && failure.again {
                return self.acknowledged(End::Unacknowledged);
            }
            there |= failure.there || self.totals.streams > 0;
            if !failure.again || options.no_loop || !there {
                return Err(failure);
            }
            if self.position() > confirmed {
                (pause, confirmed) = (FIRST_PAUSE, self.position());
            }
            let from = if confirmed == Lsn(0) { "where the slot stands".to_string() } else { confirmed.to_string() };
            tell(format_args!("{failure}; again from {from} in {} ms", pause.as_millis()));
            self.look_after_signals(client.waiter);
            sleep(client.waiter, pause);
            if ffi::stop_requested() {
                return Ok(());
            }
            pause = (pause * 2).min(LONGEST_PAUSE);
        }
    }

    // SIGHUP and SIGUSR1 are heard while no stream is open, too.
    fn look_after_signals(&self, waiter: &Waiter) {
        let (totals, position, reopen) = (self.totals, self.position(), self.output.reopener());
        let work = move || {
            if ffi::reopen_requested() {
                reopen();
            }
            if ffi::page_requested() {
                session::show_page_between(&totals, position);
            }
        };
        waiter.between_streams(Some(Box::new(work)));
    }

    // Where a stream has ended and something that was printed is not acknowledged, it comes again.
    fn acknowledged(&self, end: End) -> Result<(), Failure> {
        let position = self.position();
        match &self.acks {
            Some(_) if end == End::Unacknowledged => {
                Err(Failure::new(FAILED, format!("the acknowledgements ended{}; what was printed after it comes again", at(position))))
            }
            Some(acks) if !acks.all_done() => {
                tell(format_args!("not all is acknowledged{}; what was printed after it comes again", at(position)));
                Ok(())
            }
            _ => Ok(()),
        }
    }

    fn one_connection(&mut self, client: &Client, mut talk: Talk) -> Result<End, Failure> {
        self.meet(client, &mut talk)?;
        client.waiter.between_streams(None);
        self.one_stream(client.options, talk)
    }

    // Before each stream: whether the server's log and the slot still have all that comes after what is done.
    fn meet(&mut self, client: &Client, talk: &mut Talk) -> Result<(), Failure> {
        let options = client.options;
        let known = self.origin.is_some() || self.output.before().is_some();
        let standing = talk.standing(options).map_err(|failure| if known { self.without_slot(failure) } else { failure })?;
        self.settings.status_interval = status_interval(options.status_interval, standing.timeout);
        let done = self.done();
        let gap = self.origin.as_ref().and_then(|origin| standing.gap(origin, done));
        match &gap {
            Some(reason) if !options.accept_gap => {
                let advice = "read the tables themselves, then --accept-gap goes on from where the slot stands";
                return Err(Failure::new(FAILED, format!("{reason}. Changes after {done} may be missing: {advice}")));
            }
            Some(reason) => {
                tell(format_args!("{reason}. Changes after {done} may be missing; --accept-gap goes on from {}", standing.confirmed));
                self.acks.iter().for_each(Acks::forget);
            }
            None => {}
        }
        self.begin_at(client, &standing, gap.as_deref())
    }

    // What the server and the slot are now is kept for the next time; beside a file before anything is written or confirmed.
    fn begin_at(&mut self, client: &Client, standing: &Standing, gap: Option<&str>) -> Result<(), Failure> {
        let from = if self.origin.is_none() || gap.is_some() { standing.confirmed } else { self.done() };
        if gap.is_some() || self.totals.streams == 0 && self.output.keeps_state() {
            self.output.begins(&standing.origin, from, gap);
            self.settle(client.waiter, None);
        }
        if self.output.failed() {
            return Err(Failure::cut("the output cannot be written"));
        }
        if gap.is_some() || self.origin.is_none() {
            self.first = from;
        }
        let printed = self.output.before().map_or(Lsn(0), |state| state.printed);
        if let Some(acks) = self.acks.as_ref().filter(|_| self.totals.streams == 0 && gap.is_none() && printed > standing.confirmed) {
            acks.printed_before(printed);
        }
        self.origin = Some(standing.origin.clone());
        Ok(())
    }

    // After which changes are awaited.
    fn done(&self) -> Lsn {
        self.positions().1.max(self.first)
    }

    // A slot that is gone, where something was done: to make it anew would skip changes.
    fn without_slot(&self, failure: Failure) -> Failure {
        if failure.again || !failure.line.contains("--create-slot makes it") {
            return failure;
        }
        let line = format!(
            "{}, but changes after {} and before that are then in no stream: read the tables themselves, and give --accept-gap, too",
            failure.line,
            self.done()
        );
        Failure { line, ..failure }
    }

    fn one_stream(&mut self, options: &Options, mut talk: Talk) -> Result<End, Failure> {
        let (done, has) = self.positions();
        let from = has.max(options.startpos);
        let refused = |refusal| Failure::refused(refusal, options.max_message_size);
        let names: Vec<String> = options.publications.iter().map(|name| slot::identifier(name)).collect();
        let names: Vec<Text> = names.iter().map(|name| Text::from(name.as_str())).collect();
        let mut query = Vec::new();
        let run = if options.plugin_options.is_empty() {
            query = vec![0; QUERY];
            let (run, n) = Run::open(&self.settings, options.slot.as_bytes(), &names, from, done, &mut query).map_err(refused)?;
            query.truncate(n);
            run
        } else {
            talk.start_replication(options, from)?;
            Run::already_open(&self.settings, done).map_err(refused)?
        };
        if self.totals.streams > 0 {
            self.output.resumed(has);
        }
        let host = Host {
            output: &mut self.output,
            acks: self.acks.as_ref(),
            progress: self.progress.as_mut(),
            totals: &mut self.totals,
            clock: self.clock,
            slot: &options.slot,
            keepalives: options.keepalives,
            ack_idle: options.ack_idle,
            verbose: options.verbose,
            server_timeout: options.given.server_timeout,
        };
        Session::new(talk, self.settings, (run, &query), &mut self.payload, host)?.stream()
    }

    // What a status may confirm, and what need not come again: what a file with a state has.
    fn positions(&self) -> (Lsn, Lsn) {
        let done = self.position();
        (done, if self.output.keeps_state() { self.output.position() } else { done })
    }

    // Up to where all is done: acknowledged where that is asked for, else written.
    fn position(&self) -> Lsn {
        session::done(&self.output, self.acks.as_ref()).into_iter().min().unwrap_or_default()
    }

    // After its error the server takes no status. What is done is confirmed all the same, so that it does not come again.
    fn confirm_by_query(&mut self, client: &mut Client) {
        let position = self.position();
        let result = client.connect().and_then(|mut talk| talk.advance_slot(&client.options.slot, position));
        match result {
            Ok(()) => self.totals.last_status = Some(position),
            Err(failure) => tell(format_args!("what was printed last may be sent again: {failure}")),
        }
    }

    // What was printed may be acknowledged in a moment.
    fn await_acks(&self, waiter: &Waiter) {
        let until = Instant::now() + session::CLOSING;
        while self.acks.as_ref().is_some_and(|acks| !acks.ended() && !acks.all_done()) && !ffi::stop_requested() {
            let left = until.saturating_duration_since(Instant::now());
            if left.is_zero() {
                return;
            }
            waiter.wait(None, Some(left));
        }
    }

    // Until all that was handed on is written; a stop request ends a wait without limit after some seconds, too.
    fn settle(&mut self, waiter: &Waiter, limit: Option<Duration>) {
        self.output.sync();
        let mut until = limit.map(|limit| Instant::now() + limit);
        while !self.output.settled() {
            if until.is_none() && ffi::stop_requested() {
                until = Some(Instant::now() + Duration::from_secs(5));
            }
            let left = until.map(|until| until.saturating_duration_since(Instant::now()));
            if left.is_some_and(|left| left.is_zero()) {
                return;
            }
            waiter.wait(None, left);
        }
    }
}

// A server that hears nothing for its timeout ends the stream, and one whose output is read slowly would then never get to its end.
fn status_interval(wanted: Duration, timeout: Option<Duration>) -> Duration {
    wanted.min(timeout.map_or(wanted, |timeout| timeout / 3)).max(Duration::from_millis(1))
}

// Nothing has position 0/0: it stands for the slot's own, before anything is confirmed.
fn at(position: Lsn) -> String {
    if position == Lsn(0) {
        " before the first position".to_string()
    } else {
        format!(" at {position}")
    }
}

fn sleep(waiter: &Waiter, time: Duration) {
    let until = Instant::now() + time;
    while !ffi::stop_requested() {
        let left = until.saturating_duration_since(Instant::now());
        if left.is_zero() {
            return;
        }
        waiter.wait(None, Some(left));
    }
}

#[cfg(test)]
mod tests {
    use super::*;

    #[test]
    fn statuses_come_before_the_servers_timeout() {
        let seconds = Duration::from_secs;
        assert_eq!(status_interval(seconds(10), Some(seconds(60))), seconds(10));
        assert_eq!(status_interval(seconds(86_400), Some(seconds(60))), seconds(20));
        assert_eq!(status_interval(seconds(10), None), seconds(10));
        assert_eq!(status_interval(seconds(10), Some(Duration::from_nanos(1))), Duration::from_millis(1));
    }
}
