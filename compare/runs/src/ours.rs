//! The project itself as a side: the proved archive, through the crate `host/`.

use crate::scenario::Scenario;
use crate::stepped::{Answer, Stepped, Steps};
use crate::trace::{Event, Metrics, STATUS};
use rufflesquash::{Input, Lossy, Lsn, Moment, Run, Settings, Text};
use std::time::Duration;

#[derive(Default)]
pub struct Ours {
    run: Option<Run>,
    payload: Vec<u8>,
    /// For lossy texts.
    text: Vec<u8>,
}

pub fn side() -> Stepped<Ours> {
    Stepped::new("ours")
}

/// What one of the writers makes of a text; the longest is three bytes for one, and the words around an error's fields.
fn written(text: &[u8], out: &mut Vec<u8>, write: impl Fn(&[u8], &mut [u8]) -> Result<Lossy, rufflesquash::Refusal>) -> Vec<u8> {
    out.resize(out.len().max(3 * text.len() + 64), 0);
    let shown = write(text, out).expect("the text has room");
    out[..shown.bytes].to_vec()
}

impl Steps for Ours {
    fn begin(&mut self, s: &Scenario, unit: u64) -> Vec<u8> {
        let settings = Settings {
            status_interval: Duration::from_nanos(s.status * unit),
            idle_wakeup_interval: Duration::from_nanos(s.idle * unit),
            max_message_size: s.limit as usize,
            stop_at_lsn: s.stop_at.map(Lsn),
            timing: s.timing,
            binary: s.binary,
        };
        self.payload.clear();
        self.payload.resize(settings.payload_len(), 0);
        if s.open {
            self.run = Some(Run::already_open(&settings, Lsn(s.start)).expect("settings within their bounds"));
            return Vec::new();
        }
        let names: Vec<Text> = s.publications.iter().map(|name| Text::from(name.as_str())).collect();
        let length = 256 + s.slot.len() + names.iter().map(|n| 2 * n.len() + 1).sum::<usize>();
        let mut out = vec![0; length];
        let (run, n) =
            Run::open(&settings, s.slot.as_bytes(), &names, Lsn(s.query), Lsn(s.start), &mut out).expect("settings within their bounds, and room");
        self.run = Some(run);
        out.truncate(n);
        out
    }

    fn step(&mut self, input: &Input, unread: &[u8]) -> Answer {
        let run = self.run.as_mut().expect("a run that was begun");
        let mut out = [0; STATUS];
        let step = run.step(input, unread, &mut self.payload, &mut out);
        let text = &mut self.text;
        let answer = Answer {
            refusal: step.refusal.map_or(0, |r| r.number()),
            taken: step.taken,
            state: run.state(),
            written: out[..step.written].to_vec(),
            waited: step.waited.map(|time| time.as_nanos() as u64),
            event: step.event.map(|event| event_of(event, text)),
            error: Vec::new(),
        };
        match run.error(&self.payload) {
            Some(payload) => Answer { error: written(payload, text, rufflesquash::error_text), ..answer },
            None => answer,
        }
    }

    fn report(&mut self, file: u64, position: u64, moment: Moment) -> u8 {
        let told = self.run.as_mut().expect("a run that was begun").report(file, Lsn(position), moment);
        told.map_or_else(|refusal| refusal.number(), |()| 0)
    }

    fn report_all(&mut self, position: u64, moment: Moment) {
        self.run.as_mut().expect("a run that was begun").report_all(Lsn(position), moment);
    }

    fn metrics(&self) -> Metrics {
        let m = self.run.as_ref().expect("a run that was begun").metrics();
        [m.events_forwarded, m.feedback_sent, m.keepalive_replies, m.stall_count, m.stall_micros_total, m.last_applied_lsn.0, m.last_wal_end.0]
    }
}

fn event_of(event: rufflesquash::Event, text: &mut Vec<u8>) -> Event {
    use rufflesquash::Event as Ours;
    match event {
        Ours::KeepAlive { wal_end, server_time_micros: time, reply_requested } => Event::KeepAlive { end: wal_end.0, time, reply: reply_requested },
        Ours::Begin { final_lsn, commit_time_micros: time, xid } => Event::Begin { end: final_lsn.0, time, xid },
        Ours::Commit { lsn, end_lsn, commit_time_micros: time } => Event::Commit { position: lsn.0, end: end_lsn.0, time },
        Ours::Message { transactional, lsn, prefix, content } => {
            Event::Message { flag: transactional, position: lsn.0, prefix: written(prefix, text, rufflesquash::lossy), content: content.to_vec() }
        }
        Ours::XLogData { wal_start, wal_end, server_time_micros: time, data } => {
            Event::Other { start: wal_start.0, end: wal_end.0, time, data: data.to_vec() }
        }
        Ours::StoppedAt { reached } => Event::StoppedAt { reached: reached.0 },
        other => panic!("an event that the Rust does not have: {other:?}"),
    }
}
