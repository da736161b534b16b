//! Messages of a server, and a run that is fed with them.
#![allow(dead_code)]

use rufflesquash::{Input, Lsn, Moment, Queue, Refusal, Run, Settings, State, Step, Text, STEP_OUTPUT};
use std::time::Duration;

/// The limit of a message in these tests.
pub const LIMIT: usize = 256;
/// What the payload buffer and the output hold before a call.
pub const FILL: u8 = 0xAA;

pub fn settings() -> Settings {
    Settings {
        status_interval: Duration::from_millis(10),
        idle_wakeup_interval: Duration::from_millis(20),
        max_message_size: LIMIT,
        ..Settings::default()
    }
}

pub fn message(tag: u8, payload: &[u8]) -> Vec<u8> {
    let mut bytes = vec![tag];
    bytes.extend((payload.len() as u32 + 4).to_be_bytes());
    bytes.extend(payload);
    bytes
}

pub fn keepalive(wal_end: u64, time: i64, reply: u8) -> Vec<u8> {
    let mut body = vec![b'k'];
    body.extend(wal_end.to_be_bytes());
    body.extend(time.to_be_bytes());
    body.push(reply);
    message(b'd', &body)
}

pub fn xlog_data(start: u64, end: u64, time: i64, data: &[u8]) -> Vec<u8> {
    let mut body = vec![b'w'];
    body.extend(start.to_be_bytes());
    body.extend(end.to_be_bytes());
    body.extend(time.to_be_bytes());
    body.extend(data);
    message(b'd', &body)
}

pub fn begin(final_lsn: u64, time: i64, xid: u32) -> Vec<u8> {
    let mut data = vec![b'B'];
    data.extend(final_lsn.to_be_bytes());
    data.extend(time.to_be_bytes());
    data.extend(xid.to_be_bytes());
    data
}

pub fn commit(lsn: u64, end: u64, time: i64) -> Vec<u8> {
    let mut data = vec![b'C', 0];
    data.extend(lsn.to_be_bytes());
    data.extend(end.to_be_bytes());
    data.extend(time.to_be_bytes());
    data
}

pub fn logical(flags: u8, lsn: u64, prefix: &[u8], len: i32, content: &[u8]) -> Vec<u8> {
    let mut data = vec![b'M', flags];
    data.extend(lsn.to_be_bytes());
    data.extend(prefix);
    data.push(0);
    data.extend(len.to_be_bytes());
    data.extend(content);
    data
}

/// The payload of a DataRow.
pub fn row(columns: &[Option<&[u8]>]) -> Vec<u8> {
    let mut payload = (columns.len() as u16).to_be_bytes().to_vec();
    for column in columns {
        payload.extend(column.map_or(-1, |c| c.len() as i32).to_be_bytes());
        payload.extend(column.unwrap_or_default());
    }
    payload
}

/// Numbers from a seed.
pub struct Draw(pub u64);

impl Draw {
    pub fn word(&mut self) -> u64 {
        self.0 ^= self.0 << 13;
        self.0 ^= self.0 >> 7;
        self.0 ^= self.0 << 17;
        self.0.wrapping_mul(0x2545_F491_4F6C_DD1D)
    }

    pub fn below(&mut self, n: u64) -> u64 {
        (self.word() >> 16) % n
    }

    pub fn bytes(&mut self, n: u64) -> Vec<u8> {
        (0..self.below(n + 1)).map(|_| self.word() as u8).collect()
    }
}

/// A run with its buffers, its clock and the server's bytes.
#[derive(Clone)]
pub struct Fed {
    pub run: Run,
    pub payload: Vec<u8>,
    pub out: Vec<u8>,
    pub moment: u64,
    pub bytes: Vec<u8>,
    pub ended: bool,
    pub stop: bool,
    pub queue: Queue,
}

/// What a step answered, with nothing borrowed.
#[derive(Clone, Debug, PartialEq)]
pub struct Answer {
    pub refusal: Option<Refusal>,
    pub taken: usize,
    pub written: usize,
    pub event: Option<String>,
    pub waited: Option<Duration>,
}

impl From<Step<'_>> for Answer {
    fn from(step: Step) -> Answer {
        Answer {
            refusal: step.refusal,
            taken: step.taken,
            written: step.written,
            event: step.event.map(|event| format!("{event:?}")),
            waited: step.waited,
        }
    }
}

impl Fed {
    pub fn new(run: Run, bytes: &[u8]) -> Fed {
        Fed {
            run,
            payload: vec![FILL; LIMIT + 8],
            out: vec![FILL; STEP_OUTPUT + 8],
            moment: 0,
            bytes: bytes.to_vec(),
            ended: false,
            stop: false,
            queue: Queue::Free,
        }
    }

    /// A run that is already open.
    pub fn reading(bytes: &[u8]) -> Fed {
        let run = Run::already_open(&settings(), Lsn(0x10)).unwrap();
        Fed::new(run, bytes)
    }

    /// A run that waits for the server to begin the stream.
    pub fn opening(bytes: &[u8]) -> Fed {
        let mut out = [0; 256];
        let opened = Run::open(&settings(), b"s", &[Text::new(b"p")], Lsn(0), Lsn(0x10), &mut out);
        Fed::new(opened.unwrap().0, bytes)
    }

    pub fn input(&self) -> Input {
        Input { moment: Moment(self.moment), client_time_micros: -7, stop: self.stop, queue: self.queue, ended: self.ended }
    }

    /// One step, a microsecond later.
    pub fn step(&mut self) -> Answer {
        self.moment += 1000;
        let input = self.input();
        let answer = Answer::from(self.run.step(&input, &self.bytes, &mut self.payload, &mut self.out));
        self.bytes.drain(..answer.taken);
        answer
    }

    /// Several steps in one call, a microsecond later.
    pub fn advance(&mut self) -> Answer {
        self.moment += 1000;
        let input = self.input();
        let (payload, out) = (&mut self.payload, &mut self.out);
        let answer = Answer::from(self.run.advance(&input, &self.bytes, payload, out));
        self.bytes.drain(..answer.taken);
        answer
    }

    /// Steps until one is refused, and that one. Several in one call come to the same refusal, bytes and buffers.
    pub fn refused(&mut self) -> Answer {
        let mut other = self.clone();
        let at_once = (0..1000).find_map(|_| other.advance().refusal);
        for _ in 0..1000 {
            let answer = self.step();
            if answer.refusal.is_some() {
                assert_eq!(at_once, answer.refusal);
                assert_eq!((&other.bytes, &other.payload), (&self.bytes, &self.payload));
                assert_eq!((&other.out, other.run.state()), (&self.out, self.run.state()));
                return answer;
            }
        }
        panic!("no step was refused; {:?}", self.run);
    }

    /// The events until a state with nothing at hand.
    pub fn events(&mut self) -> Vec<String> {
        let mut events = Vec::new();
        for _ in 0..1000 {
            events.extend(self.step().event);
            if self.bytes.is_empty() && matches!(self.run.state(), State::Waiting | State::Ended) {
                return events;
            }
        }
        panic!("the run does not come to rest; {:?}", self.run);
    }
}
