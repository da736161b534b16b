//! `advance` is up to four steps, one by one.

mod common;

use common::*;
use rufflesquash::{Input, Lsn, Moment, Queue, Run, Settings, State, RUN_WORDS, STEP_OUTPUT};

impl Draw {
    /// A message of a stream, at times a cut or an odd one.
    fn message(&mut self) -> Vec<u8> {
        let (a, b, c) = (self.below(64), self.below(64), self.word() as i64);
        let mut whole = match self.below(100) {
            0 => message(b'd', &self.bytes(40)),
            1..=9 => keepalive(a, c, self.below(2) as u8),
            10..=29 => xlog_data(a, b, c, &begin(a, c, b as u32)),
            30..=49 => xlog_data(a, b, c, &commit(a, b, c)),
            50..=59 => xlog_data(a, b, c, &logical(1, a, b"p", 2, b"xy")),
            60..=63 => message(b'N', &self.bytes(40)),
            64 => message(b'c', &self.bytes(3)),
            _ => xlog_data(a, b, c, &[b"I".to_vec(), self.bytes(60)].concat()),
        };
        if self.below(200) == 0 {
            let at = self.below(whole.len() as u64) as usize;
            whole[at] = self.word() as u8;
        }
        whole
    }

    /// The run of any words.
    fn run(&mut self) -> Run {
        let mut words = [0; RUN_WORDS];
        for word in &mut words {
            *word = match self.below(4) {
                0 => self.word(),
                1 => self.below(300),
                _ => self.below(3),
            };
        }
        Run::from_words(words)
    }

    fn input(&mut self, moment: &mut u64) -> Input {
        *moment += [0, 1, 1_000, 15_000_000][self.below(4) as usize];
        Input {
            moment: Moment(*moment),
            client_time_micros: self.word() as i64,
            stop: self.below(400) == 0,
            queue: [Queue::Free, Queue::Free, Queue::Free, Queue::Full, Queue::Closed][self.below(5) as usize],
            ended: self.below(400) == 0,
        }
    }
}

/// A run with its buffers.
#[derive(Clone, Debug, PartialEq)]
struct Held {
    run: Run,
    payload: Vec<u8>,
    out: Vec<u8>,
}

impl Held {
    fn new(run: Run) -> Held {
        Held { run, payload: vec![FILL; LIMIT + 3], out: vec![FILL; STEP_OUTPUT + 3] }
    }

    fn call(&mut self, at_once: bool, input: &Input, unread: &[u8]) -> Answer {
        let call = if at_once { Run::advance } else { Run::step };
        call(&mut self.run, input, unread, &mut self.payload, &mut self.out).into()
    }

    /// Steps one by one, each with the bytes after those taken, until one tells something.
    fn one_by_one(&mut self, input: &Input, unread: &[u8]) -> Answer {
        let mut taken = 0;
        for left in (0..4).rev() {
            let mut answer = self.call(false, input, &unread[taken..]);
            taken += answer.taken;
            answer.taken = taken;
            if left == 0 || answer.refusal.is_some() || answer.event.is_some() || answer.written > 0 {
                return answer;
            }
        }
        unreachable!()
    }
}

/// Both ways from the same run; the run goes on with what they left.
fn same(held: &mut Held, input: &Input, unread: &[u8]) -> Answer {
    let mut other = held.clone();
    let expected = other.one_by_one(input, unread);
    let answer = held.call(true, input, unread);
    assert_eq!((&answer, &*held), (&expected, &other), "{input:?} {unread:02x?}");
    assert_eq!(held.run.as_words(), other.run.as_words());
    answer
}

/// A moment at which nothing happens.
fn quiet(moment: u64) -> Input {
    Input { moment: Moment(moment), client_time_micros: 0, stop: false, queue: Queue::Free, ended: false }
}

#[test]
fn on_streams() {
    let mut draw = Draw(7);
    let (mut events, mut ends) = (0, 0);
    for _ in 0..2_000 {
        let limit = [LIMIT, LIMIT, 60][draw.below(3) as usize];
        let stop_at = (draw.below(3) == 0).then(|| Lsn(draw.below(64)));
        let s = Settings { max_message_size: limit, stop_at_lsn: stop_at, timing: draw.below(2) == 0, ..settings() };
        let mut held = Held::new(Run::already_open(&s, Lsn(1)).unwrap());
        let bytes: Vec<u8> = (0..draw.below(40)).flat_map(|_| draw.message()).collect();
        let (mut at, mut moment) = (0, 1);
        for _ in 0..120 {
            let most = [bytes.len(), 5, 40][draw.below(3) as usize];
            let end = bytes.len().min(at + most);
            let answer = same(&mut held, &draw.input(&mut moment), &bytes[at..end]);
            at += answer.taken;
            events += answer.event.is_some() as u64;
            if draw.below(10) == 0 {
                held.run.report(draw.below(4), Lsn(draw.below(64)), Moment(moment)).unwrap();
            }
        }
        ends += (held.run.state() == State::Ended) as u64;
    }
    assert!(events > 10_000 && (500..1_900).contains(&ends), "{events} events, {ends} ends");
}

#[test]
fn on_any_words() {
    let mut draw = Draw(8);
    for _ in 0..200_000 {
        let drains = draw.below(2) == 0;
        let mut run = draw.run();
        while drains && run.state() != State::Drain {
            run = draw.run();
        }
        let mut held = Held::new(run);
        let bytes = [draw.message(), draw.message()].concat();
        let input = draw.input(&mut (draw.0 % (1 << 40)));
        same(&mut held, &input, &bytes);
    }
}

#[test]
fn hands_on_a_message_at_hand() {
    let mut held = Held::new(Run::already_open(&settings(), Lsn(1)).unwrap());
    let input = quiet(1);
    assert_eq!(same(&mut held, &input, b"").written, 39);
    let bytes = xlog_data(1, 2, 3, b"Idata");
    let answer = same(&mut held, &input, &bytes);
    assert_eq!(answer.taken, bytes.len());
    assert!(answer.event.unwrap().starts_with("XLogData"));
    assert_eq!(held.run.state(), State::Drain);
}

#[test]
fn refusals_of_its_own_inputs() {
    let run = Run::already_open(&settings(), Lsn(1)).unwrap();
    let number = |held: &mut Held, moment| same(held, &quiet(moment), b"").refusal.map(|r| r.number());
    let mut short = Held { payload: vec![0; LIMIT - 1], ..Held::new(run.clone()) };
    assert_eq!(number(&mut short, 1), Some(3));
    let mut short = Held { out: vec![0; STEP_OUTPUT - 1], ..Held::new(run.clone()) };
    assert_eq!(number(&mut short, 1), Some(4));
    let mut held = Held::new(run);
    assert_eq!(number(&mut held, 0), Some(5));
    assert_eq!(number(&mut held, 2), None);
    assert_eq!(number(&mut held, 1), Some(5));
    let stop = Input { stop: true, ..quiet(3) };
    while same(&mut held, &stop, b"").refusal.is_none() {}
    assert_eq!(number(&mut held, 4), Some(2));
}
