//! Two streams that differ in hidden bytes alone: a host cannot tell the runs apart by words, bytes, pages or answers. Which bytes are hidden is
//! said here apart from the library: the content of a Message, and what follows the first byte of other data.

mod common;

use common::*;
use rufflesquash::{Event, Input, Lsn, Moment, Queue, Run, Settings, State, Step, Text, PAGE, STEP_OUTPUT};

/// A message of a stream, and how many bytes at its end are hidden.
fn draw_message(draw: &mut Draw, limit: usize) -> (Vec<u8>, usize) {
    let (a, b, c) = (draw.below(64), draw.below(64), draw.word() as i64);
    match draw.below(100) {
        0 => (message(b'd', &draw.bytes(4)), 0),
        1 => (message(b'E', b"Sx\0Mno\0\0"), 0),
        2 => (message(b'c', b""), 0),
        3..=9 => (keepalive(a, c, draw.below(2) as u8), 0),
        10..=19 => (xlog_data(a, b, c, &begin(a, c, b as u32)), 0),
        20..=39 => (xlog_data(a, b, c, &commit(a, b, c)), 0),
        40..=64 => {
            let content = draw.bytes(60);
            (xlog_data(a, b, c, &logical(b as u8, a, b"p", content.len() as i32, &content)), content.len())
        }
        65..=67 => (message(b'N', &draw.bytes(40)), 0),
        68 => (xlog_data(a, b, c, &logical(1, a, b"p", 9, b"xy")), 0),
        // Over the limit: the run ends at its header.
        69 => (xlog_data(a, b, c, &vec![b'I'; limit]), 0),
        _ => {
            let data = [vec![b"IRUDOYT\0"[draw.below(8) as usize]], draw.bytes(60)].concat();
            (xlog_data(a, b, c, &data), data.len() - 1)
        }
    }
}

/// Two streams, as 02's wish 14 relates them.
fn draw_streams(draw: &mut Draw, opening: bool, limit: usize) -> (Vec<u8>, Vec<u8>) {
    let mut left = if opening { [message(b'N', b"hello\0"), message(b'W', &[0; 3])].concat() } else { Vec::new() };
    let mut right = left.clone();
    for _ in 0..draw.below(40) {
        let (whole, hidden) = draw_message(draw, limit);
        left.extend(&whole);
        right.extend(&whole[..whole.len() - hidden]);
        right.extend((0..hidden).map(|_| draw.word() as u8));
    }
    assert_eq!(left.len(), right.len());
    // At times the stream breaks off, also in the middle of a hidden part.
    let end = if draw.below(4) == 0 { draw.below(left.len() as u64 + 1) as usize } else { left.len() };
    left.truncate(end);
    right.truncate(end);
    (left, right)
}

/// An event with its data and its content left out; where they lie in the payload buffer, and their lengths, stay.
fn left_out(event: &Event, buffer: *const u8) -> String {
    let place = |part: &[u8]| (part.as_ptr() as usize - buffer as usize, part.len());
    match event {
        Event::Message { content, .. } => {
            let text = format!("{event:?}");
            let (head, _) = text.split_once("content").expect("a content");
            format!("{head}{:?}", place(content))
        }
        Event::XLogData { data, .. } => {
            let text = format!("{event:?}");
            let (head, _) = text.split_once("data:").expect("data");
            format!("{head}{:?}", place(data))
        }
        event => format!("{event:?}"),
    }
}

/// A run with what it is lent.
struct Side {
    run: Run,
    payload: Vec<u8>,
    out: Vec<u8>,
    bytes: Vec<u8>,
    at: usize,
    hidden: Vec<u8>,
}

/// All that the other side of the connection and the page show of a call.
#[derive(Debug, PartialEq)]
struct Seen {
    answer: (Option<u8>, usize, usize, Option<std::time::Duration>, Option<String>),
    output: Vec<u8>,
    words: Vec<u64>,
    page: Vec<u8>,
    metrics: String,
    next: String,
    error: Option<Vec<u8>>,
}

impl Side {
    fn new(run: Run, bytes: Vec<u8>, fill: u8, limit: usize) -> Side {
        Side { run, payload: vec![fill; limit + 3], out: vec![FILL; STEP_OUTPUT + 3], bytes, at: 0, hidden: Vec::new() }
    }

    fn call(&mut self, at_once: bool, input: &Input, most: usize, room: usize) -> Seen {
        let call = if at_once { Run::advance } else { Run::step };
        let end = self.bytes.len().min(self.at + most);
        let buffer = self.payload.as_ptr();
        let mut output = self.out[..room].to_vec();
        let step: Step = call(&mut self.run, input, &self.bytes[self.at..end], &mut self.payload, &mut output);
        self.at += step.taken;
        match &step.event {
            Some(Event::Message { content, .. }) => self.hidden.extend(*content),
            Some(Event::XLogData { data, .. }) => self.hidden.extend(*data),
            _ => {}
        }
        let event = step.event.as_ref().map(|event| left_out(event, buffer));
        let answer = (step.refusal.map(|r| r.number()), step.taken, step.written, step.waited, event);
        let mut page = vec![FILL; PAGE];
        self.run.page(&mut page).expect("a page has room");
        Seen {
            answer,
            output,
            words: self.run.as_words().to_vec(),
            page,
            metrics: format!("{:?} {:?} {:?}", self.run.metrics(), self.run.position(), self.run.last_sent()),
            next: format!("{:?} {:?}", self.run.next_step(self.payload.len(), Queue::Free), self.run.next_step(self.payload.len(), Queue::Full)),
            error: self.run.error(&self.payload).map(<[u8]>::to_vec),
        }
    }
}

fn draw_input(draw: &mut Draw, moment: &mut u64) -> Input {
    *moment += [0, 1, 1_000, 15_000_000][draw.below(4) as usize];
    Input {
        // At times a moment that is refused.
        moment: Moment(if draw.below(50) == 0 { 0 } else { *moment }),
        client_time_micros: draw.word() as i64,
        stop: draw.below(400) == 0,
        queue: [Queue::Free, Queue::Free, Queue::Free, Queue::Full, Queue::Closed][draw.below(5) as usize],
        ended: draw.below(400) == 0,
    }
}

fn begun(settings: &Settings, opening: bool) -> Run {
    let mut out = [0; 256];
    match opening {
        true => Run::open(settings, b"s", &[Text::new(b"p")], Lsn(0), Lsn(1), &mut out).unwrap().0,
        false => Run::already_open(settings, Lsn(1)).unwrap(),
    }
}

#[test]
fn hidden_bytes_show_nowhere() {
    let mut draw = Draw(14);
    let (mut differing, mut errors, mut ends) = (0, 0, 0);
    for turn in 0..3_000 {
        let opening = turn % 2 == 0;
        let limit = [LIMIT, LIMIT, 90][draw.below(3) as usize];
        let stop_at = (draw.below(3) == 0).then(|| Lsn(draw.below(64)));
        let s = Settings { max_message_size: limit, stop_at_lsn: stop_at, timing: draw.below(2) == 0, ..settings() };
        let (a, b) = draw_streams(&mut draw, opening, limit);
        let (mut left, mut right) = (Side::new(begun(&s, opening), a, 0x00, limit), Side::new(begun(&s, opening), b, 0xFF, limit));
        let mut moment = 1;
        for _ in 0..150 {
            let most = [usize::MAX >> 1, 5, 40][draw.below(3) as usize];
            let room = if draw.below(50) == 0 { STEP_OUTPUT - 1 } else { STEP_OUTPUT + 3 };
            let (at_once, input) = (draw.below(2) == 0, draw_input(&mut draw, &mut moment));
            let seen = left.call(at_once, &input, most, room);
            assert_eq!(seen, right.call(at_once, &input, most, room), "{input:?}");
            errors += seen.error.is_some() as u64;
            if draw.below(10) == 0 {
                let (file, position) = (draw.below(5), Lsn(draw.below(64)));
                let answers = [&mut left, &mut right].map(|side| side.run.report(file, position, Moment(moment)).is_err());
                assert_eq!(answers[0], answers[1]);
            }
        }
        differing += (left.hidden != right.hidden) as u64;
        ends += (left.run.state() == State::Ended) as u64;
    }
    // The pairs are no copies of each other, and the runs come to their ends and to the server's errors.
    assert!(differing > 1_500 && errors > 100 && ends > 500, "{differing} pairs differ, {errors} errors, {ends} ends");
}

/// What is not promised: each of these differences shows.
#[test]
fn public_bytes_show() {
    let other = |data: &[u8]| xlog_data(1, 2, 3, data);
    let pairs = [
        (other(&commit(5, 6, 7)), other(&commit(4, 6, 7))),
        (other(&logical(1, 5, b"p", 2, b"xy")), other(&logical(1, 5, b"p", 1, b"xy"))),
        (other(b"Idata"), other(b"Bdata")),
        (other(&logical(1, 5, b"p", 2, b"xy")), other(&logical(1, 5, b"q", 2, b"xy"))),
    ];
    for (a, b) in pairs {
        let s = settings();
        let (mut left, mut right) = (Side::new(begun(&s, false), a, 0, LIMIT), Side::new(begun(&s, false), b, 0, LIMIT));
        let mut moment = 1;
        let differs = (0..8).any(|_| {
            moment += 1;
            let input = Input { moment: Moment(moment), client_time_micros: 0, stop: false, queue: Queue::Free, ended: false };
            left.call(false, &input, 1000, STEP_OUTPUT) != right.call(false, &input, 1000, STEP_OUTPUT)
        });
        assert!(differs);
    }
}
