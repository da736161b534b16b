//! A generated load, read a second time: numbers by the generator of all vectors, which is Marsaglia's xorshift with the
//! shifts 13, 7, 17; each message as a list of its fields in wire order, and the events of the messages from the
//! same draws. Then the records of kinds `n` and `k`.

use crate::shared::{display, hex, Draw};
use crate::Vectors;
use std::fmt::Write as _;

/// A payload after its letter: fields of 64 bits, and what follows them.
fn payload(letter: u8, fields: &[u64], rest: &[u8]) -> Vec<u8> {
    let mut all = vec![letter];
    fields.iter().for_each(|field| all.extend(field.to_be_bytes()));
    all.extend(rest);
    all
}

/// One message: its bytes and its event as in a script's line.
fn message(x: &mut Draw) -> (Vec<u8>, String) {
    let (body, event) = match x.next() % 4 {
        0 => {
            let (end, reply) = (x.next(), x.next() & 1);
            (payload(b'k', &[end, 0], &[reply as u8]), format!("K {} 0 {reply}", display(end)))
        }
        kind => {
            let (start, end) = (x.next(), x.next());
            let (data, event) = data(kind, start, end, x);
            (payload(b'w', &[start, end, 0], &data), event)
        }
    };
    let mut all = vec![b'd'];
    all.extend((body.len() as u32 + 4).to_be_bytes());
    all.extend(body);
    (all, event)
}

/// The data of an XLogData and its event.
fn data(kind: u64, start: u64, end: u64, x: &mut Draw) -> (Vec<u8>, String) {
    match kind {
        1 => {
            let (last, xid) = (x.next(), x.next() as u32);
            (payload(b'B', &[last, 0], &xid.to_be_bytes()), format!("B {} 0 {xid}", display(last)))
        }
        2 => {
            let letters = x.next() % 64;
            let data = payload(b'I', &[], &vec![b'A'; letters as usize]);
            let event = format!("X {} {} 0 {}", display(start), display(end), hex(&data));
            (data, event)
        }
        _ => {
            let (lsn, last) = (x.next(), x.next());
            let mut data = vec![b'C', 0];
            data.extend(payload(0, &[lsn, last, 0], &[]).split_off(1));
            (data, format!("C {} {} 0", display(lsn), display(last)))
        }
    }
}

/// The bytes of so many messages from a seed.
pub fn stream(seed: u64, messages: u64) -> Vec<u8> {
    let mut x = Draw(seed);
    (0..messages).flat_map(|_| message(&mut x).0).collect()
}

/// Their events.
fn events(seed: u64, messages: u16) -> Vec<String> {
    let mut x = Draw(seed);
    (0..messages).map(|_| message(&mut x).1).collect()
}

impl Vectors {
    fn generated(&mut self, seed: u64, messages: u64, out_len: usize, fill: u8) {
        let mut input = seed.to_be_bytes().to_vec();
        input.extend(messages.to_be_bytes());
        if seed == 0 {
            self.record(b'n', out_len, fill, &input);
            writeln!(self.lines, "n 35 0 {} -", crate::shared::sum(&vec![fill; out_len])).unwrap();
            return;
        }
        // one message has at most 94 bytes, so that much more is too long whatever it says
        let text = if messages > 5000 { vec![0; out_len + 1] } else { stream(seed, messages) };
        self.writer(b'n', out_len, fill, &input, &text);
    }

    fn listed(&mut self, seed: u64, messages: u16) {
        let mut input = seed.to_be_bytes().to_vec();
        input.extend(messages.to_be_bytes());
        self.record(b'k', 0, 0, &input);
        if seed == 0 {
            writeln!(self.lines, "k 35").unwrap();
            return;
        }
        let line: String = events(seed, messages).iter().map(|event| format!(" | {event}")).collect();
        writeln!(self.lines, "k 0{line}").unwrap();
    }
}

/// The two messages that document 02's reading gives in full, by hand.
fn known() {
    let begin = "640000003277100041060c0114419b1e842f6e862629000000000000000042f554f503555d8025000000000000000090599265";
    assert_eq!(hex(&stream(1, 1)), begin);
    assert!(stream(2, 1).ends_with(b"IAA"));
    assert_eq!(Draw(1).next(), 1_082_269_761);
}

pub fn all(v: &mut Vectors, draw: &mut Draw) {
    known();
    for seed in [1, 2, 3, u64::MAX, 1 << 63, 0x9E37_79B9_7F4A_7C15] {
        for messages in [0, 1, 2, 7] {
            let len = stream(seed, messages).len();
            for (out_len, fill) in [(len, 0), (len + 1, 0xAA), (len.saturating_sub(1), 7)] {
                v.generated(seed, messages, out_len, fill);
            }
        }
        v.listed(seed, 0);
        v.listed(seed, 20);
    }
    // 35 comes before 4, also for no messages; 4 comes for every number of messages
    for (messages, out_len) in [(0, 0), (0, 3), (1, 0), (u64::MAX, 9)] {
        v.generated(0, messages, out_len, 0x5A);
        v.generated(5, messages, out_len, 0x5A);
    }
    v.generated(5, u64::MAX, 4096, 1);
    v.listed(0, 0);
    v.listed(0, 3);
    v.listed(4, 150);
    for _ in 0..60 {
        let (seed, messages) = (draw.next() | 1, draw.below(5));
        v.generated(seed, messages, stream(seed, messages).len(), 0);
        v.listed(draw.next() | 1, draw.below(4) as u16);
    }
}
