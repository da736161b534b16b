//! What the program `test_edges` must print: the kinds of refusals, columns, errors in short buffers, and reads with a short buffer.

use crate::protocol::{Fields, Reader, Told};
use crate::shared::sum;

fn line(letter: char, numbers: [u64; 4]) -> String {
    format!("{letter} {} {} {} {}\n", numbers[0], numbers[1], numbers[2], numbers[3])
}

/// SCOPE 7.4: the kind of each refusal, by its name in the Rust's error.rs.
fn kinds() -> String {
    let kind = |n: u64| match n {
        6 | 10..=18 | 20 | 21 => "Protocol",
        7 => "MessageTooLarge",
        8 | 9 => "Io",
        19 => "Server",
        22..=24 => "ParseLsn",
        _ => "Usage",
    };
    let number = |kind| 1 + ["Usage", "Io", "Protocol", "Server", "MessageTooLarge", "ParseLsn"].iter().position(|k| *k == kind).unwrap() as u64;
    let asked = |kind| match kind {
        "Io" => 1 + 16,
        "Protocol" => 2,
        "Server" => 4,
        "MessageTooLarge" => 8,
        _ => 0,
    };
    (1..=25).map(|n| line('K', [n, number(kind(n)), asked(kind(n)), 0])).collect()
}

/// The column of a number: None where the row is malformed.
fn column(payload: &[u8], i: u64) -> Option<[u64; 4]> {
    let mut f = Fields(payload);
    let count = f.number(2)? as u16 as i16;
    let mut found = [0; 4];
    for k in 0..count.max(0) as u64 {
        let length = f.number(4)? as u32 as i32;
        let from = (payload.len() - f.0.len()) as u64;
        let one = if length < 0 { [0, 1, 0, 0] } else { [0, 2, from, f.bytes(length as usize)?.len() as u64] };
        if k == i {
            found = one;
        }
    }
    Some(found)
}

fn rows() -> String {
    let payloads: [&[u8]; 5] = [
        b"\x00\x02\xFF\xFF\xFF\xFF\x00\x00\x00\x02ab\xFF\xFF\xFF\xFF",
        b"\x80\x00\x00\x00\x00\x01a",
        b"\x00\x02\x00\x00\x00\x01a\x00\x00\x00",
        b"\x00\x02\x00\x00\x00\x01a\x00\x00\x00\x01",
        b"",
    ];
    let mut lines = String::new();
    for payload in payloads {
        for i in [0, 1, 2, 3, u64::MAX] {
            lines += &line('C', column(payload, i).unwrap_or([20, 0, 0, 0]));
        }
    }
    lines
}

/// Errors one after the other, then the query's end twice or once: as much of the last error as the buffer has room for stands at its front.
fn folds() -> String {
    let mut lines = String::new();
    for room in [0, 4, 12, 13, 14] {
        for (errors, ends) in [(&[&b"MABCDEF\0C42\0\0"[..], b"Mlast\0\0"][..], 2), (&[b"MABCDEF\0C42\0\0"], 1)] {
            let mut buffer = vec![7; room];
            let mut last = None;
            for error in errors {
                let kept = error.len().min(room);
                buffer[..kept].copy_from_slice(&error[..kept]);
                last = Some((kept as u64, error.len() as u64));
                lines += &line('E', [0, 0, 0, sum(&buffer) as u64]);
            }
            for _ in 0..ends {
                let (kind, kept, len) = last.take().map_or((2, 0, 0), |(kept, len)| (3, kept, len));
                lines += &line('E', [kind, kept, len, sum(&buffer) as u64]);
            }
        }
    }
    lines
}

fn reads() -> String {
    let message = b"d\x00\x00\x00\x08wxyz";
    let mut lines = String::new();
    for first in [0, 3, 5, 7] {
        let mut reader = Reader::new(10);
        let (mut short, mut payload) = ([7; 9], [7; 10]);
        let (rest, next) = (&message[first..], b"e\x00\x00\x00\x05f");
        for (bytes, is_short) in [(&message[..first], false), (rest, true), (rest, false), (&next[..], false)] {
            let buffer: &mut [u8] = if is_short { &mut short } else { &mut payload };
            let (told, taken) = reader.read(bytes, false, buffer);
            let (tag, number) = match told {
                Told::More => (0, 0),
                Told::Whole(tag, n) => (tag as u64, n as u64),
                Told::Refused(n) => (0, n as u64),
            };
            lines += &line('G', [tag, number, taken as u64, sum(buffer) as u64]);
        }
    }
    lines
}

pub fn lines() -> String {
    kinds() + &rows() + &folds() + &reads()
}
