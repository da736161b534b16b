//! Records for the readers and writers of messages.

use crate::protocol::{boundary_of, copy_data_of, framed, Boundary, CopyData, Fields, Reader, Told};
use crate::shared::{display, hex, stream_files, sum, Draw};
use crate::{error_fields, error_text, Vectors};
use std::fmt::Write as _;

impl Vectors {
    /// A stream handed to a reader in pieces of a size, all of each before the next; refusal 6 goes on, another ends it.
    fn reads(&mut self, setting: u32, ended: bool, size: u16, bytes: &[u8], out_len: usize, fill: u8) {
        let input = [&setting.to_be_bytes()[..], &[ended as u8], &size.to_be_bytes(), bytes].concat();
        self.record(b'g', out_len, fill, &input);
        let mut buffer = vec![fill; out_len];
        let mut reader = Reader::new(setting as u64);
        let mut line = String::from("g");
        let mut stopped = false;
        let tell = |line: &mut String, told: Told| -> bool {
            match told {
                Told::More => true,
                Told::Whole(tag, n) => {
                    write!(line, " W {tag} {n}").unwrap();
                    true
                }
                Told::Refused(n) => {
                    write!(line, " R {n}").unwrap();
                    n == 6
                }
            }
        };
        'pieces: for piece in bytes.chunks(size as usize) {
            let mut rest = piece;
            while !rest.is_empty() {
                let (told, taken) = reader.read(rest, false, &mut buffer);
                rest = &rest[taken..];
                if !tell(&mut line, told) {
                    stopped = true;
                    break 'pieces;
                }
            }
        }
        if ended && !stopped {
            let (told, _) = reader.read(&[], true, &mut buffer);
            tell(&mut line, told);
        }
        writeln!(self.lines, "{line} {}", sum(&buffer)).unwrap();
    }

    fn copy_data(&mut self, payload: &[u8]) {
        self.record(b'c', 0, 0, payload);
        writeln!(self.lines, "c {}", copy_data_line(payload)).unwrap();
    }

    fn boundary(&mut self, bytes: &[u8]) {
        self.record(b'b', 0, 0, bytes);
        writeln!(self.lines, "b {}", boundary_line(bytes)).unwrap();
    }

    fn row(&mut self, payload: &[u8]) {
        self.record(b'r', 0, 0, payload);
        match row_of(payload) {
            None => writeln!(self.lines, "r 20").unwrap(),
            Some(columns) => writeln!(self.lines, "r 0 {}{}", columns.len(), spelled(&columns)).unwrap(),
        }
    }

    fn query(&mut self, bytes: &[u8]) {
        self.record(b'm', 0, 0, bytes);
        writeln!(self.lines, "m {}", query_of(bytes)).unwrap();
    }

    fn startup(&mut self, version: i32, texts: &[&[u8]]) {
        let mut input = version.to_be_bytes().to_vec();
        let mut body = version.to_be_bytes().to_vec();
        for t in texts {
            input.extend((t.len() as u16).to_be_bytes());
            input.extend(*t);
            body.extend(*t);
            body.push(0);
        }
        if texts.len() % 2 == 1 {
            body.push(0);
        }
        body.push(0);
        let message = [&(body.len() as u32 + 4).to_be_bytes()[..], &body].concat();
        self.writer_around(b's', &input, &message);
    }
}

// ---- CopyData and boundaries

fn copy_data_line(payload: &[u8]) -> String {
    match copy_data_of(payload) {
        Ok(CopyData::XLogData { start, end, time, data }) => format!("0 w {} {} {} {}", display(start), display(end), time, hex(data)),
        Ok(CopyData::KeepAlive { end, time, reply }) => format!("0 k {} {} {}", display(end), time, reply as u8),
        Err(n) => n.to_string(),
    }
}

fn boundary_line(bytes: &[u8]) -> String {
    match boundary_of(bytes) {
        Ok(Boundary::None) => "0 n".to_string(),
        Ok(Boundary::Begin { end, time, xid }) => format!("0 B {} {} {}", display(end), time, xid),
        Ok(Boundary::Commit { position, end, time }) => format!("0 C {} {} {}", display(position), display(end), time),
        Ok(Boundary::Message { flag, position, prefix, content }) => {
            format!("0 M {} {} {} {}", flag as u8, display(position), hex(prefix), hex(content))
        }
        Err(n) => n.to_string(),
    }
}

// ---- rows and queries

fn row_of(payload: &[u8]) -> Option<Vec<Option<Vec<u8>>>> {
    let mut f = Fields(payload);
    let count = f.number(2)? as u16 as i16;
    let mut columns = Vec::new();
    for _ in 0..count {
        let length = f.number(4)? as u32 as i32;
        columns.push(if length < 0 { None } else { Some(f.bytes(length as usize)?.to_vec()) });
    }
    Some(columns)
}

fn spelled(columns: &[Option<Vec<u8>>]) -> String {
    columns.iter().map(|c| c.as_ref().map_or(" n".to_string(), |v| format!(" {}", hex(v)))).collect()
}

fn query_of(bytes: &[u8]) -> String {
    let mut parts = Vec::new();
    let mut error: Option<Vec<u8>> = None;
    let mut reader = Reader::new(65_536);
    let mut buffer = vec![0; 65_536];
    let mut rest = bytes;
    loop {
        if rest.is_empty() {
            parts.push("-".to_string());
            break;
        }
        let (told, taken) = reader.read(rest, false, &mut buffer);
        rest = &rest[taken..];
        match told {
            Told::More => {}
            Told::Refused(n) => {
                parts.push(n.to_string());
                break;
            }
            Told::Whole(b'D', n) => match row_of(&buffer[..n]) {
                Some(columns) => parts.push(format!("D{}", spelled(&columns))),
                None => {
                    parts.push("20".to_string());
                    break;
                }
            },
            Told::Whole(b'E', n) => error = Some(buffer[..n].to_vec()),
            Told::Whole(b'Z', _) => {
                parts.push(match &error {
                    None => "Z ok".to_string(),
                    Some(e) => format!("Z error {}", hex(error_text(&error_fields(e)).as_bytes())),
                });
                break;
            }
            Told::Whole(_, _) => {}
        }
    }
    parts.join(" | ")
}

// ---- the records

fn numbers(draw: &mut Draw) -> Vec<u64> {
    let mut all = vec![0, 1, 0x100, 0x16B374D848, u64::MAX, 1 << 63, (1 << 63) - 1];
    for _ in 0..6 {
        all.push(draw.next());
    }
    all
}

fn damaged(draw: &mut Draw, good: &[u8]) -> Vec<u8> {
    let mut bytes = good.to_vec();
    if !bytes.is_empty() {
        let at = draw.below(bytes.len() as u64) as usize;
        bytes[at] = draw.next() as u8;
    }
    bytes
}

fn copy_datas(v: &mut Vectors, draw: &mut Draw) {
    for letter in 0..=255u8 {
        v.copy_data(&[letter]);
        v.copy_data(&[&[letter][..], &[1; 30]].concat());
    }
    v.copy_data(&[]);
    for n in 0..40usize {
        let body: Vec<u8> = (0..n).map(|i| (i * 37 + 5) as u8).collect();
        v.copy_data(&[&b"w"[..], &body].concat());
        v.copy_data(&[&b"k"[..], &body].concat());
    }
    for a in numbers(draw) {
        let b = draw.next();
        for reply in [0u8, 1, 2, 255] {
            v.copy_data(&[&b"k"[..], &a.to_be_bytes(), &b.to_be_bytes(), &[reply]].concat());
        }
        let w = [&b"w"[..], &a.to_be_bytes(), &a.to_be_bytes(), &b.to_be_bytes(), b"Ivalue"].concat();
        v.copy_data(&w);
        v.copy_data(&damaged(draw, &w));
    }
}

fn boundaries(v: &mut Vectors, draw: &mut Draw) {
    v.boundary(&[]);
    for letter in 0..=255u8 {
        v.boundary(&[letter]);
        v.boundary(&[&[letter][..], &[0; 40]].concat());
    }
    let message = |flags: u8, position: u64, prefix: &[u8], length: u32, content: &[u8]| {
        [&[b'M', flags][..], &position.to_be_bytes(), prefix, &[0], &length.to_be_bytes(), content].concat()
    };
    for a in numbers(draw) {
        let (b, c) = (draw.next(), draw.next());
        let begin = [&b"B"[..], &a.to_be_bytes(), &b.to_be_bytes(), &(c as u32).to_be_bytes()].concat();
        let commit = [&b"C\0"[..], &a.to_be_bytes(), &b.to_be_bytes(), &c.to_be_bytes()].concat();
        let text = message(c as u8, a, "Übersetzung".as_bytes(), 9, b"\0wording\0");
        for good in [begin, commit, text] {
            for n in 0..=good.len() {
                v.boundary(&good[..n]);
            }
            v.boundary(&[&good[..], b"surplus"].concat());
            for _ in 0..8 {
                v.boundary(&damaged(draw, &good));
            }
        }
    }
    for length in [0u32, 1, 4, 5, 6, 0x7FFF_FFFF, 0x8000_0000, 0xFFFF_FFFF] {
        v.boundary(&message(1, 0x10, b"", length, b"12345"));
        v.boundary(&message(254, 0x10, b"a", length, b""));
    }
    v.boundary(&[&b"M\x01"[..], &[0; 8], b"no zero byte"].concat());
    v.boundary(&message(1, 1, &[0xE2, 0x82], 0, b""));
}

/// The payload of a DataRow whose count and lengths say what they like.
fn row(count: u16, columns: &[(u32, &[u8])]) -> Vec<u8> {
    let columns = columns.iter().flat_map(|(length, value)| [&length.to_be_bytes()[..], value].concat());
    count.to_be_bytes().into_iter().chain(columns).collect()
}

const GOOD: &[(u32, &[u8])] = &[(5, b"hello"), (u32::MAX, b""), (0, b"")];

fn rows(v: &mut Vectors, draw: &mut Draw) {
    let good = row(3, GOOD);
    for n in 0..=good.len() {
        v.row(&good[..n]);
    }
    v.row(&[&good[..], b"surplus"].concat());
    for count in [0u16, 1, 2, 3, 4, 0x7FFF, 0x8000, 0xFFFF] {
        v.row(&row(count, &[(1, b"a"), (2, b"bc"), (0x8000_0000, b"")]));
    }
    for length in [0u32, 1, 2, 3, 0x7FFF_FFFF, 0x8000_0000, 0xFFFF_FFFE, 0xFFFF_FFFF] {
        v.row(&row(1, &[(length, b"ab")]));
    }
    for _ in 0..60 {
        v.row(&damaged(draw, &good));
    }
}

/// Answers to a query, cut at every byte.
fn queries(v: &mut Vectors) {
    let description = framed(b'T', &[0, 0]);
    let ready = framed(b'Z', b"I");
    let failure = framed(b'E', b"SERROR\0C42601\0Msyntax error\0\0");
    let other = framed(b'E', b"SERROR\0C57014\0Mcanceled\0\0");
    let complete = framed(b'C', b"SELECT 1\0");
    let one = framed(b'D', &row(3, GOOD));
    let two = framed(b'D', &row(1, &[(2, b"xy")]));
    let broken = framed(b'D', &row(2, &[(2, b"xy")]));
    let (empty_row, no_fields) = (framed(b'D', &[0, 0]), framed(b'E', b""));
    let short = [b'D', 0, 0, 0, 3];
    let large = [b'D', 0, 1, 0, 5];
    let negative = [b'D', 0xFF, 0xFF, 0xFF, 0xFF];
    let queries: [&[&[u8]]; 13] = [
        &[],
        &[&ready],
        &[&description, &one, &two, &complete, &ready],
        &[&description, &one, &failure, &ready],
        &[&failure, &other, &ready],
        &[&failure, &one, &ready],
        &[&one, &broken, &ready],
        &[&one, &two],
        &[&ready, &one],
        &[&one, &short, &ready],
        &[&large, &ready],
        &[&negative],
        &[&empty_row, &no_fields, &ready],
    ];
    for q in queries {
        let bytes = q.concat();
        for n in 0..=bytes.len() {
            v.query(&bytes[..n]);
        }
    }
    // every tag, before a row and the end, with a payload that is a row and an error's fields at once
    for tag in 0..=255u8 {
        v.query(&[&framed(tag, b"\0\x01\0\0\0\x04Mx\0\0"), &two[..], &ready].concat());
    }
    // an empty payload under each tag that plays a part
    for tag in *b"DEZ" {
        v.query(&[&framed(tag, b"")[..], &two, &ready].concat());
    }
}

fn writers(v: &mut Vectors, draw: &mut Draw) {
    for text in [&b""[..], b"SELECT 1", b"IDENTIFY_SYSTEM", &[0, 255, 39], &[b'x'; 300]] {
        v.writer_around(b'q', text, &framed(b'Q', &[text, &[0]].concat()));
        v.writer_around(b'y', text, &framed(b'd', text));
    }
    let long = vec![b'l'; 65_536];
    v.writer(b'y', 65_536, 9, &long, &framed(b'd', &long));
    v.writer_around(b'z', &[], &framed(b'c', &[]));
    v.writer_around(b'x', &[], &framed(b'X', &[]));
    for position in numbers(draw) {
        for reply in [0u8, 1] {
            let time = draw.next() as i64 >> draw.below(64);
            let (p, t) = (position.to_be_bytes(), time.to_be_bytes());
            let body = [&b"r"[..], &p, &p, &p, &t, &[reply]].concat();
            v.writer_around(b't', &[&p[..], &t, &[reply]].concat(), &framed(b'd', &body));
        }
    }
    let sets: [&[&[u8]]; 8] = [
        &[],
        &[b"user"],
        &[b"user", b"kiosk"],
        &[b"user", b"kiosk", b"replication"],
        &[b"user", b"kiosk", b"replication", b"database", b"database", b"captions"],
        &[b"", b""],
        &[b""],
        &["ä".as_bytes(), b"\xFF"],
    ];
    for texts in sets {
        for version in [196_608, 0, -1, i32::MIN] {
            v.startup(version, texts);
        }
    }
}

fn streams(v: &mut Vectors, draw: &mut Draw) {
    let mut mixed = Vec::new();
    for n in [0usize, 1, 4, 5, 30, 100, 9, 0, 10] {
        let payload: Vec<u8> = (0..n).map(|i| (i * 7 + n) as u8).collect();
        mixed.extend(framed(b'a' + (n % 26) as u8, &payload));
    }
    let bad = [&mixed[..20], &[b'x', 0, 0, 0, 3][..], &[b'y', 0xFF, 0xFF, 0xFF, 0xFF], &mixed[..]].concat();
    for size in [1u16, 2, 3, 4, 5, 6, 7, 16, 64, 65_535] {
        for ended in [false, true] {
            for setting in [0u32, 9, 10, 99, 100, 65_536, u32::MAX] {
                let room = if setting == u32::MAX { 65_536 } else { setting as usize };
                v.reads(setting, ended, size, &mixed, room, 0xA5);
                v.reads(setting, ended, size, &bad, room, 0x00);
            }
        }
    }
    for n in 0..=40usize {
        v.reads(100, true, 3, &mixed[..n], 100, 0xFF);
        v.reads(100, true, 65_535, &bad[..n], 120, 0xFF);
    }
    v.reads(100, true, 5, &mixed, 99, 0x01);
    // at a limit and one above it
    for limit in [10u32, 999, 1_000, 1_001, 4_096] {
        for n in [limit, limit + 1] {
            v.reads(limit, false, 4_096, &framed(b'd', &vec![7; n as usize]), limit as usize, 0);
        }
        // a buffer that is one short
        v.reads(limit, true, 4_096, &framed(b'd', &[7; 10]), limit as usize - 1, 0);
    }
    // settings above 2^30 count as 2^30, for which the buffer is short
    for setting in [65_537u32, 1 << 30, (1 << 30) + 1] {
        v.reads(setting, true, 7, &mixed, 65_536, 3);
    }
    for name in stream_files() {
        let bytes = std::fs::read(name).unwrap();
        let bytes = &bytes[..bytes.len().min(65_529)];
        let drawn = 1 + draw.below(60) as u16;
        for size in [1u16, drawn, 4096, 65_535] {
            // The longest stream leaves room for others: the program `test_streams` plays it, too.
            if size != drawn && bytes.len() > 60_000 {
                continue;
            }
            v.reads(65_536, true, size, bytes, 65_536, 0);
        }
    }
}

pub fn all(v: &mut Vectors, draw: &mut Draw) {
    copy_datas(v, draw);
    boundaries(v, draw);
    rows(v, draw);
    queries(v);
    writers(v, draw);
    streams(v, draw);
}
