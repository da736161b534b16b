//! Inputs for the leaves: short ones, all of them over small alphabets, and random ones.

use crate::draw::Draw;
use crate::server::{begin, commit, data, framed, headed, keepalive, message};

/// Every string over an alphabet up to a length.
fn every(alphabet: &[u8], most: usize, see: &mut dyn FnMut(&[u8])) {
    let mut text = Vec::new();
    let mut digits: Vec<usize> = Vec::new();
    for length in 0..=most {
        digits.clear();
        digits.resize(length, 0);
        loop {
            text.clear();
            text.extend(digits.iter().map(|d| alphabet[*d]));
            see(&text);
            let Some(place) = digits.iter().rposition(|d| d + 1 < alphabet.len()) else { break };
            digits[place] += 1;
            digits[place + 1..].fill(0);
        }
    }
}

/// Bytes at the ends of the ranges of well-formed UTF-8.
const EDGES: &[u8] = &[
    0x00, 0x41, 0x7F, 0x80, 0x8F, 0x90, 0x9F, 0xA0, 0xBF, 0xC0, 0xC1, 0xC2, 0xDF, 0xE0, 0xE1, 0xEC, 0xED, 0xEE, 0xEF, 0xF0, 0xF1, 0xF3, 0xF4, 0xF5,
    0xFF,
];

/// What sees an input of a kind.
type See<'a> = &'a mut dyn FnMut(u8, &[u8]);

/// Short inputs, all of them over small alphabets.
pub fn short(see: See) {
    short_texts(see);
    short_messages(see);
    short_streams(see);
    let names: [&[u8]; 5] = [b"", b"a", b"'", b"a,b", b"it''s"];
    every(&[0, 1, 2, 3, 4], 4, &mut |chosen| see(b'o', &lengthened(chosen.iter().map(|i| names[*i as usize]))));
    for digits in 0..64 {
        for p in [0, 1, 1u64 << digits, (1 << digits) - 1, u64::MAX >> digits] {
            see(b'd', &p.to_be_bytes());
        }
    }
    see(b'z', &[]);
    see(b'x', &[]);
}

/// Position texts, lossy text, error fields, authentication requests.
fn short_texts(see: See) {
    every(b"/+-01aFg", 7, &mut |text| see(b'p', text));
    let all: Vec<u8> = (0..=255).collect();
    for kind in *b"luUw" {
        every(&all, 2, &mut |text| see(kind, text));
        every(EDGES, 4, &mut |text| see(kind, text));
    }
    for kind in *b"ef" {
        every(b"SCMVx\0\xE2", 6, &mut |payload| see(kind, payload));
        for letter in 0..=255 {
            see(kind, &[letter, b'v', 0, 0]);
        }
    }
    every(&all, 1, &mut |payload| see(b'a', payload));
    every(b"\0\x01\x80\xFF", 6, &mut |payload| see(b'a', payload));
}

/// CopyData, boundaries, rows.
fn short_messages(see: See) {
    for first in 0..=255 {
        for length in 0..40 {
            let text: Vec<u8> = (0..length).map(|i| if i == 0 { first } else { 0x80 ^ (i * 37) as u8 }).collect();
            see(b'c', &text);
            see(b'b', &text);
        }
    }
    let mut whole = Vec::new();
    every(b"\0\x01\x02a\xFF\xE2", 7, &mut |tail| {
        whole.clear();
        whole.extend_from_slice(b"M\x01\0\0\0\0\0\0\0\x10");
        whole.extend_from_slice(tail);
        see(b'b', &whole);
    });
    every(b"\0\x01\x02\xFF", 9, &mut |payload| see(b'r', payload));
}

/// A reader's bytes, and the answers to a query.
fn short_streams(see: See) {
    let mut which = 0usize;
    every(b"d\0\x03\x04\x05\xFF", 7, &mut |server| {
        which += 1;
        let limit = [0u32, 1, 10, 65_536][which % 4];
        let head = [&limit.to_be_bytes()[..], &[(which / 4 % 2) as u8], &(1 + (which / 8 % 7) as u16).to_be_bytes()].concat();
        see(b'g', &[&head, server].concat());
    });
    let answers: [Vec<u8>; 7] = [
        framed(b'D', &[0, 1, 0, 0, 0, 1, b'v']),
        framed(b'D', &[0, 1, 0xFF, 0xFF, 0xFF, 0xFF]),
        framed(b'D', &[0, 1, 0, 0]),
        framed(b'E', b"Mfirst\0\0"),
        framed(b'E', b"CXX000\0\0"),
        framed(b'Z', b"I"),
        framed(b'T', b""),
    ];
    every(&[0, 1, 2, 3, 4, 5, 6], 5, &mut |chosen| see(b'm', &chosen.iter().flat_map(|i| answers[*i as usize].clone()).collect::<Vec<u8>>()));
}

pub(super) fn lengthened<'a>(texts: impl Iterator<Item = &'a [u8]>) -> Vec<u8> {
    texts.flat_map(|t| [&(t.len() as u16).to_be_bytes()[..], t].concat()).collect()
}

/// Now and then with many characters of at most one, two or three bytes between the others.
fn lossy_text(draw: &mut Draw) -> Vec<u8> {
    let mut all = text(draw, true);
    if draw.once_in(3) {
        let bound = draw.pick(&[0x80, 0x800, 0xD800]);
        for _ in 0..draw.below(80) {
            let c = char::from_u32(draw.below(bound) as u32).unwrap();
            all.extend_from_slice(c.encode_utf8(&mut [0; 4]).as_bytes());
        }
        all.extend(text(draw, true));
    }
    all
}

/// Characters of every length, and with `ill` parts that are none.
pub(super) fn text(draw: &mut Draw, ill: bool) -> Vec<u8> {
    let mut text = Vec::new();
    for _ in 0..draw.below(12) {
        match draw.below(if ill { 9 } else { 6 }) {
            0..=2 => text.push(b' ' + draw.below(95) as u8),
            3 => text.push(draw.pick(b"'/+-,0aF\x01\x7F")),
            4 | 5 => {
                let bits = draw.pick(&[7, 11, 16, 21]);
                let c = char::from_u32(1 + draw.below((1 << bits) - 1) as u32).unwrap_or('\u{D7FF}');
                text.extend_from_slice(c.encode_utf8(&mut [0; 4]).as_bytes());
            }
            6 => text.push(draw.pick(EDGES)),
            7 => text.extend(draw.bytes(2)),
            _ => {
                text.pop();
            }
        }
    }
    text
}

fn position_text(draw: &mut Draw) -> Vec<u8> {
    let part = |draw: &mut Draw| {
        let mut part = Vec::new();
        if draw.once_in(8) {
            part.push(draw.pick(b"+-"));
        }
        part.extend(vec![b'0'; if draw.once_in(6) { draw.size(30) } else { 0 }]);
        // the lengths around 8 digits, around the 16 of 64 bits, and others
        let digits = if draw.once_in(8) {
            15 + draw.size(4)
        } else if draw.once_in(4) {
            7 + draw.size(3)
        } else {
            draw.size(10)
        };
        part.extend((0..digits).map(|_| draw.pick(b"0123456789abcdefABCDEFF")));
        part
    };
    let mut text = part(draw);
    if !draw.once_in(20) {
        text.push(b'/');
    }
    text.extend(part(draw));
    if draw.once_in(10) {
        let place = draw.size(text.len() + 1);
        text.insert(place, draw.pick(b"/ gG+-_x:@`\0"));
    }
    text
}

pub(super) fn marred(draw: &mut Draw, mut bytes: Vec<u8>) -> Vec<u8> {
    if draw.once_in(2) {
        bytes.truncate(draw.size(bytes.len() + 1));
    }
    if draw.once_in(3) && !bytes.is_empty() {
        let place = draw.size(bytes.len());
        bytes[place] = draw.next() as u8;
    }
    if draw.once_in(4) {
        let n = draw.size(5);
        bytes.extend(draw.bytes(n));
    }
    bytes
}

/// What is made, marred.
fn marred_by(draw: &mut Draw, made: impl Fn(&mut Draw) -> Vec<u8>) -> Vec<u8> {
    let whole = made(draw);
    marred(draw, whole)
}

fn some(draw: &mut Draw) -> Vec<u8> {
    let n = draw.size(9);
    draw.bytes(n)
}

fn row(draw: &mut Draw) -> Vec<u8> {
    let columns = draw.size(4);
    let mut payload = (columns as u16).to_be_bytes().to_vec();
    for _ in 0..columns {
        let value = some(draw);
        let length = if draw.once_in(4) { draw.pick(&[-1, i32::MIN, -2]) } else { value.len() as i32 };
        payload.extend_from_slice(&length.to_be_bytes());
        if length >= 0 {
            payload.extend(value);
        }
    }
    payload
}

pub(super) fn boundary(draw: &mut Draw) -> Vec<u8> {
    let (a, b, time) = (draw.next(), draw.next(), draw.next() as i64);
    match draw.below(4) {
        0 => begin(a, time, b as u32),
        1 => commit(b as u8, a, b, time),
        2 => {
            let (prefix, content) = (text(draw, true), some(draw));
            let n = content.len() as i32;
            message(b as u8, a, &prefix, draw.pick(&[n, n, n, n - 1, n + 1, -1]), &content)
        }
        _ => some(draw),
    }
}

pub(super) fn copy_data(draw: &mut Draw) -> Vec<u8> {
    let (a, b, time) = (draw.next(), draw.next(), draw.next() as i64);
    if draw.once_in(2) {
        keepalive(a, time, draw.pick(&[0, 1, 255]))
    } else {
        data(a, b, time, &boundary(draw))
    }
}

fn error_payload(draw: &mut Draw) -> Vec<u8> {
    let mut payload = Vec::new();
    for _ in 0..draw.below(6) {
        payload.push(if draw.once_in(5) { draw.next() as u8 } else { draw.pick(b"SCMDHPWstcdnFLR") });
        payload.extend(text(draw, true));
        payload.push(0);
    }
    payload.push(0);
    marred(draw, payload)
}

fn stream(draw: &mut Draw) -> Vec<u8> {
    let mut server = Vec::new();
    for _ in 0..draw.below(6) {
        let payload = some(draw);
        let n = payload.len() as i32 + 4;
        server.extend(match draw.below(10) {
            0 => headed(draw.next() as u8, draw.pick(&[n - 4, 3, -1, i32::MIN, i32::MAX, n + 8]), &payload),
            _ => framed(draw.next() as u8, &payload),
        });
    }
    marred(draw, server)
}

fn names(draw: &mut Draw, count: u64) -> Vec<u8> {
    let names: Vec<Vec<u8>> = (0..count).map(|_| text(draw, false)).collect();
    lengthened(names.iter().map(|n| n.as_slice()))
}

/// The answers to a query.
fn answers(draw: &mut Draw) -> Vec<u8> {
    let mut server = Vec::new();
    for _ in 0..draw.below(7) {
        server.extend(match draw.below(6) {
            0 => framed(b'E', &error_payload(draw)),
            1 => framed(draw.pick(b"TCNSI"), &some(draw)),
            2 => framed(b'Z', b"I"),
            3 => framed(b'D', &marred_by(draw, row)),
            _ => framed(b'D', &row(draw)),
        });
    }
    if draw.once_in(6) {
        server = marred(draw, server);
    }
    server
}

/// One random input.
pub fn random(draw: &mut Draw) -> (u8, Vec<u8>) {
    let kind = draw.pick(b"pppplllluuuuUUUUwwwweeffaccccbbbbbbrrrrqytosggggmmdd");
    let input = match kind {
        b'p' if draw.once_in(10) => text(draw, false),
        b'p' => position_text(draw),
        b'd' => (draw.next() >> draw.below(64)).to_be_bytes().to_vec(),
        b'l' | b'u' | b'U' | b'w' => lossy_text(draw),
        b'e' | b'f' => error_payload(draw),
        b'a' | b'y' => some(draw),
        b'c' => marred_by(draw, |draw| copy_data(draw)[5..].to_vec()),
        b'b' => marred_by(draw, boundary),
        b'r' => marred_by(draw, row),
        b'q' => text(draw, false),
        b't' => [&draw.next().to_be_bytes()[..], &draw.next().to_be_bytes(), &[draw.below(2) as u8]].concat(),
        b'o' => {
            let count = draw.below(4);
            names(draw, count)
        }
        b's' => {
            let count = 2 * draw.below(3);
            let names = names(draw, count);
            [(draw.next() as u32).to_be_bytes().to_vec(), names].concat()
        }
        b'g' => {
            let limit = draw.pick(&[0u32, 3, 8, 8, 65_536]);
            let head = [&limit.to_be_bytes()[..], &[draw.below(2) as u8], &(1 + draw.below(30) as u16).to_be_bytes()].concat();
            [head, stream(draw)].concat()
        }
        b'm' => answers(draw),
        _ => unreachable!("a kind that was picked"),
    };
    (kind, input)
}
