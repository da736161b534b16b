//! Inputs of every length up to the largest: kind by kind and class by class in turn, so that each is met.

use super::inputs::{boundary, copy_data, lengthened, marred, text};
use super::lines::need;
use super::{room, texts};
use crate::classes::class_of;
use crate::draw::Draw;
use crate::scenario::LENT;
use crate::server::{framed, headed};

/// What is compared on a side: the kinds that it answers, and how long an input, an output and a name may be.
pub struct Bounds {
    pub kinds: &'static [u8],
    pub input: usize,
    pub room: usize,
    /// What a name counts for beside its own bytes.
    pub name: usize,
    /// Inputs just over the bytes that a call may be lent, too.
    pub over: bool,
}

/// The program `test_leaves`, whose records have so many bytes.
pub const PROGRAM: Bounds = Bounds { kinds: b"pdluUwefacbrqytzxosgm", input: 65_536, room: 65_536, name: 2, over: false };

/// The archive: its exported calls alone, but inputs of any length.
pub const ARCHIVE: Bounds = Bounds { kinds: b"pduUwefarqtzxsgm", input: LENT, room: usize::MAX, name: 0, over: true };

/// One input, and how long its output is.
pub struct Input {
    pub kind: u8,
    pub room: usize,
    pub bytes: Vec<u8>,
}

/// The i-th: its kind and the class of its length.
pub fn large(draw: &mut Draw, i: u64, bounds: &Bounds) -> Input {
    let kinds = bounds.kinds.len() as u64;
    let kind = bounds.kinds[(i % kinds) as usize];
    // After the classes an input around the largest.
    let classes = class_of(bounds.input as u64) as u64;
    let length = match i / kinds % (classes + 2) {
        class if class < classes => draw.of_class(class as usize, bounds.input as u64) as usize,
        _ if bounds.over => bounds.input - 3 + draw.size(7),
        _ => bounds.input - draw.size(8),
    };
    let mut bytes = of_length(draw, kind, length, bounds);
    if !bounds.over {
        bytes.truncate(bounds.input);
    }
    let room = room_of(draw, kind, &bytes, bounds);
    Input { kind, room, bytes }
}

/// The usual output, or one around what is needed, or a shorter one.
fn room_of(draw: &mut Draw, kind: u8, input: &[u8], bounds: &Bounds) -> usize {
    let usual = room(kind, input);
    let wished = match (kind, draw.below(6)) {
        (b'g', _) => usual,
        (_, 0 | 1) => need(kind, input).map_or(usual, |n| (n + 1).saturating_sub(draw.size(3))),
        (_, 2) => draw.length(usual),
        _ => usual,
    };
    wished.min(bounds.room)
}

/// An input of a kind, about as long as wished; of those kinds that have a form a well-formed one, sometimes marred.
fn of_length(draw: &mut Draw, kind: u8, n: usize, bounds: &Bounds) -> Vec<u8> {
    let whole = match kind {
        b'd' => return draw.upto(u64::MAX).to_be_bytes().to_vec(),
        b't' => return [&draw.upto(u64::MAX).to_be_bytes()[..], &draw.next().to_be_bytes(), &[draw.below(2) as u8]].concat(),
        b'z' | b'x' => return Vec::new(),
        b'p' => return digits(draw, n),
        b'l' | b'u' | b'U' | b'w' => return long_text(draw, n),
        b'q' => return plain_text(draw, n),
        b'y' => return draw.bytes(n),
        b'o' => return names(draw, n.saturating_sub(4 * bounds.name), 1, bounds.name),
        b's' => return [&196_608_u32.to_be_bytes()[..], &names(draw, n.saturating_sub(6 * bounds.name), 2, bounds.name)].concat(),
        b'g' => return reader(draw, n, bounds.room),
        b'e' | b'f' => error_payload(draw, n),
        b'a' => draw.bytes(n),
        b'c' => with_surplus(draw, n, |draw| copy_data(draw)[5..].to_vec()),
        b'b' => long_boundary(draw, n),
        b'r' => row(draw, n),
        _ => answers(draw, n),
    };
    if draw.once_in(4) {
        marred(draw, whole)
    } else {
        whole
    }
}

/// A text whose first slash may stand anywhere.
fn digits(draw: &mut Draw, n: usize) -> Vec<u8> {
    let zeros = draw.once_in(2);
    let mut all: Vec<u8> = (0..n).map(|_| if zeros { b'0' } else { draw.pick(b"0123456789abcdefABCDEF") }).collect();
    if n > 0 && !draw.once_in(8) {
        let place = if draw.once_in(2) { draw.size(n.min(10)) } else { draw.size(n) };
        all[place] = b'/';
    }
    all
}

/// A few characters and ill-formed parts again and again, and some bytes here and there.
fn long_text(draw: &mut Draw, n: usize) -> Vec<u8> {
    let mut part = text(draw, true);
    match draw.below(6) {
        0 => part = b"plain ".to_vec(),
        1 => part = "\u{17C}\u{F3}".as_bytes().to_vec(),
        2 => part = "\u{20AC}\u{D7FF}\u{E000}".as_bytes().to_vec(),
        3 => part = draw.bytes(97),
        _ => part.push(b'.'),
    }
    let mut all: Vec<u8> = part.iter().copied().cycle().take(n).collect();
    for _ in 0..draw.below(4).min(n as u64) {
        let place = draw.size(n);
        all[place] = draw.next() as u8;
    }
    all
}

/// Well-formed, of just the length.
fn plain_text(draw: &mut Draw, n: usize) -> Vec<u8> {
    let part = draw.pick(&["a", "it's ", "\u{17C}\u{F3}", "\u{20AC},", "\u{1F9C5}'", "\0"]);
    (part.repeat(n / part.len()) + &"x".repeat(n % part.len())).into_bytes()
}

/// Names together of a length, each of at most 65,535 bytes and `each` that count beside them, so many at a time.
fn names(draw: &mut Draw, n: usize, at_a_time: usize, each: usize) -> Vec<u8> {
    let share = draw.length(n).clamp(1, 65_535);
    let mut all = Vec::new();
    let mut left = n;
    while left > 0 {
        for _ in 0..at_a_time {
            let length = if draw.once_in(8) { 0 } else { share.min(left) };
            all.push(plain_text(draw, length));
            left -= (length + each).min(left);
        }
    }
    lengthened(all.iter().map(Vec::as_slice))
}

fn error_payload(draw: &mut Draw, n: usize) -> Vec<u8> {
    let share = draw.length(n).max(1);
    let mut payload = Vec::new();
    while payload.len() + 2 < n {
        payload.push(if draw.once_in(20) { draw.next() as u8 } else { draw.pick(b"SCMMMDHPWstcdnFLR") });
        let value = long_text(draw, share.min(n - payload.len() - 1));
        payload.extend(value.into_iter().filter(|b| *b != 0));
        payload.push(0);
    }
    payload.resize(n.max(payload.len()), 0);
    payload
}

fn with_surplus(draw: &mut Draw, n: usize, made: impl Fn(&mut Draw) -> Vec<u8>) -> Vec<u8> {
    let mut whole = made(draw);
    if n < whole.len() {
        whole.truncate(n);
    } else {
        let surplus = n - whole.len();
        whole.extend(draw.bytes(surplus));
    }
    whole
}

/// A Message with a prefix and a content of any lengths, or another one with surplus bytes.
fn long_boundary(draw: &mut Draw, n: usize) -> Vec<u8> {
    if n < 15 || draw.once_in(3) {
        return with_surplus(draw, n, boundary);
    }
    let prefix_length = draw.length(n - 15);
    let prefix: Vec<u8> = long_text(draw, prefix_length).into_iter().filter(|b| *b != 0).collect();
    let content = draw.bytes(n - 15 - prefix_length);
    let told = content.len() as i32;
    let told = if draw.once_in(8) { draw.pick(&[told + 1, told - 1, -1, i32::MAX]) } else { told };
    crate::server::message(draw.next() as u8, draw.next(), &prefix, told, &content)
}

/// As many columns as a table can have, or fewer.
const COLUMNS: usize = 1_664;

/// A row of a length; what the other columns leave is the last one's.
fn row(draw: &mut Draw, n: usize) -> Vec<u8> {
    if n < 2 {
        return draw.bytes(n);
    }
    let columns = draw.length(COLUMNS.min((n - 2) / 4));
    let share = (n - 2) / columns.max(1);
    let mut payload = (columns as u16).to_be_bytes().to_vec();
    for i in 1..=columns {
        let left = n - payload.len() - 4 * (columns + 1 - i);
        let length = match draw.below(4) {
            _ if i == columns => left as i32,
            0 => draw.pick(&[-1, i32::MIN, -2]),
            _ => draw.length(2 * share).min(left) as i32,
        };
        payload.extend_from_slice(&length.to_be_bytes());
        payload.extend(draw.bytes(length.max(0) as usize));
    }
    payload.resize(n, 0);
    payload
}

/// A limit, whether the input ends, the size of a piece, and messages with payloads around the limit and below.
fn reader(draw: &mut Draw, n: usize, most: usize) -> Vec<u8> {
    let limit = draw.length(n.max(8)).min(most);
    let mut all = [&(limit as u32).to_be_bytes()[..], &[draw.below(2) as u8], &(draw.upto(65_535).max(1) as u16).to_be_bytes()].concat();
    while all.len() < n {
        let length = if draw.once_in(20) { limit + draw.size(3) } else { draw.length(limit) };
        let payload = draw.bytes(length.min(n - all.len()));
        all.extend(match draw.below(30) {
            0 => headed(draw.next() as u8, draw.pick(&[3, -1, i32::MIN]), &payload),
            _ => headed(draw.next() as u8, length as i32 + 4, &payload),
        });
    }
    all
}

/// The answers to a query.
fn answers(draw: &mut Draw, n: usize) -> Vec<u8> {
    if n < 6 {
        return draw.bytes(n);
    }
    let mut server = Vec::new();
    while server.len() + 6 < n {
        let left = n - server.len() - 6;
        let length = draw.length(left);
        server.extend(match draw.below(6) {
            0 => framed(b'E', &error_payload(draw, length)),
            1 => framed(draw.pick(b"TCNSI"), &draw.bytes(length)),
            2 if draw.once_in(4) => {
                let cut = row(draw, length);
                framed(b'D', &marred(draw, cut))
            }
            _ => framed(b'D', &row(draw, length)),
        });
    }
    server.extend(framed(b'Z', b"I"));
    server
}

/// How many bytes the call is lent.
pub fn lent(kind: u8, input: &[u8]) -> usize {
    match kind {
        b'o' => texts(input).iter().map(|t| t.len()).sum(),
        b's' => texts(&input[4..]).iter().map(|t| t.len()).sum(),
        b'd' | b't' => 0,
        _ => input.len(),
    }
}
