//! Scenarios from a seed, inside the domain of the comparison (SCOPE 10).

use crate::draw::Draw;
use crate::scenario::{Happening, Round, Scenario, FILES, LAST_MOMENT, LENT, LONGEST_INTERVAL, LONGEST_PIECE};
use crate::server::{accepted, begin, commit, data, framed, headed, keepalive, message};

const POSITIONS: &[u64] = &[0, 1, 0x10, 0xFE, 0xFF, 0x100, 0x101, 0x200, 0xFFFF_FFFF, 0x1_0000_0000, 0x16_B374_D848, u64::MAX - 1, u64::MAX];

/// Positions near the usual stop position, and now and then any.
fn position(draw: &mut Draw) -> u64 {
    if draw.once_in(6) {
        draw.upto(u64::MAX)
    } else {
        draw.pick(POSITIONS)
    }
}

fn time(draw: &mut Draw) -> i64 {
    draw.next() as i64 >> draw.below(64)
}

/// How much room a payload has for its parts: none is named in most scenarios, in which they are short.
#[derive(Clone, Copy)]
struct Room(Option<usize>);

const SHORT: Room = Room(None);

impl Room {
    fn less(self, n: usize) -> Room {
        Room(self.0.map(|room| room.saturating_sub(n)))
    }
}

fn some_bytes(draw: &mut Draw, room: Room) -> Vec<u8> {
    let n = match (room.0, draw.below(20)) {
        (Some(most), _) => draw.length(most),
        (None, 0) => draw.size(300),
        (None, 1..=4) => 0,
        _ => draw.size(12),
    };
    draw.bytes(n)
}

/// Well-formed, ill-formed and cut text.
fn text(draw: &mut Draw, room: Room) -> Vec<u8> {
    let parts: [&[u8]; 12] = [
        b"",
        b"a",
        b"app",
        "\u{17C}\u{F3}\u{142}w".as_bytes(),
        "\u{1F9C5}".as_bytes(),
        &[0xE2, 0x82],
        &[0xED, 0xA0, 0x80],
        &[0xF0, 0x80, 0x80, 0x80],
        &[0xF4, 0x90],
        &[0xC0, 0x80],
        &[0xFF],
        &[0x80, 0x41],
    ];
    let few: Vec<u8> = (0..draw.below(4)).flat_map(|_| draw.pick(&parts).to_vec()).collect();
    match room.0 {
        None => few,
        // The same again and again, cut anywhere.
        Some(most) => {
            let all = [&few[..], draw.pick(&parts[1..])].concat();
            all.iter().copied().cycle().take(draw.length(most)).collect()
        }
    }
}

/// The data of a `w`: a boundary or other data.
fn body(draw: &mut Draw, room: Room) -> Vec<u8> {
    let (a, b, at) = (position(draw), position(draw), time(draw));
    match draw.below(8) {
        0 | 1 => begin(a, at, draw.next() as u32),
        2 | 3 => commit(draw.pick(&[0, 0, 1, 255]), a, b, at),
        4 => {
            let prefix = text(draw, room.less(15));
            let content = some_bytes(draw, room.less(15 + prefix.len()));
            message(draw.pick(&[0, 1, 2, 3, 254, 255]), a, &prefix, content.len() as i32, &content)
        }
        5 => Vec::new(),
        _ => [vec![draw.pick(b"IUDRTYOSEcb\0\xFF")], some_bytes(draw, room.less(1))].concat(),
    }
}

fn error(draw: &mut Draw, room: Room) -> Vec<u8> {
    if draw.once_in(12) {
        // The shortest texts.
        return framed(b'E', draw.pick(&[b"M\0\0", b"Mx\0", b"M\xFF\0"]));
    }
    let mut payload = Vec::new();
    let letters: &[u8] = if room.0.is_none() { b"SCCMMDHPVWstcdnFLRpqX" } else { b"MMMMCCCSDR" };
    for _ in 0..draw.below(5) {
        payload.push(draw.pick(letters));
        payload.extend(text(draw, room.less(payload.len() + 6)));
        payload.push(0);
    }
    match draw.below(4) {
        0 => payload.extend_from_slice(b"Mcut"),
        1 => {}
        _ => payload.push(0),
    }
    framed(b'E', &payload)
}

fn skipped(draw: &mut Draw, room: Room) -> Vec<u8> {
    let payload = if draw.once_in(2) { Vec::new() } else { some_bytes(draw, room) };
    framed(draw.pick(b"NSKCZDTHGWRA1\0\xFF"), &payload)
}

/// The server's CopyDone, now and then with a payload.
fn copy_done(draw: &mut Draw, room: Room) -> Vec<u8> {
    let payload = if draw.once_in(2) { Vec::new() } else { some_bytes(draw, room) };
    framed(b'c', &payload)
}

fn good(draw: &mut Draw, room: Room) -> Vec<u8> {
    let surplus = draw.once_in(6);
    match draw.below(10) {
        0..=2 => {
            let mut k = keepalive(position(draw), time(draw), draw.pick(&[0, 0, 0, 1, 1, 2, 255]));
            if surplus {
                k = framed(b'd', &[&k[5..], &some_bytes(draw, room.less(18))].concat());
            }
            k
        }
        3 => skipped(draw, room),
        _ => {
            let mut body = body(draw, room.less(25));
            if surplus {
                body.extend(some_bytes(draw, room.less(25 + body.len())));
            }
            data(position(draw), position(draw), time(draw), &body)
        }
    }
}

/// Longer than the limit by anything from one byte on, up to the longest that a header can tell.
fn too_long(draw: &mut Draw, limit: u64) -> Vec<u8> {
    let most = 0x7FFF_FFFB;
    let n = (limit + 1).max(draw.pick(&[limit + 1, limit + 2, 0x4000_0001, most]));
    let n = if draw.once_in(3) { limit + 1 + draw.upto(most - limit - 1) } else { n };
    let rest = some_bytes(draw, SHORT);
    headed(draw.pick(b"dNE"), n as i32 + 4, &rest)
}

/// A message that gives the refusal, after `W`.
fn refused(draw: &mut Draw, number: u8, limit: u64, room: Room) -> Vec<u8> {
    let (a, b, at) = (position(draw), position(draw), time(draw));
    match number {
        6 => headed(draw.pick(b"dNE\0"), draw.pick(&[3, 0, -1, 1, 2, i32::MIN]), &[]),
        7 => too_long(draw, limit),
        10 => framed(b'd', &[]),
        11 => framed(b'd', &cut(draw, data(a, b, at, &[])[5..].to_vec(), 1, 24)),
        12 => framed(b'd', &cut(draw, keepalive(a, at, 1)[5..].to_vec(), 1, 17)),
        13 => {
            let kind = draw.pick(&[0, b'r', b'K', b'W', b'v', b'x', 0xFF]);
            framed(b'd', &[vec![kind], some_bytes(draw, room.less(1))].concat())
        }
        14..=18 => {
            let inside = no_boundary(draw, number, room.less(25));
            data(a, b, at, &inside)
        }
        _ => error(draw, room),
    }
}

/// Cut anywhere from a least length to a most.
fn cut(draw: &mut Draw, whole: Vec<u8>, least: usize, most: usize) -> Vec<u8> {
    whole[..least + draw.size(most - least + 1)].to_vec()
}

/// Data that give the refusal of a boundary, 14 to 18.
fn no_boundary(draw: &mut Draw, number: u8, room: Room) -> Vec<u8> {
    let (a, b, at) = (position(draw), position(draw), time(draw));
    match number {
        14 => vec![draw.pick(b"CM")],
        15 if draw.once_in(2) => cut(draw, begin(a, at, 1), 17, 20),
        15 => {
            let prefix = text(draw, room.less(15));
            let n = 11 + prefix.len();
            cut(draw, message(1, a, &prefix, 0, &[]), n, n + 3)
        }
        16 if draw.once_in(2) => cut(draw, begin(a, at, 1), 1, 16),
        16 if draw.once_in(2) => cut(draw, message(1, a, &[], 0, &[]), 2, 9),
        16 => cut(draw, commit(0, a, b, at), 2, 25),
        17 => {
            let whole = message(1, a, &text(draw, room.less(10)), 0, &[]);
            let n = whole.len() - 5;
            cut(draw, whole, 10, n)
        }
        _ => {
            let content = some_bytes(draw, room.less(15));
            let n = content.len() as i32;
            let prefix = text(draw, room.less(15 + content.len()));
            message(0, a, &prefix, draw.pick(&[n + 1, -1, i32::MIN, i32::MAX, n + 200]), &content)
        }
    }
}

fn damaged(draw: &mut Draw, mut bytes: Vec<u8>) -> Vec<u8> {
    for _ in 0..1 + draw.below(2) {
        let place = draw.size(bytes.len());
        match draw.below(3) {
            0 => bytes[place] = draw.next() as u8,
            1 => bytes[place] ^= 1 << draw.below(8),
            _ => {
                bytes.remove(place);
            }
        }
        if bytes.is_empty() {
            break;
        }
    }
    bytes
}

/// What the server says after `W`.
fn messages(draw: &mut Draw, limit: u64, room: Room) -> Vec<Vec<u8>> {
    let mut all: Vec<Vec<u8>> = Vec::new();
    match draw.below(50) {
        // More messages in one piece than one drain takes, now and then as many as a piece has room for.
        0 => {
            let quiet = draw.once_in(2);
            let n = 250 + if draw.once_in(2) { draw.length(26_000) } else { draw.size(300) };
            let loud = 1 + draw.below(60);
            all.extend((0..n).map(|_| if quiet || !draw.once_in(loud) { framed(b'N', &[]) } else { good(draw, SHORT) }));
        }
        // As long as the limit allows.
        1 if limit >= 25 => {
            let less = draw.size(2).min(limit as usize - 25);
            let whole = draw.bytes(limit as usize - 25 - less);
            all.push(data(position(draw), position(draw), time(draw), &whole));
            (0..draw.below(3)).for_each(|_| all.push(good(draw, room)));
        }
        2 => {}
        _ => (0..1 + draw.below(9)).for_each(|_| all.push(good(draw, room))),
    }
    marred(draw, all, limit, room)
}

/// Now and then with a message that is refused among them, a CopyDone, or a message that is damaged.
fn marred(draw: &mut Draw, mut all: Vec<Vec<u8>>, limit: u64, room: Room) -> Vec<Vec<u8>> {
    if draw.once_in(3) {
        // An error of the server is the only one of them whose bytes are handed on.
        let often = room.0.is_some() && draw.once_in(2);
        let number = if often { 19 } else { draw.pick(&[6, 7, 10, 11, 12, 13, 14, 15, 16, 17, 18, 19]) };
        let bad = refused(draw, number, limit, room);
        let place = draw.size(all.len() + 1);
        all.insert(place, bad);
    }
    if draw.once_in(3) {
        let done = copy_done(draw, room);
        let place = draw.size(all.len() + 1);
        all.insert(place, done);
    }
    if draw.once_in(10) && !all.is_empty() {
        let place = draw.size(all.len());
        all[place] = damaged(draw, all[place].clone());
    }
    all
}

/// What the server says before `W`, and `W` or what stands in its place.
fn opening(draw: &mut Draw, limit: u64, room: Room) -> Vec<Vec<u8>> {
    let within = |m: &Vec<u8>| m.len() as u64 <= limit + 5;
    let before = |draw: &mut Draw| if draw.once_in(3) { copy_done(draw, room) } else { skipped(draw, room) };
    let mut all: Vec<Vec<u8>> = (0..draw.below(4)).map(|_| before(draw)).filter(|m| m[0] != b'W' && within(m)).collect();
    let last = match draw.below(16) {
        0 => error(draw, room),
        1 => headed(draw.pick(b"WNE"), draw.pick(&[3, 0, -1, i32::MIN]), &[]),
        2 => headed(draw.pick(b"WNE"), draw.pick(&[0x4000_0005, i32::MAX]), &[]),
        3 => framed(b'N', &vec![0; limit.min(200) as usize]),
        4 => framed(b'W', &[]),
        5 => framed(b'W', &some_bytes(draw, room)),
        _ => accepted(),
    };
    all.push(if within(&last) { last } else { framed(b'W', &[]) });
    all
}

/// Cuts the server's bytes into pieces.
fn pieces(draw: &mut Draw, all: &[Vec<u8>]) -> Vec<Vec<u8>> {
    let whole = all.concat();
    let mut cuts = Vec::new();
    // Of more messages than rounds could hand over one by one, most cuts lie between pieces.
    let way = if all.len() > 1_000 { draw.pick(&[0, 0, 4, 6]) } else { draw.below(7) };
    match way {
        0 => {}
        // Between messages.
        1 => cuts.extend(ends(all)),
        // Inside headers, and just after them.
        2 => cuts.extend(ends(all).into_iter().map(|end| end + draw.size(6))),
        // One byte after the other, for a stretch.
        3 if !whole.is_empty() => {
            let from = draw.size(whole.len());
            cuts.extend(from..from + 40);
        }
        4 => cuts.extend((0..draw.size(3)).map(|_| draw.size(whole.len() + 1))),
        5 => {
            for end in ends(all) {
                cuts.extend(draw.once_in(2).then(|| end + draw.size(9) - 4));
            }
        }
        _ => {
            let size = if draw.once_in(2) { 1 + draw.size(60) } else { 1 + draw.length(whole.len()) };
            cuts.extend((1..=whole.len() / size.max(whole.len() / 60)).map(|i| i * size));
        }
    }
    cut_at(&whole, cuts)
}

/// The pieces between cuts, none longer than the longest.
fn cut_at(whole: &[u8], mut cuts: Vec<usize>) -> Vec<Vec<u8>> {
    cuts.retain(|cut| *cut < whole.len());
    cuts.sort();
    cuts.push(whole.len());
    let mut done = Vec::new();
    let mut from = 0;
    for cut in cuts {
        while from < cut {
            let to = cut.min(from + LONGEST_PIECE);
            done.push(whole[from..to].to_vec());
            from = to;
        }
    }
    done
}

fn ends(all: &[Vec<u8>]) -> Vec<usize> {
    // Never below 4, so that a cut may lie some bytes before an end.
    let mut at = 0;
    all.iter()
        .map(|m| {
            at += m.len();
            at.max(4)
        })
        .collect()
}

fn interval(draw: &mut Draw) -> u64 {
    match draw.below(24) {
        0 => LONGEST_INTERVAL,
        1 | 2 => draw.upto(LONGEST_INTERVAL).max(1),
        _ => draw.pick(&[1, 2, 3, 4, 5, 5, 7, 10, 10, 20, 50]),
    }
}

fn character(draw: &mut Draw) -> char {
    let bits = draw.pick(&[7, 11, 16, 21]);
    char::from_u32(draw.below(1 << bits) as u32).unwrap_or('\'')
}

/// Any text; the Rust takes well-formed ones alone.
fn name(draw: &mut Draw, usual: &[&str]) -> String {
    match draw.below(12) {
        0 => (0..draw.below(9)).map(|_| character(draw)).collect(),
        _ => draw.pick(usual).to_string(),
    }
}

const SLOTS: &[&str] = &["s", "slot_1", "a b", "\u{142}", ""];
const NAMES: &[&str] = &["p", "orders", "a,b", "it's", "''", "", "\u{17C}\u{F3}", "x y"];

/// A name of a length.
fn long_name(draw: &mut Draw, length: usize) -> String {
    let part = draw.pick(&["a", "'", "it's", "a,b", "\u{17C}\u{F3}", "\u{1F9C5}'", "x y", "\\\0"]);
    part.repeat(length / part.len()) + &"x".repeat(length % part.len())
}

/// Names of any length and in any number, up to the bytes that a call takes, and often just as many.
fn long_names(draw: &mut Draw) -> (String, Vec<String>) {
    if draw.once_in(8) {
        let length = if draw.once_in(3) { LENT } else { draw.length(LENT) };
        return (String::new(), vec![long_name(draw, length)]);
    }
    let length = if draw.once_in(2) { draw.length(LENT) } else { draw.size(20) };
    let slot = long_name(draw, length);
    let mut left = LENT - slot.len();
    let many = draw.once_in(6);
    let count = if many { draw.length(left) } else { draw.length(300) };
    let share = if many || draw.once_in(2) { 2 * left / count.max(1) } else { left };
    let mut publications = Vec::with_capacity(count);
    for _ in 0..count {
        let length = draw.length(share.min(left));
        left -= length;
        publications.push(long_name(draw, length));
    }
    if draw.once_in(4) {
        publications.push(long_name(draw, left));
    }
    (slot, publications)
}

fn limit(draw: &mut Draw) -> u64 {
    match draw.below(8) {
        0 => draw.pick(&[0, 1, 3, 16, 17, 18, 24, 25, 26, 40, 46, 50, 60]),
        1 => 60 + draw.below(300),
        2 => draw.pick(&[131_070, 131_071]),
        3 => draw.upto(131_071),
        _ => draw.pick(&[1_000, 4_096, 65_536]),
    }
}

fn settings(draw: &mut Draw) -> Scenario {
    let status = interval(draw);
    let open = !draw.once_in(5);
    let count = draw.pick(&[0, 1, 1, 1, 2, 3, 9]);
    let (slot, publications) = match !open && draw.once_in(4) {
        true => long_names(draw),
        false => (name(draw, SLOTS), (0..count).map(|_| name(draw, NAMES)).collect()),
    };
    Scenario {
        open,
        status,
        idle: if draw.once_in(4) { status } else { interval(draw) },
        limit: limit(draw),
        stop_at: match draw.below(16) {
            0..=7 => None,
            8 | 9 => Some(draw.upto(u64::MAX)),
            _ => Some(draw.pick(&[0, 0xFF, 0x100, 0x101, 0x200, 0x1_0000_0000, u64::MAX - 1, u64::MAX])),
        },
        timing: draw.once_in(2),
        binary: draw.once_in(2),
        queue: if draw.once_in(20) { 1 + draw.length(99_999) } else { draw.pick(&[1, 1, 1, 2, 2, 3, 5, 8, 8, 20, 1_000]) },
        query: if draw.once_in(3) { draw.upto(u64::MAX) } else { position(draw) },
        start: if draw.once_in(5) { draw.upto(u64::MAX) } else { draw.pick(&[0, 0, 0, 1, 0x10, 0xFF, 0x1_0000_0000, u64::MAX]) },
        slot,
        publications,
        rounds: Vec::new(),
    }
}

/// How long until the next round: mostly so that times are up just before, at or just after it.
fn gap(draw: &mut Draw, s: &Scenario) -> u64 {
    let (status, idle) = (s.status, s.idle);
    let slow = status.min(idle) >= LONGEST_INTERVAL / 8;
    let wished = match draw.below(12) {
        8.. if slow => draw.upto(30 * LONGEST_INTERVAL),
        0..=3 => 0,
        4 => 1,
        5 => draw.below(6),
        6 => status,
        7 => idle,
        8 => status - 1,
        9 => idle - 1,
        10 => status.abs_diff(idle),
        11 if draw.once_in(20) => draw.below(LONGEST_INTERVAL),
        _ => status.max(idle) + draw.below(3),
    };
    // Not too many statuses in between.
    let most = if slow || draw.once_in(60) { 300 } else { 6 };
    wished.min(most * status.min(idle))
}

/// Now and then with another moment than the clock's, before it or ahead of it, near or far; as often of one file, rarely of none.
fn report(draw: &mut Draw, at: u64) -> Happening {
    let p = position(draw);
    if draw.once_in(2) {
        return file_report(draw, p);
    }
    match draw.below(24) {
        0 => Happening::ReportFrom(p, at.saturating_sub(draw.below(10))),
        1 => Happening::ReportFrom(p, at + draw.below(20)),
        2 => Happening::ReportFrom(p, at - draw.upto(at)),
        3 => Happening::ReportFrom(p, at + draw.upto(LAST_MOMENT - at)),
        _ => Happening::Report(p),
    }
}

fn file_report(draw: &mut Draw, p: u64) -> Happening {
    Happening::File(if draw.once_in(20) { draw.pick(&[FILES, 255]) } else { draw.below(FILES) }, p)
}

/// Each file's reports in a row: some lag, overtake each other and repeat themselves, and the smallest rises now and then.
fn four_files(draw: &mut Draw) -> Vec<Happening> {
    let far = draw.pick(&[2, 5, 40]);
    let mut at = [draw.below(far); FILES as usize];
    (0..2 + draw.below(8))
        .map(|_| {
            let file = draw.below(FILES);
            let i = file as usize;
            at[i] = match draw.below(6) {
                0 => at[i],
                1 => at[i].saturating_sub(1 + draw.below(far)),
                2 => at[draw.size(4) % 4] + draw.below(2),
                _ => at[i] + 1 + draw.below(far),
            };
            Happening::File(file, at[i])
        })
        .collect()
}

/// How the host of a run behaves.
struct Habits {
    taker: u64,
    /// The rounds in which it stops the run and closes the queue; those after the last never come.
    stop_in: u64,
    close_in: u64,
    reporting: u64,
}

impl Habits {
    fn new(draw: &mut Draw) -> Habits {
        Habits {
            taker: draw.below(4),
            stop_in: if draw.once_in(2) { draw.below(14) } else { 1_000 },
            close_in: if draw.once_in(6) { draw.below(10) } else { 1_000 },
            reporting: draw.pick(&[2, 3, 6, 1_000]),
        }
    }

    /// What it does in a round.
    fn does(&self, draw: &mut Draw, round: u64, at: u64) -> Vec<Happening> {
        let mut what = Vec::new();
        match self.taker {
            0 => {}
            1 => what.push(Happening::Take(1_000)),
            _ if draw.once_in(2) => what.push(Happening::Take(1 + draw.size(3))),
            _ => {}
        }
        if draw.once_in(self.reporting) {
            if draw.once_in(3) {
                what.extend(four_files(draw));
            }
            (0..1 + draw.below(2)).for_each(|_| what.push(report(draw, at)));
        }
        if draw.once_in(12) {
            what.push(Happening::Fill(1 + draw.size(3)));
        }
        what.extend((round == self.stop_in).then_some(Happening::Stop));
        what.extend((round == self.close_in).then_some(Happening::Close));
        what
    }
}

fn rounds(draw: &mut Draw, s: &Scenario, pieces: Vec<Vec<u8>>) -> Vec<Round> {
    let mut rounds = Vec::new();
    let mut at = if draw.once_in(3) { gap(draw, s) } else { 0 };
    let mut left: std::collections::VecDeque<Vec<u8>> = pieces.into();
    let at_once = draw.pick(&[1, 1, 2, 3, 100]);
    let habits = Habits::new(draw);
    let mut trailing = draw.below(6);
    let mut ends = draw.once_in(3);
    for i in 0..200 {
        let mut what = Vec::new();
        if !draw.once_in(4) {
            (0..1 + draw.below(at_once)).for_each(|_| what.extend(left.pop_front().map(Happening::Bytes)));
        }
        if left.is_empty() && ends && draw.once_in(2) {
            what.push(Happening::End);
            ends = false;
        }
        what.extend(habits.does(draw, i, at));
        rounds.push(Round::new(at, what));
        if left.is_empty() && !ends {
            if trailing == 0 {
                break;
            }
            trailing -= 1;
        }
        at += gap(draw, s);
    }
    rounds
}

/// More messages than one drain takes, cut inside some of them, so that a stop, a report or a time that is up meets the drain midway.
fn long_drain(draw: &mut Draw, mut s: Scenario) -> Scenario {
    (s.open, s.limit) = (true, 65_536);
    s.queue = draw.pick(&[1_000, 1_000, 300, 250, 256]);
    (s.status, s.idle) = (draw.pick(&[1, 3, 5]), draw.pick(&[1, 5, 50]));
    s.stop_at = None;
    let n = if draw.once_in(2) { 250 + draw.size(14) } else { 250 + draw.size(320) };
    let quiet = draw.below(5);
    let all: Vec<Vec<u8>> = (0..n).map(|_| if draw.below(5) < quiet { framed(b'N', &[]) } else { keepalive(position(draw), 0, 0) }).collect();
    let whole = all.concat();
    let mut cuts: Vec<usize> = (0..1 + draw.size(3)).map(|i| draw.size(if i == 0 { 400.min(whole.len()) } else { whole.len() })).collect();
    cuts.sort();
    cuts.push(whole.len());
    let (mut from, mut at) = (0, 0);
    let stop_in = draw.size(8);
    for (i, cut) in cuts.into_iter().enumerate() {
        let mut what = Vec::new();
        if from < cut {
            what.push(Happening::Bytes(whole[from..cut].to_vec()));
            from = cut;
        }
        if draw.once_in(3) {
            what.push(report(draw, at));
        }
        if draw.once_in(4) {
            what.push(Happening::Take(draw.size(300)));
        }
        if i == stop_in {
            what.push(Happening::Stop);
        }
        s.rounds.push(Round::new(at, what));
        at += gap(draw, &s);
        s.rounds.extend(draw.once_in(2).then(|| Round::new(at, vec![Happening::Take(1 + draw.size(200))])));
    }
    s
}

/// A few messages, cut once: nowhere, in a header, after one, after a message or inside another.
fn cut_once(draw: &mut Draw) -> [Option<Happening>; 2] {
    let mut all: Vec<Vec<u8>> = (0..1 + draw.size(4)).map(|_| good(draw, SHORT)).collect();
    if draw.once_in(4) {
        let place = draw.size(all.len());
        all[place] = copy_done(draw, SHORT);
    }
    let mut whole = all.concat();
    let first = all[0].len();
    let cut = draw.pick(&[0, 0, 1, 4, 5, 6, first, first + 1, first + 4, first + 5, first + 6, whole.len()]).min(whole.len());
    let rest = whole.split_off(cut);
    [whole, rest].map(|bytes| (!bytes.is_empty()).then_some(Happening::Bytes(bytes)))
}

/// A run that waits, reads or is stalled, and a moment at which a time is up and several things happen at once.
fn together(draw: &mut Draw, mut s: Scenario) -> Scenario {
    (s.open, s.limit, s.queue) = (true, 65_536, 1);
    (s.status, s.idle) = (draw.pick(&[2, 3, 4, 6]), draw.pick(&[2, 3, 4, 6, 50]));
    let [begin, mut rest] = cut_once(draw);
    s.rounds.push(Round::new(0, Vec::from_iter(begin)));
    let mut at = 0;
    if draw.once_in(2) {
        at += draw.pick(&[0, 1, s.status - 1]);
        s.rounds.push(Round::new(at, vec![report(draw, at)]));
    }
    at = at.max(draw.pick(&[s.status, s.idle, s.idle, s.status + s.idle, 2 * s.status, s.status - 1]));
    let mut what = Vec::new();
    let mut stopped = false;
    for _ in 0..draw.pick(&[1, 1, 2]) {
        what.extend(if draw.once_in(2) { rest.take() } else { None });
        if !stopped && draw.once_in(3) {
            stopped = true;
            what.push(Happening::Stop);
        }
        what.extend(draw.once_in(2).then(|| report(draw, at)));
        what.extend(draw.once_in(6).then(|| Happening::Fill(1 + draw.size(2))));
        what.extend(draw.once_in(2).then(|| Happening::Take(1 + draw.size(3))));
        what.extend(draw.once_in(4).then_some(Happening::Close));
        s.rounds.push(Round::new(at, std::mem::take(&mut what)));
        at += draw.pick(&[0, 0, 1, s.status, s.idle]);
    }
    ending(draw, &mut s, at, rest);
    s
}

/// What is left of the bytes, and the end: with the last of them where all are there, else after them.
fn ending(draw: &mut Draw, s: &mut Scenario, at: u64, rest: Option<Happening>) {
    let mut what = Vec::from_iter(rest);
    if draw.once_in(2) {
        let with_the_last = what.is_empty() && draw.once_in(2);
        let round = if with_the_last { &mut s.rounds.last_mut().unwrap().what } else { &mut what };
        round.push(Happening::End);
    }
    s.rounds.push(Round::new(at, what));
    s.rounds.push(Round::new(at + s.status.max(s.idle).min(6), vec![Happening::Take(2)]));
}

/// What happens while the run is busy: stop, reports and the queue's changes during its calls.
fn busy(draw: &mut Draw, s: &mut Scenario) {
    let settings = Scenario { rounds: Vec::new(), ..s.clone() };
    for round in &mut s.rounds {
        let mut call = 1;
        for _ in 0..draw.pick(&[0, 0, 1, 1, 2, 3]) {
            call += draw.pick(&[0, 0, 0, 1, 1, 2, 3, 5]);
            let what = match draw.below(23) {
                0 | 1 => Happening::Stop,
                2 => Happening::Close,
                20.. => Happening::Pass(gap(draw, &settings)),
                3 => Happening::Fill(1 + draw.size(2)),
                4..=10 => Happening::Take(1 + draw.size(3)),
                11 | 12 => {
                    let p = position(draw);
                    file_report(draw, p)
                }
                _ => Happening::Report(position(draw)),
            };
            round.during.push((call, what));
        }
    }
}

/// Moments far from the beginning, up to the last one that a step takes. No time is up before the run has its first bytes.
fn late(draw: &mut Draw, s: &mut Scenario) {
    let last = s.rounds.last().map_or(0, |round| round.at);
    let passed = s.rounds.iter().flat_map(|round| &round.during).map(|(_, what)| if let Happening::Pass(time) = what { *time } else { 0 });
    let room = LAST_MOMENT - last - passed.sum::<u64>();
    let later = if draw.once_in(4) { room } else { draw.upto(room) };
    for round in &mut s.rounds {
        round.at += later;
        for what in &mut round.what {
            if let Happening::ReportFrom(_, at) = what {
                *at = if draw.once_in(2) { round.at - draw.upto(round.at) } else { LAST_MOMENT.min(*at + later) };
            }
        }
    }
}

pub fn scenario(seed: u64) -> Scenario {
    let mut draw = Draw::new(seed);
    let draw = &mut draw;
    if seed % 40 == 0 {
        return of_class(draw, (seed / 40) as usize);
    }
    let mut s = base(draw);
    if draw.once_in(3) {
        busy(draw, &mut s);
    }
    if draw.once_in(30) {
        late(draw, &mut s);
    }
    s
}

fn base(draw: &mut Draw) -> Scenario {
    let mut s = settings(draw);
    if draw.once_in(5) {
        return together(draw, s);
    }
    if draw.once_in(40) {
        return long_drain(draw, s);
    }
    if draw.once_in(120) {
        return full_pieces(draw, s);
    }
    if draw.once_in(25) {
        return far_reports(draw, s);
    }
    if draw.once_in(60) {
        return end_with_status(draw, s);
    }
    let room = if draw.once_in(4) { large(draw, &mut s) } else { SHORT };
    let mut all = Vec::new();
    if !s.open {
        all.extend(opening(draw, s.limit, room));
    }
    if s.open || !draw.once_in(20) {
        all.extend(messages(draw, s.limit, room));
    }
    let pieces = pieces(draw, &all);
    let pieces = if draw.once_in(5) { ended(draw, pieces) } else { pieces };
    s.rounds = rounds(draw, &s, pieces);
    if !s.in_domain() {
        // An opening reply over the limit: begin after it.
        s.open = true;
    }
    s
}

/// The input may end anywhere.
fn ended(draw: &mut Draw, mut pieces: Vec<Vec<u8>>) -> Vec<Vec<u8>> {
    if !pieces.is_empty() {
        let keep = draw.size(pieces.len());
        pieces.truncate(keep + 1);
        let last = pieces.last_mut().unwrap();
        let n = 1 + draw.size(last.len());
        last.truncate(n);
    }
    pieces
}

/// Payloads of any length up to the limit, and that up to the largest of the domain.
fn large(draw: &mut Draw, s: &mut Scenario) -> Room {
    s.limit = if draw.once_in(2) { 131_071 } else { draw.upto(131_071) };
    Room(Some(s.limit as usize))
}

/// Reports that waited for any time, up to all the time that there is, each before a status that confirms it.
fn far_reports(draw: &mut Draw, mut s: Scenario) -> Scenario {
    (s.open, s.timing, s.start) = (true, true, 0);
    let last = LAST_MOMENT - 4 * LONGEST_INTERVAL;
    let mut at = if draw.once_in(3) { last } else { draw.upto(last) };
    for i in 1..=1 + draw.below(3) {
        let from = if draw.once_in(4) { at + draw.upto(LAST_MOMENT - at) } else { at - draw.upto(at) };
        s.rounds.push(Round::new(at, vec![Happening::ReportFrom(16 * i, from)]));
        at += draw.pick(&[s.status, s.idle, 1]).min(6 * s.status.min(s.idle));
        s.rounds.push(Round::new(at, Vec::new()));
    }
    s
}

/// The input ends at the moment at which the status of a pending report is due.
fn end_with_status(draw: &mut Draw, mut s: Scenario) -> Scenario {
    (s.open, s.start, s.status) = (true, 0, 2 + draw.below(4));
    s.idle = s.idle.max(s.status);
    let at_once = if draw.once_in(3) { vec![Happening::End, Happening::Take(1)] } else { vec![Happening::End] };
    let rounds = [(0, Vec::new()), (1, vec![Happening::Report(1 + position(draw) / 2)]), (s.status, at_once), (s.status + 1, Vec::new())];
    s.rounds = rounds.map(|(at, what)| Round::new(at, what)).into();
    s
}

/// A stream of many full pieces: messages of any length, 128 KiB to 4 MiB of them.
fn full_pieces(draw: &mut Draw, mut s: Scenario) -> Scenario {
    s.open = true;
    s.queue = draw.pick(&[8, 1_000, 100_000]);
    s.stop_at = s.stop_at.filter(|_| draw.once_in(4));
    // Long enough that the messages are not too many.
    s.limit = 131_071 - draw.upto(65_536);
    let room = Room(Some(s.limit as usize));
    let class = draw.pick(&[18, 19, 20, 21, 22]);
    let wished = draw.of_class(class, u64::MAX) as usize;
    let (mut all, mut length) = (Vec::new(), 0);
    while length < wished {
        all.push(good(draw, room));
        length += all.last().map_or(0, Vec::len);
    }
    if draw.once_in(4) {
        all = marred(draw, all, s.limit, room);
    }
    let first = if draw.once_in(2) { Vec::new() } else { vec![draw.length(LONGEST_PIECE)] };
    let pieces = cut_at(&all.concat(), first);
    s.rounds = rounds(draw, &s, pieces);
    s
}

/// What is met too rarely by drawing alone: class by class in turn, so that 20,000 scenarios in a row meet each.
fn of_class(draw: &mut Draw, i: usize) -> Scenario {
    let mut s = settings(draw);
    (s.open, s.limit, s.start) = (true, 65_536, 0);
    let class = i / 5;
    match i % 5 {
        0 => publications_of_class(draw, s, class % 21),
        1 => {
            let n = draw.of_class(class % 16, 26_000) as usize;
            at_once(s, &framed(b'N', &[]).repeat(n))
        }
        2 => {
            let n = draw.of_class(1 + class % 31, 0x7FFF_FFFB);
            s.limit = draw.upto(131_071.min(n - 1));
            at_once(s, &headed(draw.pick(b"dNE"), n as i32 + 4, &[]))
        }
        3 => waited_of_class(draw, s, class % 45),
        _ => {
            s.limit = 131_071;
            let n = draw.of_class(class % 18, 131_000) as usize;
            let text: Vec<u8> = b"plain ".iter().copied().cycle().take(n).collect();
            at_once(s, &framed(b'E', &[b"M", &text[..], b"\0\0"].concat()))
        }
    }
}

/// All of the bytes at the beginning.
fn at_once(mut s: Scenario, bytes: &[u8]) -> Scenario {
    let pieces = cut_at(bytes, Vec::new()).into_iter().map(Happening::Bytes).collect();
    s.rounds = vec![Round::new(0, pieces), Round::new(1, Vec::new())];
    s
}

fn publications_of_class(draw: &mut Draw, mut s: Scenario, class: usize) -> Scenario {
    s.open = false;
    s.slot = draw.pick(SLOTS).to_string();
    let count = draw.of_class(class, LENT as u64 - 1) as usize;
    let (mut left, share) = (LENT - s.slot.len(), LENT / count.max(1));
    s.publications.clear();
    for _ in 0..count {
        let length = draw.length(share.min(left));
        left -= length;
        s.publications.push(long_name(draw, length));
    }
    at_once(s, &accepted())
}

/// The first status confirms a report that has waited for a time of the class.
fn waited_of_class(draw: &mut Draw, mut s: Scenario, class: usize) -> Scenario {
    s.timing = true;
    let waited = draw.of_class(class, LAST_MOMENT - 1);
    let at = waited + draw.upto(LAST_MOMENT - 1 - waited);
    s.rounds = vec![Round::new(at, vec![Happening::ReportFrom(16, at - waited)]), Round::new(at + 1, Vec::new())];
    s
}
