//! Random scripts that mix everything; the same ones in every run.

use crate::cases::Add;
use crate::coverage::quietly;
use crate::model::{Queue, Settings, MOST_INTERVAL, MOST_MOMENT};
use crate::protocol::framed;
use crate::scripts::{at, Script, Step};
use crate::server::{begin, both, commit, data, error, keepalive, message, notice};
use crate::shared::Draw;

const SCRIPTS: usize = 147;

fn position(draw: &mut Draw) -> u64 {
    *draw.pick(&[0, 1, 0x10, 0xFF, 0x100, 0x101, 0x200, 0x1_0000_0000, u64::MAX, 0x16_B374_D848])
}

fn body(draw: &mut Draw) -> Vec<u8> {
    let (a, b, time) = (position(draw), position(draw), draw.next() as i64 >> draw.below(64));
    let prefixes: [&[u8]; 5] = [b"", b"app", "żółw".as_bytes(), &[0xE2, 0x82], &[0xFF, 0x41]];
    match draw.below(5) {
        0 => begin(a, time, draw.next() as u32),
        1 => commit(draw.next() as u8, a, b, time),
        2 => message(draw.next() as u8, a, *draw.pick(&prefixes), &vec![draw.next() as u8; draw.below(6) as usize]),
        3 => [*draw.pick(b"IUDRTYO"), draw.next() as u8].to_vec(),
        _ => Vec::new(),
    }
}

/// Mostly good messages; a bad one ends a run.
fn server_message(draw: &mut Draw) -> Vec<u8> {
    let time = draw.next() as i64 >> draw.below(64);
    let good = match draw.below(8) {
        0 | 1 => keepalive(position(draw), time, *draw.pick(&[0, 0, 1, 255])),
        2 => notice(draw.below(4) as usize),
        3 => framed(*draw.pick(b"NSCcZ"), b""),
        _ => data(position(draw), position(draw), time, &body(draw)),
    };
    match draw.below(60) {
        0 => error(),
        1 => [b'd', *draw.pick(&[0, 0xFF]), 0, 0, *draw.pick(&[0, 3, 200])].to_vec(),
        2 => framed(b'd', &good[5..5 + draw.below(good.len() as u64 - 4) as usize]),
        3 => {
            let mut damaged = good;
            let place = draw.below(damaged.len() as u64) as usize;
            damaged[place] = draw.next() as u8;
            damaged
        }
        _ => good,
    }
}

fn settings(draw: &mut Draw) -> Settings {
    let interval = |draw: &mut Draw| match draw.below(60) {
        0 => MOST_INTERVAL + 1,
        1 => MOST_INTERVAL,
        _ => *draw.pick(&[0, 1, 500, 1_000, 1_000, 5_000]),
    };
    let stop = *draw.pick(&[0x100, 0x101, 0x200, u64::MAX]);
    Settings {
        status: interval(draw),
        idle: interval(draw),
        limit: if draw.below(15) == 0 { *draw.pick(&[0, 18, 46]) } else { *draw.pick(&[50, 60, 64]) },
        stop_at: (draw.below(2) == 0).then_some(stop),
        timing: draw.below(2) == 0,
        binary: draw.below(2) == 0,
    }
}

fn step(draw: &mut Draw, moment: u64, stop: bool) -> Step {
    let queue = *draw.pick(&[Queue::Free, Queue::Free, Queue::Free, Queue::Full, Queue::Closed]);
    let part = draw.below(12) as u32;
    let fill = draw.next() as u8;
    Step {
        moment: if draw.below(30) == 0 { *draw.pick(&[0, 1, moment - 1, MOST_MOMENT + 1]) } else { moment },
        client_time: draw.next() as i64,
        stop,
        queue,
        unread: if draw.below(2) == 0 { part } else { 200 },
        ended: draw.below(40) == 0,
        room: *draw.pick(&[39, 39, 39, 39, 40, 45, 39, 39, 39, 39, 39, 39, 39, 39, 39, 38]),
        fill,
    }
}

fn script(draw: &mut Draw) -> Script {
    let mut server = Vec::new();
    let opened = draw.below(4) == 0;
    if opened {
        (0..draw.below(3)).for_each(|_| server.extend(notice(2)));
        server.extend(if draw.below(8) == 0 { error() } else { both() });
    }
    (0..draw.below(12)).for_each(|_| server.extend(server_message(draw)));
    server.truncate(server.len() - draw.below(8).saturating_sub(4).min(server.len() as u64) as usize);
    let mut s = if opened { Script::opened(&[&server]) } else { Script::new(&[&server]) };
    s.settings = settings(draw);
    (s.query_position, s.start) = (position(draw), *draw.pick(&[0, 0, 1, 0x10, 0xFF, 0x200]));
    let limit = s.settings.limit as u32;
    let room = if draw.below(20) == 0 { limit.max(1) - 1 } else { *draw.pick(&[limit, limit, limit + 9, limit + 1]) };
    s.payload = (room, draw.next() as u8);
    let mut moment = 1 + draw.below(1_000);
    let asked = draw.below(100);
    for i in 0..10 + draw.below(50) {
        moment += *draw.pick(&[0, 0, 1, 250, 499, 500, 501, 1_000, 5_000]);
        if draw.below(7) == 0 {
            s.report(position(draw) & 0xFFFF_FFFF, *draw.pick(&[0, 1, moment, moment + 700, moment / 2]));
        }
        if draw.below(10) == 0 {
            let file = *draw.pick(&[0, 1, 2, 3, 0, 1, 2, 3, 0, 1, 2, 3, 4, 255]);
            s.file(file, position(draw) & 0xFFFF, *draw.pick(&[0, 1, moment, moment + 700, moment / 2]));
        }
        let next = step(draw, moment, i >= asked);
        s.step(next);
    }
    s.step(at(moment).unread(0));
    end_soon(&mut s);
    s
}

/// Two calls after the end are enough.
fn end_soon(s: &mut Script) {
    let lines = quietly(|| s.lines());
    let end = lines.lines().skip(1).position(|line| line.contains(" ENDED "));
    s.calls.truncate(end.map_or(usize::MAX, |n| n + 3));
}

pub fn all(add: Add) {
    let mut draw = Draw(0x5265_706C_6179_2026);
    (0..SCRIPTS).for_each(|_| add(&script(&mut draw)));
}
