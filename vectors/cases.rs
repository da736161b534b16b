//! Scripts for each test of each row of the step table, both ways, and for each refusal.

use crate::model::{MOST_INTERVAL, MOST_MOMENT};
use crate::protocol::framed;
use crate::scripts::{at, Script, Step};
use crate::server::{begin, both, commit, data, error, keepalive, message, notice};

pub type Add<'a> = &'a mut dyn FnMut(&Script);

pub fn all(add: Add) {
    openings(add);
    queries(add);
    opening_tests(add);
    opening_refusals(add);
    turns(add);
    drains(add);
    full_drains(add);
    readings(add);
    read_refusals(add);
    waits(add);
    waits_in_order(add);
    waits_in_messages(add);
    wait_refusals(add);
    handlings(add);
    handling_refusals(add);
    copy_dones(add);
    offers(add);
    stall_times(add);
    stopped_at(add);
    stop_positions(add);
    step_refusals(add);
    moments(add);
    reports(add);
    files(add);
    timings(add);
    intervals(add);
    buffers(add);
    largest(add);
    pages(add);
}

/// Turn, Drain, Reading and Handling of a first message, all at moment 1.
fn offered(server: &[&[u8]]) -> Script {
    let mut s = Script::new(server);
    s.steps(&[at(1), at(1), at(1), at(1)]);
    s
}

/// Turn and Drain with nothing unread: a wait that began at moment 1.
fn waiting(server: &[&[u8]]) -> Script {
    let mut s = Script::new(server);
    s.steps(&[at(1).unread(0), at(1).unread(0)]);
    s
}

/// A wait that began at moment 1 with a position reported before it.
fn pending(server: &[&[u8]]) -> Script {
    let mut s = Script::new(server);
    s.step(at(1).unread(0)).report(0x20, 1).step(at(1).unread(0));
    s
}

fn openings(add: Add) {
    let over = MOST_INTERVAL + 1;
    for (status, idle) in [(MOST_INTERVAL, MOST_INTERVAL), (over, 0), (0, over), (over, over), (u64::MAX, 1), (0, 0)] {
        for already_open in [true, false] {
            for room in [0, 300] {
                let mut s = Script::opened(&[&both(), &keepalive(0x10, 0, 0)]);
                s.already_open = already_open;
                (s.settings.status, s.settings.idle, s.output.0) = (status, idle, room);
                s.steps(&[at(1), at(2), at(3)]).report(0x20, 4);
                add(&s);
            }
        }
    }
}

fn queries(add: Add) {
    let sets: [&[&[u8]]; 7] =
        [&[], &[b""], &[b"captions"], &[b"de", b"it's", b"'"], &[b"a,b", b"", b"''"], &["λόγος".as_bytes(), b"\xFF"], &[b"", b"", b""]];
    for (i, names) in sets.iter().enumerate() {
        for binary in [false, true] {
            let mut s = Script::opened(&[&both()]);
            s.settings.binary = binary;
            s.publications = names.iter().map(|n| n.to_vec()).collect();
            s.slot = [&b"kiosk_1"[..], b"", b"it's", b"\0\xFF"][i % 4].to_vec();
            s.query_position = [0, 0x16_B374_D848, u64::MAX, 1 << 32][i % 4];
            let exact = crate::model::query(&s.settings, &s.slot, &s.publications, s.query_position).len() as u32;
            s.steps(&[at(1), at(1)]);
            for room in [exact, exact - 1, exact + 1, 4096] {
                s.output = (room, 0xC3);
                add(&s);
            }
        }
    }
    let mut s = Script::opened(&[&both()]);
    s.publications = (0..255).map(|i| format!("p{i}").into_bytes()).collect();
    s.output.0 = 4096;
    s.step(at(1));
    add(&s);
}

fn opening_tests(add: Add) {
    let mut s = Script::opened(&[&notice(3), &both(), &keepalive(0x20, 5, 0)]);
    s.steps(&[at(1), at(1), at(1), at(1), at(1), at(1), at(1)]);
    add(&s);
    // one byte a step, then no byte at all
    let mut s = Script::opened(&[&notice(2), &both()]);
    s.step(at(1).unread(0));
    for i in 0..16 {
        s.step(at(i + 1).unread(1));
    }
    add(&s);
    // neither stop, nor the queue, nor the clock plays a part
    let mut s = Script::opened(&[&both(), &keepalive(0x20, 5, 0)]);
    s.steps(&[at(1).stop().unread(3), at(9_000).stop().closed().unread(2), at(90_000).stop().full(), at(90_000).stop(), at(90_001).stop()]);
    add(&s);
    for tag in *b"dZcCTSkKwe\0\xFF" {
        let mut s = Script::opened(&[&framed(tag, b"k123"), &both()]);
        s.steps(&[at(1), at(2), at(3)]);
        add(&s);
    }
    // an error ends it; taken is what its message still lacked
    for first in [0, 1, 4, 5, 9] {
        let mut s = Script::opened(&[&error(), &both()]);
        s.steps(&[at(1).unread(first), at(2), at(3)]).report(0x30, 4);
        add(&s);
    }
}

fn opening_refusals(add: Add) {
    let bad = [[b'W', 0, 0, 0, 3], [b'W', 0, 0, 0, 0], [b'W', 0xFF, 0xFF, 0xFF, 0xFF], [b'W', 0, 0, 0, 105], [b'E', 0x7F, 0, 0, 0]];
    for header in bad {
        for first in [5, 2] {
            let mut s = Script::opened(&[&header, &both()]);
            s.steps(&[at(1).unread(first), at(2), at(3)]);
            add(&s);
        }
    }
    for n in [0, 1, 4, 5, 7] {
        let mut s = Script::opened(&[&both()]);
        s.steps(&[at(1).unread(n), at(2).ended(), at(3).ended()]);
        add(&s);
    }
    // an end with bytes unread does not count yet
    let mut s = Script::opened(&[&both()]);
    let mut last = at(1);
    last.ended = true;
    s.steps(&[last.clone(), last.clone(), last.clone(), last]);
    add(&s);
}

fn turns(add: Add) {
    // an empty message brings the run back to turn
    let round = |moment: u64| [at(moment).unread(5), at(moment).unread(5), at(moment).unread(5), at(moment).unread(0)];
    for later in [1, 1_000, 1_001, 1_002] {
        let mut s = Script::new(&[&notice(0), &notice(0)]);
        s.step(at(1).unread(5)).steps(&round(1)[..3]).step(at(1).unread(0)).step(at(later).unread(5)).report(0x50, 9);
        s.steps(&round(later + 999)).step(at(later + 1_000));
        add(&s);
    }
    let mut s = Script::new(&[]);
    s.steps(&[at(7).stop().full(), at(7).stop().closed()]);
    add(&s);
    for client_time in [0, -1, i64::MIN, i64::MAX, 848_054_859_166_587] {
        let mut s = Script::new(&[]);
        s.step(Step { client_time, room: 50, ..at(3) });
        s.start = client_time as u64;
        add(&s);
    }
}

fn drains(add: Add) {
    for n in 0..=6 {
        let mut s = Script::new(&[&keepalive(0x20, 5, 0)]);
        s.steps(&[at(1), at(1).unread(n), at(1).unread(n)]);
        add(&s);
        let mut s = Script::new(&[&keepalive(0x20, 5, 0)]);
        s.steps(&[at(1), at(1).unread(n).stop(), at(1).unread(n).stop()]);
        add(&s);
        // one drained
        for stop in [false, true] {
            let mut s = offered(&[&keepalive(0x20, 5, 0), &keepalive(0x21, 5, 0)]);
            let next = at(2).unread(n);
            s.step(at(1)).step(if stop { next.stop() } else { next }).steps(&[at(3), at(4)]);
            add(&s);
        }
    }
    // stop between two messages of a drain is not acted on
    let mut s = Script::new(&[&keepalive(0x20, 5, 0), &data(1, 2, 3, b"I1"), &notice(1)]);
    for _ in 0..12 {
        s.step(at(1).stop());
    }
    add(&s);
    let mut s = Script::new(&[]);
    s.step(at(1)).report(0x20, 1).steps(&[at(2), at(3), at(1_001), at(1_002), at(1_003)]);
    add(&s);
}

fn full_drains(add: Add) {
    let server = notice(0).repeat(258);
    for stop in [false, true] {
        let mut s = Script::new(&[&server]);
        s.step(at(1));
        for _ in 0..256 * 3 {
            s.step(at(1));
        }
        let next = at(2);
        s.step(if stop { next.stop() } else { next }).steps(&[at(3), at(3), at(3)]);
        add(&s);
    }
}

fn readings(add: Add) {
    let mut s = Script::new(&[&data(1, 2, 3, b"Iab"), &keepalive(9, 9, 1)]);
    s.steps(&[at(1), at(1)]);
    for i in 0..34 {
        s.step(at(2 + i).unread(1));
    }
    s.steps(&[at(40), at(40), at(40), at(40)]);
    add(&s);
    // whatever the clock, and whatever stop and queue say
    let mut s = Script::new(&[&keepalive(0x20, 5, 1)]);
    s.steps(&[
        at(1),
        at(1),
        at(9_000).unread(3).stop(),
        at(90_000).unread(0),
        at(90_000).unread(7).full(),
        at(91_000).closed(),
        at(91_000),
        at(91_000),
    ]);
    add(&s);
    // the unread bytes may be fewer than those that drain saw
    let mut s = Script::new(&[&keepalive(0x20, 5, 0)]);
    s.steps(&[at(1), at(1).unread(5), at(2).unread(0), at(3).unread(4), at(4).unread(1), at(5).unread(0), at(6)]);
    add(&s);
}

fn read_refusals(add: Add) {
    for (header, first) in [([b'd', 0, 0, 0, 3], 5), ([b'd', 0x80, 0, 0, 4], 3), ([b'd', 0, 0, 0, 105], 5), ([b'd', 0x7F, 0xFF, 0xFF, 0xFF], 1)] {
        let mut s = Script::new(&[&header, &keepalive(1, 1, 1)]);
        s.steps(&[at(1), at(1), at(2).unread(first), at(3), at(4)]);
        add(&s);
    }
    for n in [0, 1, 4, 5, 6, 21] {
        let mut s = Script::new(&[&keepalive(0x20, 5, 0)]);
        s.steps(&[at(1), at(1), at(2).unread(n), at(3).ended(), at(4).ended()]).report(0x44, 5);
        add(&s);
    }
    // the end is met by the next read, not by the whole message that waits
    let mut s = Script::new(&[&keepalive(0x20, 5, 0)]);
    s.steps(&[at(1), at(1), at(2), at(3).ended(), at(4).ended(), at(5).ended(), at(6).ended(), at(7).ended(), at(8).ended(), at(9).ended()]);
    add(&s);
}

fn waits(add: Add) {
    let next = |moment: u64| [at(moment).unread(0), at(moment).unread(0)];
    for moment in [1, 2, 1_000, 1_001, 5_000, 5_001, 5_002] {
        for script in [waiting, pending] {
            let mut s = script(&[]);
            s.steps(&next(moment)).step(at(moment + 1));
            add(&s);
            let mut s = script(&[]);
            s.report(0x30, 1).steps(&next(moment)).step(at(moment + 1));
            add(&s);
            let mut s = script(&[]);
            s.step(at(moment).stop().unread(0)).step(at(moment)).report(0x31, 2);
            add(&s);
            for bytes in [keepalive(0x20, 5, 1), notice(2), framed(b'Z', b""), data(1, 2, 3, b"")] {
                let mut s = script(&[&bytes]);
                s.steps(&[at(moment), at(moment), at(moment), at(moment)]);
                add(&s);
            }
        }
    }
    // a lower report raises no signal; one before the wait is cleared by drain
    let mut s = waiting(&[]);
    s.report(0x0F, 1).report(0x10, 1).step(at(2).unread(0)).report(0x11, 1).step(at(3).unread(0)).step(at(4)).step(at(5)).step(at(6));
    add(&s);
}

fn waits_in_order(add: Add) {
    let whole = keepalive(0x20, 5, 0);
    // every pair of tests that can apply at once
    for late in [1_001, 5_001] {
        for script in [waiting, pending] {
            for unread in [0, 3, 23] {
                for ended in [false, true] {
                    for reported in [false, true] {
                        for stop in [false, true] {
                            let mut s = script(&[&whole]);
                            if reported {
                                s.report(0x40, 2);
                            }
                            s.step(Step { stop, ended, ..at(late).unread(unread) }).steps(&[at(late), at(late)]);
                            add(&s);
                        }
                    }
                }
            }
        }
    }
}

fn waits_in_messages(add: Add) {
    // cuts inside a header and inside a payload, the wait broken off by each test, and what was read is kept
    for cut in [1, 2, 4, 5, 6, 22] {
        for how in 0..4 {
            let mut s = if how == 1 { pending(&[&keepalive(0x1234, 77, 1)]) } else { waiting(&[&keepalive(0x1234, 77, 1)]) };
            s.step(at(2).unread(cut));
            match how {
                0 => s.report(0x30, 3).step(at(3).unread(1)),
                1 => s.step(at(1_001).unread(1)),
                2 => s.step(at(5_001).unread(1)),
                _ => s.step(at(3).stop().unread(1)),
            };
            s.steps(&[at(6_000), at(6_000), at(6_000), at(6_000), at(6_000), at(6_000)]);
            add(&s);
        }
    }
    // bytes taken and an idle status in one step
    let mut s = waiting(&[&data(1, 2, 3, b"Iwording"), &keepalive(3, 3, 0)]);
    s.steps(&[at(5_001).unread(9), at(5_002).unread(4), at(5_002).unread(4), at(6_000).unread(0), at(10_003).unread(7), at(10_003).unread(2)]);
    s.steps(&[at(10_003), at(10_003), at(10_003), at(10_003), at(10_003)]);
    add(&s);
    // a message read in a wait goes back to turn and is not drained
    let mut s = waiting(&[&notice(0), &notice(0), &keepalive(5, 5, 0)]);
    s.steps(&[at(2), at(2), at(2), at(2).unread(0), at(2).unread(4), at(2).unread(4)]);
    s.steps(&[at(3).stop().unread(0), at(3)]);
    add(&s);
}

fn wait_refusals(add: Add) {
    for header in [[b'd', 0, 0, 0, 3], [b'd', 0xFF, 0xFF, 0xFF, 0xFC], [b'd', 0, 0, 0, 105], [b'E', 0, 1, 0, 0]] {
        for moment in [2, 5_001] {
            let mut s = waiting(&[&header, &keepalive(1, 1, 1)]);
            s.steps(&[at(2).unread(2), at(moment), at(moment)]);
            add(&s);
        }
    }
    for n in [0, 1, 4, 5, 22] {
        for moment in [2, 5_001] {
            let mut s = waiting(&[&keepalive(0x20, 5, 0)]);
            s.steps(&[at(2).unread(n), at(moment).ended(), at(moment).ended()]);
            add(&s);
        }
    }
    // an end counts only when no byte is unread
    let mut s = waiting(&[&keepalive(0x20, 5, 0)]);
    let last = Step { ended: true, ..at(2).unread(10) };
    s.steps(&[last.clone(), last.clone(), last.clone(), last.clone(), last.clone(), last.clone(), last.clone(), last.clone(), last]);
    add(&s);
}

fn handlings(add: Add) {
    let bodies: Vec<Vec<u8>> = vec![
        begin(0x30, -5, u32::MAX),
        [&begin(0x30, 5, 7)[..], b"surplus"].concat(),
        commit(0, 0x30, 0x40, i64::MIN),
        commit(255, 1, 2, 3),
        message(0, 0x50, b"", b""),
        message(1, 0x50, b"app", b"\0wording"),
        message(0xFE, 1, &[0xE2, 0x82, 0x42], b"1"),
        message(0xFF, 1, "Übersetzung".as_bytes(), b""),
        b"".to_vec(),
        b"I1".to_vec(),
        b"R\0".to_vec(),
        b"b".to_vec(),
        b"\0\xFF".to_vec(),
    ];
    for body in &bodies {
        let mut s = offered(&[&data(0x21, 0x22, -1, body), &notice(0)]);
        s.steps(&[at(1), at(1), at(1), at(1)]);
        add(&s);
        let mut s = waiting(&[&data(u64::MAX, 1 << 63, i64::MAX, body)]);
        s.steps(&[at(1), at(1), at(1), at(1)]);
        add(&s);
    }
    for (reply, stop) in [(0, false), (1, false), (2, true), (255, true)] {
        for script in [offered, waiting] {
            let mut s = script(&[&keepalive(0x1_0000_0020, -9, reply), &keepalive(0x20, 0, 1)]);
            s.report(0x19, 1).steps(&[at(2), at(2), Step { stop, ..at(2) }, at(2), at(2), at(2)]);
            add(&s);
        }
    }
    for tag in *b"cCNSZD\0ek" {
        let mut s = Script::new(&[&framed(tag, b"k"), &framed(tag, b"")]);
        s.steps(&[at(1), at(1), at(1), at(1).stop(), at(1), at(1), at(1), at(1).stop(), at(1)]);
        add(&s);
    }
}

fn handling_refusals(add: Add) {
    let whole_begin = data(1, 0x77, 3, &begin(1, 2, 3));
    let cut = |message: &[u8], n: usize| framed(message[0], &message[5..5 + n]);
    let with = |body: &[u8]| data(1, 0x77, 3, body);
    let (b, c, m) = (begin(1, 2, 3), commit(0, 1, 2, 3), message(1, 2, b"pre", b"12345"));
    let mut bad = vec![framed(b'd', b""), cut(&whole_begin, 1), cut(&whole_begin, 24), cut(&keepalive(1, 2, 1), 17), framed(b'd', b"k")];
    bad.extend([framed(b'd', b"x"), framed(b'd', &[0; 30]), framed(b'd', &[b'W'; 30]), error(), framed(b'E', b"")]);
    bad.extend([1, 8, 9, 16, 17, 20].map(|n| with(&b[..n])));
    bad.extend([1, 2, 9, 10, 17, 18, 25].map(|n| with(&c[..n])));
    bad.extend([1, 2, 9, 10, 13, 14, 17, 18, 22].map(|n| with(&m[..n])));
    bad.push(with(&[&m[..14], &[0xFF, 0xFF, 0xFF, 0xFF], &m[18..]].concat()));
    bad.push(with(&[&m[..14], &[0x80, 0, 0, 0], &m[18..]].concat()));
    for message in bad {
        let mut s = offered(&[&keepalive(0x70, 0, 0), &message, &keepalive(1, 1, 1)]);
        s.steps(&[at(1), at(1), at(2), at(2).stop(), at(3)]).report(0x99, 1).step(at(4));
        add(&s);
        let mut s = waiting(&[&message, &keepalive(1, 1, 1)]);
        s.steps(&[at(1), at(2).full(), at(3)]);
        add(&s);
    }
}

/// The server's CopyDone: from draining and waiting alike, with nothing else looked at, and the run's last call.
fn copy_dones(add: Add) {
    let done = framed(b'c', b"");
    let ways = [
        at(2),
        at(2).stop(),
        at(2).full(),
        at(2).closed(),
        at(2).closed().stop(),
        at(9_000),
        at(9_000).full().stop(),
        at(2).unread(0),
        at(2).ended(),
    ];
    for way in ways {
        // after the event of a message before it, which waits for the queue
        let mut s = offered(&[&keepalive(0x70, 0, 0), &done, &keepalive(1, 1, 1)]);
        s.step(at(1).full()).report(0x75, 1).steps(&[at(1).full(), at(1), at(1), at(1), way.clone(), at(9_001), at(9_002)]).report(0x99, 3);
        add(&s);
        // read in a wait: the step that makes it whole does not end the run
        let mut s = waiting(&[&done, &keepalive(1, 1, 1)]);
        s.report(0x75, 1).steps(&[at(1).unread(0), at(1), at(1), at(1), way.clone(), at(9_001), at(9_002)]);
        add(&s);
        let mut s = waiting(&[&done, &keepalive(1, 1, 1)]);
        s.steps(&[at(1).unread(2), at(1).unread(3), at(1).room(38), at(0), way, at(9_001)]);
        add(&s);
    }
    // with a payload: any, and the longest; cut in each place; over the limit, a length below 4, unfinished at the input's end
    for n in [0, 3, 100] {
        for first in [1, 4, 5] {
            let mut s = waiting(&[&framed(b'c', &vec![b'k'; n]), &keepalive(1, 1, 1)]);
            s.steps(&[at(2).unread(first), at(2), at(2), at(2), at(3)]);
            add(&s);
        }
        let mut s = Script::new(&[&framed(b'c', &vec![b'k'; n])]);
        s.steps(&[at(1), at(1), at(1).unread(5), at(2).ended(), at(3), at(3)]);
        add(&s);
    }
    for header in [[b'c', 0, 0, 0, 3], [b'c', 0xFF, 0xFF, 0xFF, 0xFF], [b'c', 0, 0, 0, 105]] {
        for made in [Script::new, waiting] {
            let mut s = made(&[&header, &done]);
            s.steps(&[at(1), at(1), at(1), at(1), at(1)]);
            add(&s);
        }
    }
    // in Opening it is skipped; after the `W` it is not
    let mut s = Script::opened(&[&done, &both(), &keepalive(0x20, 5, 0), &framed(b'c', b"abc")]);
    s.steps(&[at(1), at(1), at(1), at(1), at(1), at(1), at(1), at(1), at(1), at(1), at(1), at(1)]);
    add(&s);
    let mut s = Script::opened(&[&framed(b'c', b"abc"), &done]);
    s.steps(&[at(1), at(1).stop(), at(1).ended(), at(1)]);
    add(&s);
    // before a stop position that the next message would reach, and behind one that was reached
    for messages in [[done.clone(), data(1, 0x200, 3, b"I")], [data(1, 0x200, 3, b"I"), done.clone()]] {
        let mut s = Script::new(&[&messages[0], &messages[1]]);
        s.settings.stop_at = Some(0x100);
        s.steps(&[at(1), at(1), at(1), at(1), at(1), at(1), at(1)]);
        add(&s);
    }
}

/// Every way of an offer that is in its first try.
fn ways(add: Add, made: &dyn Fn() -> Script) {
    let end = [at(9_001), at(9_001)];
    for stop in [false, true] {
        let with = |step: Step| Step { stop, ..step };
        for first in [at(1), at(1).closed(), at(1).full(), at(1_001).full(), at(1_000).full(), at(7_777).full()] {
            let mut s = made();
            s.step(with(first.clone())).steps(&end);
            add(&s);
        }
        for later in [at(2), at(2).closed(), at(2).full(), at(1_001).full(), at(1_000).full(), at(5_500), at(5_499).closed(), at(1_001)] {
            let mut s = made();
            s.step(at(2).full()).step(with(later.clone())).steps(&end);
            add(&s);
        }
    }
    let mut s = made();
    s.steps(&[at(2).full(), at(1_002).full(), at(1_003).full(), at(2_001).full(), at(2_002).full().unread(0), at(2_900).full(), at(3_500)])
        .steps(&end);
    add(&s);
}

fn offers(add: Add) {
    ways(add, &|| offered(&[&keepalive(0x20, 5, 0), &keepalive(0x21, 5, 0)]));
    ways(add, &|| offered(&[&data(1, 2, 3, &message(1, 2, b"app", b"text"))]));
    ways(add, &|| {
        let mut s = waiting(&[&data(1, 2, 3, b"Ivalue")]);
        s.steps(&[at(1), at(1)]);
        s
    });
    // a position reported during a stall is in the status that is written there
    let mut s = offered(&[&data(1, 2, 3, &begin(4, 5, 6))]);
    s.step(at(2).full()).report(0x30, 3).step(at(1_001).full()).report(0x40, 1_002).steps(&[
        at(1_100).full(),
        at(2_001).full(),
        at(2_100),
        at(2_100),
    ]);
    add(&s);
}

fn stall_times(add: Add) {
    for (from, to) in [(1, 1), (1, 1_000), (1, 1_001), (1, 2_000), (7, 86_400_000_000_007), (1, MOST_MOMENT)] {
        for queue in [at(to), at(to).closed(), at(to).full().stop()] {
            let mut s = offered(&[&keepalive(0x20, 5, 0), &keepalive(0x21, 5, 0)]);
            s.settings.status = MOST_INTERVAL;
            s.steps(&[at(from).full(), queue, at(to), at(to), at(to)]);
            s.steps(&[at(to).full(), at(to).full(), at(to)]);
            add(&s);
        }
    }
}

fn stopped_at(add: Add) {
    let stopping = |body: Vec<u8>| {
        let mut s = offered(&[&data(1, 0x100, 3, &body), &keepalive(0x21, 5, 0)]);
        s.settings.stop_at = Some(0x100);
        s
    };
    for body in [begin(0x100, 5, 6), b"I".to_vec()] {
        ways(add, &|| stopping(body.clone()));
        // the event handed on, dropped, and handed on after a stall
        for before in [vec![at(1)], vec![at(1).closed()], vec![at(1).full(), at(1)], vec![at(1).full(), at(1).closed()], vec![at(1).stop()]] {
            ways(add, &|| {
                let mut s = stopping(body.clone());
                s.steps(&before);
                s
            });
        }
    }
}

fn stop_positions(add: Add) {
    for stop in [0x100, 0, 1, u64::MAX, 0x1_0000_0000] {
        let near: Vec<u64> = [stop.wrapping_sub(0x80), stop.wrapping_sub(1), stop, stop.wrapping_add(1)].to_vec();
        for p in near {
            let far = if p >= stop { stop.wrapping_sub(1) } else { stop };
            let servers = [
                data(far, far, 3, &begin(p, 5, 6)),
                data(far, far, 3, &commit(0, far, p, 6)),
                data(far, p, 3, &message(0, far, b"p", b"c")),
                data(far, p, 3, b"Irow"),
                data(far, p, 3, b""),
                keepalive(p, 6, 0),
                keepalive(p, 6, 1),
            ];
            for server in servers {
                let mut s = offered(&[&server, &notice(0)]);
                s.settings.stop_at = Some(stop);
                s.steps(&[at(1), at(1), at(1), at(1)]);
                add(&s);
            }
        }
    }
    // SCOPE 11.2's: Begin 0xFF goes on, Begin 0x100 stops
    let mut s = offered(&[&data(1, 2, 3, &begin(0xFF, 5, 6)), &data(1, 2, 3, &begin(0x100, 5, 7)), &notice(0)]);
    s.settings.stop_at = Some(0x100);
    s.steps(&[at(1), at(1), at(1), at(1), at(1), at(1), at(1)]);
    add(&s);
}

fn step_refusals(add: Add) {
    // each alone and each with all below it, in every state that a message goes through
    let server = [keepalive(0x20, 5, 1), data(1, 2, 3, b"I1")].concat();
    for n in 0..8 {
        for bad in [at(2).room(38), at(2).room(0), at(0), at(1), at(0).room(38), at(MOST_MOMENT + 1), at(u64::MAX).room(5)] {
            let mut s = Script::opened(&[&both(), &server]);
            for _ in 0..n {
                s.step(at(2));
            }
            s.report(0x30, 2).step(Step { ended: true, ..bad.clone() }).steps(&[at(2).room(39), bad.full().stop(), at(2).room(40)]);
            add(&s);
        }
    }
    for bad in [at(2).room(38), at(0), at(1)] {
        let mut s = waiting(&[&server]);
        s.step(at(2).unread(3)).report(0x30, 2).steps(&[bad.clone(), bad.stop(), at(2), at(2), at(2)]);
        add(&s);
    }
    // 3 before 4 before 5, and the last moment stays as it was
    for (payload, room, moment) in [(99, 39, 5), (99, 38, 5), (99, 38, 0), (99, 39, 0), (100, 38, 0), (0, 0, 0)] {
        let mut s = Script::new(&[&server]);
        s.payload.0 = payload;
        s.steps(&[at(moment).room(room), at(4).room(room), at(4)]);
        add(&s);
        (s.already_open, s.output) = (false, (300, 1));
        add(&s);
    }
    // 2 before all others
    let mut s = waiting(&[]);
    s.steps(&[at(3).stop().unread(0), at(3), at(0), at(2), at(4).room(3), at(0).room(0), at(u64::MAX).room(38)]);
    add(&s);
    let mut s = Script::new(&[]);
    s.payload.0 = 99;
    s.report(0x50, 1).steps(&[at(1), at(1).stop()]);
    add(&s);
}

fn moments(add: Add) {
    for moment in [1, 2, MOST_MOMENT - 1, MOST_MOMENT, MOST_MOMENT + 1, u64::MAX, 0] {
        let mut s = Script::new(&[&keepalive(0x20, 5, 1)]);
        s.settings.timing = true;
        s.report(0x20, 1).steps(&[at(moment), at(moment), at(moment), at(moment - moment.min(1)), at(moment), at(MOST_MOMENT), at(1)]);
        add(&s);
    }
    // a step refused with 5 leaves the last moment; one refused with 19 has set it
    let mut s = Script::new(&[]);
    s.steps(&[at(10), at(9), at(u64::MAX), at(10), at(11), at(10), at(11)]);
    add(&s);
}

fn reports(add: Add) {
    let mut s = Script::new(&[]);
    s.report(0x0F, 1).report(0x10, 1).report(0x11, 0).report(0x10, 5).report(u64::MAX, u64::MAX).report(0, 0);
    s.steps(&[at(1), at(1), at(1)]);
    add(&s);
    for (start, position) in [(0, 0), (0, 1), (u64::MAX, 1), (1 << 32, (1 << 32) - 1)] {
        let mut s = waiting(&[]);
        s.start = start;
        s.report(position, 2).steps(&[at(2), at(2), at(1_002), at(1_002)]).step(at(1_003).stop()).report(position, 3).report(u64::MAX, 3);
        add(&s);
    }
    // a report during a pending wait does not end it, and its position is what the status confirms
    let mut s = pending(&[]);
    s.report(0x33, 2).steps(&[at(2), at(1_000)]).report(0x34, 1_000).steps(&[at(1_001), at(1_001), at(1_001), at(1_001)]);
    add(&s);
}

/// Every order of the four files.
fn orders() -> Vec<[u8; 4]> {
    let mut all = Vec::new();
    for n in 0..256u32 {
        let order = [0, 2, 4, 6].map(|bit| (n >> bit & 3) as u8);
        if (0..4).all(|file| order.contains(&file)) {
            all.push(order);
        }
    }
    all
}

/// One confirmation for four files.
fn files(add: Add) {
    for timing in [true, false] {
        // 02's reading: nothing is confirmed, signalled or stored before the last of the four; its own moment is stored
        let mut s = waiting(&[]);
        (s.settings.timing, s.start) = (timing, 0);
        s.file(0, 5, 11).file(1, 5, 12).file(2, 5, 13).steps(&[at(20), at(21)]).file(3, 5, 14).steps(&[at(22), at(22), at(22), at(1_022), at(6_022)]);
        add(&s);
        // one a file in every order, from a start and from files apart; and as one report to all
        for order in orders().into_iter().filter(|order| timing || order[0] == 3) {
            let mut s = waiting(&[]);
            s.settings.timing = timing;
            order.iter().for_each(|file| _ = s.file(*file, 0x20, 3));
            s.file(1, 0x50, 4).file(2, 0x30, 5).step(at(5));
            order.iter().for_each(|file| _ = s.file(*file, 0x40, 6));
            s.report(0x40, 7).report(0x60, 8).step(at(1_001)).step(at(1_002));
            add(&s);
        }
        // a file lags, is overtaken by the others, repeats itself and goes back; the smallest rises in steps
        let mut s = waiting(&[]);
        s.settings.timing = timing;
        s.file(0, 0x90, 2)
            .file(1, 0x70, 3)
            .file(2, 0x80, 4)
            .step(at(4))
            .file(3, 0x30, 5)
            .file(3, 0x30, 6)
            .file(3, 0x20, 7)
            .steps(&[at(7), at(1_007)]);
        s.file(3, 0x71, 1_008).file(1, 0x85, 1_009).file(3, u64::MAX, 1_010).steps(&[at(1_010), at(2_010), at(2_011)]);
        s.file(2, 0x90, 2_012).file(1, 0x91, 2_013).steps(&[at(2_014), at(3_014), at(8_014)]);
        add(&s);
        // a report below the start moves nothing: the status confirms the start
        let mut s = Script::new(&[]);
        s.settings.timing = timing;
        s.file(0, 3, 1).file(1, 0x0F, 1).file(2, 0x10, 1).file(3, 0, 1).steps(&[at(1), at(2), at(2)]);
        add(&s);
    }
    // 31 for every number above 3, on a fresh, a streaming and an ended run; nothing changes
    for file in [4, 5, 127, 128, 255] {
        let mut s = Script::new(&[]);
        s.settings.timing = true;
        s.file(file, 0x99, 1).step(at(1)).file(file, u64::MAX, 2).steps(&[at(2), at(3)]).file(file, 0x99, 3).steps(&[at(4), at(1_004)]);
        s.file(0, 0x20, 5).file(1, 0x20, 5).file(2, 0x20, 5).file(file, 0x20, 5).step(at(1_005)).file(3, 0x20, 6).steps(&[at(1_006), at(1_007)]);
        s.step(at(1_008).stop()).step(at(1_009).stop()).file(file, 0x99, 7).file(3, 0x99, 7).report(0x98, 8).file(file, 0, 0);
        add(&s);
        let mut s = Script::opened(&[&both()]);
        s.file(file, 0x99, 1).steps(&[at(1), at(2)]).file(file, 0x99, 1).step(at(3));
        add(&s);
    }
}

fn timings(add: Add) {
    for timing in [true, false] {
        for moment in [0, 1, 499, 500, 501, u64::MAX] {
            // before the first status, and after it
            let mut s = Script::new(&[&keepalive(0x90, 5, 1)]);
            s.settings.timing = timing;
            s.report(0x20, moment).report(0x21, moment / 2).step(at(500)).report(0x30, moment);
            s.steps(&[at(500), at(500), at(501), at(502), at(1_500), at(1_501)]).report(0x31, 7).step(at(6_502)).step(at(9_000));
            add(&s);
            let mut s = waiting(&[&keepalive(0x90, 5, 1)]);
            s.settings.timing = timing;
            s.report(0x20, moment).steps(&[at(2).unread(0), at(600).unread(0), at(600).unread(0), at(1_001).unread(0), at(1_001).unread(0)]);
            s.report(0x22, moment).steps(&[at(1_600).unread(0), at(1_600).unread(0), at(1_600).unread(0), at(2_600).unread(0), at(7_600).unread(0)]);
            add(&s);
            let mut s = offered(&[&keepalive(0x90, 5, 1)]);
            s.settings.timing = timing;
            s.report(0x20, moment).step(at(2).full()).report(0x21, moment / 2).steps(&[at(1_001).full(), at(2_001).full(), at(2_002)]);
            add(&s);
        }
    }
    // one waiting time, at the status that confirms the rise; the idle statuses after it tell none
    let mut s = waiting(&[]);
    s.settings.timing = true;
    s.report(0x20, 3).steps(&[at(2).unread(0), at(1_001), at(1_002), at(6_003), at(6_004), at(6_005), at(11_006)]);
    add(&s);
}

fn intervals(add: Add) {
    for (status, idle) in [(0, 0), (0, 5_000), (1_000, 0), (1, 1), (MOST_INTERVAL, MOST_INTERVAL), (MOST_INTERVAL, 0), (0, MOST_INTERVAL)] {
        for late in [1, 2, 1_001, MOST_INTERVAL, MOST_INTERVAL + 1] {
            let mut s = Script::new(&[&keepalive(0x90, 5, 0), &notice(4)]);
            (s.settings.status, s.settings.idle) = (status, idle);
            s.steps(&[at(1).unread(0), at(1).unread(0), at(late).unread(0), at(late).unread(0), at(late).unread(0)]).report(0x20, 1);
            s.steps(&[at(late).unread(3), at(late).unread(0), at(late), at(late), at(late).full(), at(late).full(), at(late), at(late), at(late)]);
            add(&s);
        }
    }
}

fn buffers(add: Add) {
    // limits of 0, exact ones, and buffers that are longer: bytes after the filled mark are those of older messages
    for (limit, payload) in [(0, 0), (0, 7), (10, 10), (10, 64), (18, 18), (18, 19), (40, 41), (u64::MAX, 100), (65_536, 65_536), (17, 30)] {
        let mut s = Script::new(&[&notice(0), &notice(10), &keepalive(0x90, 5, 0), &data(1, 2, 3, b"Iwording"), &notice(2), &notice(17)]);
        (s.settings.limit, s.payload) = (limit, (payload, 0xEE));
        s.step(at(1).unread(0));
        for i in 0..22 {
            s.step(Step { fill: i, room: 39 + i as u16, ..at(1) });
        }
        add(&s);
    }
    let mut s = Script::new(&[&framed(b'd', &[b'z'; 100]), &framed(b'd', &[b'z'; 101])]);
    s.steps(&[at(1), at(1), at(1).unread(104), at(1), at(1), at(1)]);
    add(&s);
    let mut s = Script::new(&[&framed(b'N', &[b'z'; 100]), &framed(b'N', &[b'z'; 101])]);
    s.steps(&[at(1), at(1), at(1).unread(104), at(1), at(1), at(1), at(1), at(1)]);
    add(&s);
}

/// What a script may have at most.
fn largest(add: Add) {
    let mut s = offered(&[&data(1, 2, 3, &[0xA7; 65_511]), &[b'N', 0, 1, 0, 5]]);
    (s.settings.limit, s.payload.0) = (65_536, 65_536);
    s.steps(&[at(1).room(4_096), at(1).room(4_096), at(1).room(4_096)]);
    add(&s);
    for (slot, names) in [(4_096, 0), (0, 255), (3_970, 0), (3_971, 0)] {
        let mut s = Script::opened(&[&both()]);
        s.slot = vec![b's'; slot];
        s.publications = vec![vec![b'p'; if names == 0 { 0 } else { 16 }]; names];
        s.output.0 = 4_096;
        s.step(at(1));
        add(&s);
    }
}

/// The service page in every state, before the first status and after the end, and where the server's end is refused.
fn pages(add: Add) {
    let mut s = Script::opened(&[&both(), &keepalive(0x16_B374_D848, 5, 1), &keepalive(0x20, 5, 0)]);
    s.page(198).step(at(1).unread(3)).page(197).step(at(1)).page(198);
    for queue in
        [at(1), at(1), at(1), at(1), at(1).full(), at(3).full(), at(4), at(4), at(4), at(4), at(4), at(4).unread(0), at(4).unread(0), at(4).unread(0)]
    {
        s.step(queue).page(198);
    }
    s.report(u64::MAX, 4).page(199).step(at(5).stop()).page(0).report(u64::MAX, 6).page(198);
    add(&s);
    // an end that the metric has and SERVER has not, since the boundary is refused: 14 to 18
    for refused in [&b"B"[..], b"C", b"M"] {
        let mut s = Script::new(&[&data(1, 5, 3, b"I"), &data(1, 9, 3, refused)]);
        s.steps(&[at(1), at(1), at(1), at(1), at(1), at(1), at(1), at(1)]).page(198);
        add(&s);
    }
    // a dropped event, and one of four files that lies behind
    let mut s = Script::new(&[&data(1, 7, 3, b"I"), &framed(b'd', b"x")]);
    s.steps(&[at(1), at(1), at(1), at(1), at(1).closed()]).page(4_096).file(0, 0x90, 1).page(198);
    s.file(1, 0x80, 1).file(2, 0x70, 1).file(3, 0x60, 1).page(198).steps(&[at(1), at(1), at(1)]).page(198);
    add(&s);
}
