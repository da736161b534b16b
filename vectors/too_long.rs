//! What the program `test_too_long` must print: openings and writers whose lent inputs have about 1,048,576 bytes together. An output has 256 bytes, or
//! 1,048,832, all filled with 7.

use crate::model::{intervals_refused, query, Settings, MOST_INTERVAL};
use crate::protocol::framed;
use crate::shared::sum;

const LIMIT: usize = 1_048_576;
const SHORT: usize = 256;
const LONG: usize = LIMIT + 256;

/// A line of a call whose inputs have so many bytes: 25, then 4, else the text at the output's front.
fn line(name: &str, lent: usize, text: &[u8], room: usize) -> String {
    let mut out = vec![7; room];
    let (refusal, count) = match (lent > LIMIT, text.len() > room) {
        (true, _) => (25, 0),
        (false, true) => (4, 0),
        (false, false) => {
            out[..text.len()].copy_from_slice(text);
            (0, text.len())
        }
    };
    format!("{name} {refusal} {count} {}\n", sum(&out))
}

fn openings() -> String {
    let mut lines = String::new();
    let calls = [
        (0, LIMIT + 1, 0, SHORT),
        (0, LIMIT, 0, SHORT),
        (0, LIMIT - 5, 2, SHORT),
        (0, LIMIT - 6, 2, SHORT),
        (MOST_INTERVAL + 1, LIMIT + 1, 0, SHORT),
        (0, 5, 2, SHORT),
        (0, LIMIT - 6, 2, LONG),
    ];
    for (status, slot, publications, room) in calls {
        let settings = Settings { status, idle: 0, limit: 65_536, stop_at: None, timing: false, binary: false };
        let (slot, publications) = (vec![b'n'; slot], vec![b"nnn".to_vec(); publications]);
        if intervals_refused(&settings) {
            lines += &format!("OPEN 1 0 {}\n", sum(&vec![7; room]));
            continue;
        }
        lines += &line("OPEN", slot.len() + publications.concat().len(), &query(&settings, &slot, &publications, 0), room);
    }
    lines
}

/// What a writer of a text writes, by the kind that its records have in the program `test_leaves`.
fn text_of(kind: &str, text: &[u8]) -> Vec<u8> {
    match kind {
        "q" => framed(b'Q', &[text, &[0]].concat()),
        "y" => framed(b'd', text),
        // ASCII is its own lossy text
        "u" | "U" => text.to_vec(),
        // a field `n` that no zero byte ends is none
        _ => b"unknown server error".to_vec(),
    }
}

/// .. and of a list of names; version 196,608 for a startup.
fn names_of(kind: &str, names: &[Vec<u8>; 2]) -> Vec<u8> {
    if kind == "o" {
        return names.join(&b',');
    }
    let body = [&196_608u32.to_be_bytes()[..], &names[0], &[0], &names[1], &[0, 0]].concat();
    [&(body.len() as u32 + 4).to_be_bytes()[..], &body].concat()
}

fn writers() -> String {
    let mut lines = String::new();
    for kind in ["q", "y", "u", "U", "e", "o", "s"] {
        for (lent, room) in [(LIMIT + 1, SHORT), (LIMIT, SHORT), (LIMIT + 1, LONG), (LIMIT, LONG)] {
            let text = match kind {
                "o" | "s" => names_of(kind, &[vec![b'n'; lent - 3], b"nnn".to_vec()]),
                _ => text_of(kind, &vec![b'n'; lent]),
            };
            lines += &line(kind, lent, &text, room);
        }
    }
    lines
}

pub fn lines() -> String {
    openings() + &writers()
}
