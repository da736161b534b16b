//! Opening a run with names around the bytes that a call may be lent. The Rust writes any query, so over the bound the project is played by itself.

use crate::draw::Draw;
use crate::rust_leaves;
use crate::scenario::LENT;
use rufflesquash::{Lsn, Refusal, Run, Settings, Text};

/// A slot and publications, so many bytes together.
fn names(draw: &mut Draw, together: usize) -> (String, Vec<String>) {
    let slot = if draw.once_in(4) { draw.pick(&[0, together]) } else { draw.length(together) };
    let (mut left, mut publications) = (together - slot, Vec::new());
    while left > 0 || draw.once_in(3) {
        let length = if draw.once_in(3) { left } else { draw.length(left) };
        left -= length;
        publications.push(if draw.once_in(4) { "'" } else { "p" }.repeat(length));
    }
    ("s".repeat(slot), publications)
}

/// The Rust's query of a slot, publications and position 0/0.
fn query(slot: &str, publications: &[String]) -> Vec<u8> {
    let value = rust_leaves::option_value(publications.to_vec());
    rust_leaves::write_simple_query(&format!(
        "START_REPLICATION SLOT {slot} LOGICAL 0/0 (proto_version '1', publication_names '{value}', messages 'true')"
    ))
}

/// Opens so many runs with names of three bytes under the bound to three over it, and outputs that suffice, just do not, or have no byte.
pub fn compare_bounds(count: u64, seed: u64) -> Result<[u64; 3], String> {
    let mut draw = Draw::new(seed);
    let (mut met, mut out) = ([0; 3], Vec::new());
    for _ in 0..count {
        let together = LENT - 3 + draw.size(7);
        let (slot, publications) = names(&mut draw, together);
        let due = query(&slot, &publications);
        let room = draw.pick(&[due.len(), due.len() + 9, due.len() - 1, 0]);
        out.clear();
        out.resize(room, 0xA5);
        let lent: Vec<Text> = publications.iter().map(|name| Text::from(name.as_str())).collect();
        let answer = Run::open(&Settings::default(), slot.as_bytes(), &lent, Lsn(0), Lsn(0), &mut out).map(|(_, n)| n);
        let wanted = match (together > LENT, room < due.len()) {
            (true, _) => Err(Refusal::InputTooLong),
            (_, true) => Err(Refusal::OutputTooShort),
            _ => Ok(due.len()),
        };
        let written = wanted.map_or(0, |n| n);
        if answer != wanted || out[..written] != due[..written] || out[written..].iter().any(|b| *b != 0xA5) {
            let lengths: Vec<usize> = publications.iter().map(String::len).collect();
            return Err(format!("a slot of {} bytes and publications of {lengths:?}, an output of {room}: {answer:?}, not {wanted:?}", slot.len()));
        }
        met[wanted.map_or_else(|refusal| if refusal == Refusal::InputTooLong { 2 } else { 1 }, |_| 0)] += 1;
    }
    Ok(met)
}
