//! Makes what the program `utf8_table` must print: the state after each byte, as the standard library judges byte strings. A state is known by what
//! it takes: of each byte that may come next, whether the character is whole then, goes on, or is ill-formed.
//!
//! Use: utf8_table STDOUT-FILE

#[derive(Clone, Copy, PartialEq)]
enum Judged {
    Whole,
    GoesOn,
    Ill,
}

fn judged(bytes: &[u8]) -> Judged {
    match std::str::from_utf8(bytes) {
        Ok(_) => Judged::Whole,
        Err(e) if e.error_len().is_none() => Judged::GoesOn,
        Err(_) => Judged::Ill,
    }
}

fn with(bytes: &[u8], next: u8) -> Vec<u8> {
    [bytes, &[next]].concat()
}

/// What may follow these bytes, one byte after the other, until the character is whole.
fn taken(bytes: &[u8]) -> Vec<Vec<Judged>> {
    let next: Vec<Judged> = (0..=255).map(|b| judged(&with(bytes, b))).collect();
    let going = (0..=255).find(|b| judged(&with(bytes, *b)) == Judged::GoesOn);
    let after = going.map_or(Vec::new(), |b| taken(&with(bytes, b)));
    [vec![next], after].concat()
}

fn main() {
    // one, two, three continuation bytes due, then after E0, ED, F0, F4
    let begun: [&[u8]; 8] = [&[], &[0xC2], &[0xE1], &[0xF1], &[0xE0], &[0xED], &[0xF0], &[0xF4]];
    let mut text = String::new();
    for (state, bytes) in begun.iter().enumerate() {
        for byte in 0..=255u8 {
            let after = with(bytes, byte);
            let entry = match judged(&after) {
                Judged::Whole => 0,
                Judged::GoesOn => (1..8).find(|q| taken(begun[*q]) == taken(&after)).unwrap(),
                Judged::Ill => 8,
            };
            let place = 256 * state + byte as usize;
            text += &format!("{entry},{}", if place % 32 == 31 { '\n' } else { ' ' });
        }
    }
    std::fs::write(std::env::args().nth(1).unwrap(), text).unwrap();
}
