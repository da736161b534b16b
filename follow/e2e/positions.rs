//! Position texts, judged by the server's own type pg_lsn and by the library.
//!
//! positions: prints texts, one in hexadecimal digits a line. positions TEXTS ANSWERS: compares the library's answer to each of these texts with the
//! server's, `refused`, or the value and the spelling.
use rufflesquash::Lsn;
use std::{env, fs, process};

const GOOD: [&str; 9] = ["0/0", "1/2", "a/f", "aB/Cd", "16/B374D848", "16/b374d848", "00000000/00000001", "FFFFFFFF/FFFFFFFF", "ffffffff/0"];
const STRANGE: &[u8] = b"+- \t\n\r\x0B\x0C\0xXgG_./:@`,\\'\"\x7F\x80\xC3\xFF";

/// Marsaglia's xorshift.
struct Draw(u64);

impl Draw {
    fn next(&mut self) -> u64 {
        self.0 ^= self.0 << 13;
        self.0 ^= self.0 >> 7;
        self.0 ^= self.0 << 17;
        self.0
    }

    fn below(&mut self, n: usize) -> usize {
        (self.next() % n as u64) as usize
    }

    fn pick(&mut self, from: &[u8]) -> u8 {
        from[self.below(from.len())]
    }
}

/// Good texts with every strange byte put in, and put in another's place, everywhere; and cut everywhere.
fn damaged() -> Vec<Vec<u8>> {
    let mut texts = Vec::new();
    for good in GOOD.map(str::as_bytes) {
        texts.push(good.to_vec());
        for place in 0..=good.len() {
            texts.push(good[..place].to_vec());
            texts.push(good[place..].to_vec());
            for byte in STRANGE {
                texts.push([&good[..place], &[*byte], &good[place..]].concat());
                if place < good.len() {
                    texts.push([&good[..place], &[*byte], &good[place + 1..]].concat());
                }
            }
        }
    }
    texts
}

/// Parts of every length from none to two more than are allowed, and of every byte value.
fn lengths_and_bytes() -> Vec<Vec<u8>> {
    let mut texts = Vec::new();
    for digit in ["0", "1", "9", "A", "F", "a", "f"] {
        for (high, low) in (0..=10).flat_map(|high| (0..=10).map(move |low| (high, low))) {
            texts.push(format!("{}/{}", digit.repeat(high), digit.repeat(low)).into_bytes());
        }
        for sign in ["+", "-", " "] {
            for length in 0..=9 {
                texts.push(format!("{sign}{}/1", digit.repeat(length)).into_bytes());
                texts.push(format!("1/{sign}{}", digit.repeat(length)).into_bytes());
                texts.push(format!("{}{sign}/1", digit.repeat(length)).into_bytes());
                texts.push(format!("1/{}{sign}", digit.repeat(length)).into_bytes());
            }
        }
    }
    for byte in 0..=255u8 {
        texts.extend([vec![byte], vec![byte, b'/', b'7'], vec![b'7', b'/', byte], vec![b'7', byte, b'7']]);
    }
    texts
}

fn drawn(draw: &mut Draw) -> Vec<u8> {
    let mut text = Vec::new();
    for part in 0..2 {
        if part == 1 && draw.below(20) > 0 {
            text.push(b'/');
        }
        let length = draw.below(12);
        text.extend((0..length).map(|_| draw.pick(b"0123456789abcdefABCDEF")));
    }
    if draw.below(4) == 0 {
        let place = draw.below(text.len() + 1);
        text.insert(place, draw.pick(STRANGE));
    }
    text
}

fn texts() -> Vec<Vec<u8>> {
    let mut draw = Draw(0x7067_5F6C_736E_2026);
    let mut texts = damaged();
    texts.extend(lengths_and_bytes());
    texts.extend((0..3000).map(|_| drawn(&mut draw)));
    texts
}

fn unhex(digits: &str) -> Vec<u8> {
    (0..digits.len() / 2).map(|i| u8::from_str_radix(&digits[2 * i..2 * i + 2], 16).expect("hexadecimal digits")).collect()
}

/// What the library says, as the server's answers are spelled.
fn answer(text: &[u8]) -> String {
    Lsn::parse(text).map_or("refused".to_string(), |p| format!("{} {p}", p.0))
}

fn compare(texts: &str, answers: &str) {
    let (texts, answers): (Vec<&str>, Vec<&str>) = (texts.lines().collect(), answers.lines().collect());
    assert_eq!(texts.len(), answers.len(), "an answer for each text");
    for (digits, said) in texts.iter().zip(&answers) {
        let ours = answer(&unhex(digits));
        if ours != *said {
            eprintln!("positions: {digits} ({:?}): the server {said}, the library {ours}", String::from_utf8_lossy(&unhex(digits)));
            process::exit(1);
        }
    }
    let refused = answers.iter().filter(|said| **said == "refused").count();
    let accepted = answers.len() - refused;
    assert!(accepted >= 1000 && refused >= 1000, "{accepted} accepted, {refused} refused");
    println!("{accepted} position texts accepted with the same value, {refused} refused, by the server and by the library alike");
}

fn main() {
    let files: Vec<String> = env::args().skip(1).map(|file| fs::read_to_string(file).expect("a file")).collect();
    match &files[..] {
        [texts, answers] => compare(texts, answers),
        _ => {
            for text in texts() {
                println!("{}", text.iter().map(|b| format!("{b:02x}")).collect::<String>());
            }
        }
    }
}
