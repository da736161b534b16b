//! Makes the file of stored positions that the program `positions` is run on, and what it must print. See README.md beside this file.
//!
//! Use: positions STDIN-FILE STDOUT-FILE

mod position;
#[allow(dead_code)]
mod shared;

use position::position_of;
use shared::{display, Draw};

/// What stands before each line feed, and what stands after the last one, where that is anything.
fn lines_of(file: &[u8]) -> Vec<&[u8]> {
    let mut lines: Vec<&[u8]> = file.split(|c| *c == b'\n').collect();
    if lines.last().is_some_and(|line| line.is_empty()) {
        lines.pop();
    }
    lines
}

/// Display's spelling, or the refusal's number, a space and the line. A line of more than 255 bytes is judged by the first 255.
fn printed(line: &[u8]) -> Vec<u8> {
    let shown = match position_of(&line[..line.len().min(255)]) {
        Ok(v) => display(v).into_bytes(),
        Err(n) => [format!("{n} ").as_bytes(), line].concat(),
    };
    [&shown[..], b"\n"].concat()
}

/// Lines that part right from wrong, by hand.
const FIXED: [&[u8]; 40] = [
    b"16/B374D848",
    b"16/b374d848",
    b"0/0",
    b"00000000/00000000",
    b"FFFFFFFF/FFFFFFFF",
    b"ffffffff/ffffffff",
    b"aB/Cd",
    b"a/f",
    b"1/2",
    b"01/002",
    b"",
    b"/",
    b"//",
    b"1",
    b"16B374D848",
    b"/1",
    b"1/",
    b"+1/2",
    b"1/+2",
    b"+0/",
    b"+/1",
    b"-1/1",
    b"1/-1",
    b"100000000/0",
    b"0/100000000",
    b"000000000/0",
    b"0/000000000",
    b"FFFFFFFFF/1",
    b" 1/2",
    b"1/2 ",
    b"1 /2",
    b"1/ 2",
    b"\t1/2",
    b"1/2\r",
    b"\r",
    b"1/2/3",
    b"0x1/2",
    b"g/1",
    b"1\0/2",
    b"1/2\0",
];

/// A part of a drawn line: good ones of every length, and others.
fn part(draw: &mut Draw) -> Vec<u8> {
    let length = draw.below(11) as usize;
    let mut part: Vec<u8> = (0..length).map(|_| *draw.pick(b"0123456789abcdefABCDEF")).collect();
    match draw.below(8) {
        0 => part.insert(0, *draw.pick(b"+- 0xX_")),
        1 => part.push(*draw.pick(b" \r\tgG/+-")),
        2 if length > 0 => part[draw.below(length as u64) as usize] = draw.next() as u8,
        _ => {}
    }
    part
}

fn drawn(draw: &mut Draw) -> Vec<u8> {
    match draw.below(8) {
        0 => display(draw.next() >> draw.below(64)).into_bytes(),
        1 => display(draw.next() >> draw.below(64)).to_lowercase().into_bytes(),
        2 => (0..draw.below(40)).map(|_| draw.next() as u8).collect(),
        3 => part(draw),
        _ => [part(draw), part(draw)].join(&b'/'),
    }
}

fn file() -> Vec<u8> {
    let mut draw = Draw(0x504F_5349_5449_4F4E);
    let mut lines: Vec<Vec<u8>> = FIXED.iter().map(|line| line.to_vec()).collect();
    for (high, low) in (0..=10).flat_map(|high| (0..=10).map(move |low| (high, low))) {
        for digit in ["0", "F", "a"] {
            lines.push(format!("{}/{}", digit.repeat(high), digit.repeat(low)).into_bytes());
        }
    }
    for b in (0..=255u8).filter(|b| *b != b'\n') {
        lines.extend([vec![b, b'/', b'7'], vec![b'7', b'/', b], vec![b]]);
    }
    // around the 255 bytes of a stored line, and longer than one read
    for length in [250, 254, 255, 256, 257, 300, 511, 512, 513, 1000, 70_000] {
        lines.push(b"0123456789abcdef/".iter().copied().cycle().take(length).collect());
        lines.push(vec![b'x'; length]);
        lines.push([b"1/2".to_vec(), vec![b' '; length - 3]].concat());
    }
    lines.extend((0..3000).map(|_| drawn(&mut draw)));
    // the last line has no line feed
    lines.push(b"1A/2B".to_vec());
    lines.join(&b'\n')
}

fn main() {
    let args: Vec<String> = std::env::args().collect();
    let file = file();
    let lines = lines_of(&file);
    let output: Vec<u8> = lines.iter().flat_map(|line| printed(line)).collect();
    let accepted = lines.iter().filter(|line| position_of(line).is_ok()).count();
    let refused = |n| lines.iter().filter(|line| position_of(line) == Err(n)).count();
    assert!([accepted, refused(22), refused(23), refused(24)].iter().all(|n| *n >= 300), "too few lines of a kind");
    assert!(file.len() > 2 * 65_536 && output.len() < 1_000_000, "{} and {} bytes", file.len(), output.len());
    // other ends of a file: nothing, a line feed alone, and a line feed at the end
    for (file, expected) in [(&b""[..], &b""[..]), (b"\n", b"22 \n"), (b"1/2\n", b"1/2\n"), (b"1/2\n\n", b"1/2\n22 \n"), (b"x", b"22 x\n")] {
        assert_eq!(lines_of(file).into_iter().flat_map(printed).collect::<Vec<u8>>(), expected);
    }
    std::fs::write(&args[1], &file).unwrap();
    std::fs::write(&args[2], &output).unwrap();
    let (total, n22, n23, n24) = (lines.len(), refused(22), refused(23), refused(24));
    println!("vectors: positions, {total} lines, {accepted} accepted, 22 to 24: {n22} {n23} {n24}, {} bytes", file.len());
}
