//! Frames and parses a buffer of messages, with the Rattle functions and with plain Rust, results compared, beside memcpy of the same bytes.
//! `cargo bench` prints what it measured; `cargo test --benches` only compares, on short streams.

use bench::measuring;
use std::hint::black_box;
use std::time::Instant;

extern "C" {
    fn bench_read(limit: usize, unread: *const u8, unread_len: usize, payload: *mut u8, payload_len: usize) -> usize;
    fn bench_copy_data(payload: *const u8, len: usize) -> u64;
    fn bench_boundary(bytes: *const u8, len: usize) -> u64;
    fn bench_load(seed: u64, messages: u64, out: *mut u8, len: usize) -> usize;
}

const LIMIT: usize = 65_536;

/// The sum of what every message says, and how many there were.
fn rattle(bytes: &[u8], payload: &mut [u8]) -> (u64, usize) {
    let (mut at, mut sum, mut count) = (0, 0u64, 0);
    while at < bytes.len() {
        let rest = &bytes[at..];
        let taken = unsafe { bench_read(LIMIT, rest.as_ptr(), rest.len(), payload.as_mut_ptr(), payload.len()) };
        let n = taken - 5;
        sum = sum.wrapping_add(unsafe { bench_copy_data(payload.as_ptr(), n) });
        if payload[0] == b'w' {
            sum = sum.wrapping_add(unsafe { bench_boundary(payload.as_ptr().add(25), n - 25) });
        }
        at += taken;
        count += 1;
    }
    (sum, count)
}

fn u64_at(s: &[u8], i: usize) -> Option<u64> {
    Some(u64::from_be_bytes(s.get(i..i + 8)?.try_into().ok()?))
}

#[inline(never)]
fn copy_data(payload: &[u8]) -> u64 {
    match payload.first() {
        None => 10,
        Some(b'w') if payload.len() < 25 => 11,
        Some(b'w') => u64_at(payload, 1).unwrap().wrapping_add(u64_at(payload, 9).unwrap()).wrapping_add(payload.len() as u64 - 25),
        Some(b'k') if payload.len() < 18 => 12,
        Some(b'k') => u64_at(payload, 1).unwrap().wrapping_add((payload[17] != 0) as u64),
        Some(_) => 13,
    }
}

fn begin(s: &[u8]) -> Option<u64> {
    let xid = u32::from_be_bytes(s.get(17..21)?.try_into().ok()?);
    Some(u64_at(s, 1)?.wrapping_add(xid as u64))
}

fn commit(s: &[u8]) -> Option<u64> {
    u64_at(s, 18)?;
    Some(u64_at(s, 2)?.wrapping_add(u64_at(s, 10)?))
}

fn message(s: &[u8]) -> Option<u64> {
    let prefix = s.get(10..)?.iter().position(|b| *b == 0)?;
    let at = 10 + prefix + 1;
    let len = i32::from_be_bytes(s.get(at..at + 4)?.try_into().ok()?);
    let content = s.get(at + 4..at + 4 + usize::try_from(len).ok()?)?.len() as u64;
    Some(u64_at(s, 2)?.wrapping_add(prefix as u64).wrapping_add(content + (s[1] & 1) as u64))
}

#[inline(never)]
fn boundary(s: &[u8]) -> u64 {
    match s.first() {
        Some(b'B') => begin(s).unwrap_or(16),
        Some(b'C') => commit(s).unwrap_or(16),
        Some(b'M') => message(s).unwrap_or(16),
        _ => 0,
    }
}

#[inline(never)]
fn read(bytes: &[u8], payload: &mut [u8]) -> usize {
    let len = i32::from_be_bytes(bytes[1..5].try_into().unwrap());
    assert!(len >= 4 && len as usize - 4 <= LIMIT);
    let n = len as usize - 4;
    payload[..n].copy_from_slice(&bytes[5..5 + n]);
    5 + n
}

fn plain(bytes: &[u8], payload: &mut [u8]) -> (u64, usize) {
    let (mut at, mut sum, mut count) = (0, 0u64, 0);
    while at < bytes.len() {
        let taken = read(&bytes[at..], payload);
        let n = taken - 5;
        sum = sum.wrapping_add(copy_data(&payload[..n]));
        if payload[0] == b'w' {
            sum = sum.wrapping_add(boundary(&payload[25..n]));
        }
        at += taken;
        count += 1;
    }
    (sum, count)
}

/// About so many bytes of CopyData messages of `size` bytes each, as far as they can be so short: Begin, Commit, Message and other data in turn; of
/// 30 bytes, XLogData without data.
fn stream(size: usize, length: usize) -> Vec<u8> {
    let mut bytes = Vec::with_capacity(length);
    let mut i = 0u64;
    while bytes.len() < length {
        let mut data = match i % 4 {
            _ if size == 30 => Vec::new(),
            0 => vec![b'B'],
            1 => vec![b'I'],
            2 => [&b"M\x01"[..], &i.to_be_bytes(), b"wording\0", &8u32.to_be_bytes(), b"01234567"].concat(),
            _ => vec![b'C', 0],
        };
        let least = [21, 0, 0, 26][(i % 4) as usize];
        if size > 30 {
            data.resize((size - 30).max(data.len()).max(least), i as u8);
        }
        bytes.push(b'd');
        bytes.extend((4 + 25 + data.len() as u32).to_be_bytes());
        bytes.push(b'w');
        bytes.extend(i.to_be_bytes());
        bytes.extend((i * 3).to_be_bytes());
        bytes.extend((i * 5).to_be_bytes());
        bytes.extend(&data);
        i += 1;
    }
    bytes
}

/// About so many bytes of messages that the generator draws from a seed, each of 23 to 94 bytes (docs/SCOPE.md, 16).
fn load(length: usize) -> Vec<u8> {
    let messages = length / 48;
    let mut bytes = vec![0; messages * 94];
    let len = unsafe { bench_load(13, messages as u64, bytes.as_mut_ptr(), bytes.len()) };
    assert!(len >= messages * 23, "the load is refused");
    bytes.truncate(len);
    bytes
}

fn best(mut run: impl FnMut()) -> f64 {
    (0..7)
        .map(|_| {
            let t = Instant::now();
            run();
            t.elapsed().as_secs_f64()
        })
        .fold(f64::MAX, f64::min)
}

const SIZES: [usize; 8] = [30, 50, 64, 100, 300, 600, 1024, 8192];

/// Both sides' sum and count over a stream, which must be equal.
fn compared(bytes: &[u8], payload: &mut [u8]) -> (u64, usize) {
    let (ours, rust) = (rattle(bytes, payload), plain(bytes, payload));
    assert_eq!(ours, rust, "the two differ");
    ours
}

fn main() {
    if !measuring() {
        let streams = SIZES.iter().map(|size| stream(*size, 1 << 20)).chain([load(1 << 20)]);
        let messages: usize = streams.map(|bytes| compared(&bytes, &mut vec![0u8; LIMIT]).1).sum();
        println!("bench: {messages} messages, the same results on both sides");
        return;
    }
    println!(
        "{:>8} {:>9} {:>12} {:>9} {:>9} {:>9} {:>7} {:>9}",
        "bytes", "messages", "ours msg/s", "ours MB/s", "Rust MB/s", "memcpy", "ratio", "ours ns"
    );
    for size in SIZES {
        measured("", &stream(size, 64 << 20));
    }
    measured("load", &load(64 << 20));
}

/// A line: both sides on a stream, and memcpy of its bytes.
fn measured(name: &str, bytes: &[u8]) {
    let mut payload = vec![0u8; LIMIT];
    let (_, count) = compared(bytes, &mut payload);
    let ours = best(|| {
        black_box(rattle(black_box(bytes), &mut payload));
    });
    let rust = best(|| {
        black_box(plain(black_box(bytes), &mut payload));
    });
    let mut copy = vec![0u8; bytes.len()];
    let mem = best(|| {
        copy.copy_from_slice(black_box(bytes));
        black_box(&mut copy);
    });
    let mb = bytes.len() as f64 / 1e6;
    println!(
        "{:>8} {:>9} {:>12.0} {:>9.0} {:>9.0} {:>9.0} {:>7.2} {:>9.1} {name}",
        bytes.len() / count,
        count,
        count as f64 / ours,
        mb / ours,
        mb / rust,
        mb / mem,
        ours / rust,
        ours / count as f64 * 1e9
    );
}
