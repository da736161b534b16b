//! The proved archive, which has no instrumentation, against guard pages: what it is lent ends, or begins, where no byte may be read or written. GUARD
//! says for how many seconds; without it a fixed number of rounds is tried.
use rufflesquash::relations::RelationCache;
use rufflesquash::rows::Row;
use rufflesquash::{AuthRequest, Column, DataRow, Input, Lsn, MessageReader, Moment, Queue, Run, Settings};
use std::time::{Duration, Instant};

const LEN: usize = 16 * 4096;

/// Memory between two pages that cannot be touched.
struct Guarded(*mut u8);

impl Guarded {
    fn new() -> Guarded {
        // SAFETY: new memory of the test's own; its first and last page are then closed.
        unsafe {
            let (read_write, none) = (libc::PROT_READ | libc::PROT_WRITE, libc::PROT_NONE);
            let all = libc::mmap(std::ptr::null_mut(), LEN + 8192, read_write, libc::MAP_PRIVATE | libc::MAP_ANONYMOUS, -1, 0);
            assert_ne!(all, libc::MAP_FAILED);
            assert_eq!(libc::mprotect(all, 4096, none) + libc::mprotect(all.add(LEN + 4096), 4096, none), 0);
            Guarded(all.cast::<u8>().add(4096))
        }
    }

    // So many bytes, that begin or end at a closed page.
    fn lend(&mut self, len: usize, at_end: bool) -> &mut [u8] {
        let from = if at_end { LEN - len } else { 0 };
        // SAFETY: within the open pages, and borrowed from this alone.
        unsafe { std::slice::from_raw_parts_mut(self.0.add(from), len) }
    }
}

struct Draw(u64);

impl Draw {
    fn next(&mut self, below: usize) -> usize {
        self.0 ^= self.0 << 13;
        self.0 ^= self.0 >> 7;
        self.0 ^= self.0 << 17;
        (self.0 >> 16) as usize % below
    }

    // Mostly short; many bytes are zero, or small, so that counts and lengths are sometimes right.
    fn fill(&mut self, bytes: &mut [u8]) {
        let small = self.next(2) == 0;
        for byte in bytes.iter_mut() {
            *byte = match self.next(4) {
                0 | 1 if small => 0,
                2 if small => self.next(8) as u8,
                _ => self.next(256) as u8,
            };
        }
        let letters = b"RIUDTYOBCMZESKNdwkr\0";
        if let (Some(first), true) = (bytes.first_mut(), self.next(4) > 0) {
            *first = letters[self.next(letters.len())];
        }
    }
}

// Each reader and writer that takes bytes alone.
fn read_all(data: &[u8], out: &mut [u8], cache: &mut RelationCache) {
    if let Ok(Some(row)) = Row::parse(data) {
        assert!(row.columns().count() <= data.len());
        if let Row::Relation(relation) = row {
            assert!(relation.columns.iter().all(|column| column.name.len() < data.len()));
        }
    }
    let _ = cache.row(data);
    if let Ok(row) = DataRow::parse(data) {
        assert!((0..row.columns().min(20)).all(|at| !matches!(row.column(at), Column::Value(value) if value.len() > data.len())));
    }
    let _ = (AuthRequest::parse(data).is_ok(), Lsn::parse(data).is_ok());
    if let Ok(shown) = rufflesquash::lossy(data, out) {
        assert!(std::str::from_utf8(&out[..shown.bytes]).is_ok());
    }
    if let Ok(shown) = rufflesquash::error_text(data, out) {
        assert!(std::str::from_utf8(&out[..shown.bytes]).is_ok());
    }
    if let Ok(n) = rufflesquash::write_query(data, out) {
        assert!(n > data.len() && n <= out.len());
    }
}

// A reader of messages and a run take the bytes in pieces.
fn stream(draw: &mut Draw, [input, payload, output]: [&mut Guarded; 3]) {
    let settings = Settings { max_message_size: 1024, ..Settings::default() };
    let mut run = Run::already_open(&settings, Lsn(1)).unwrap();
    // Any words are those of some run.
    if draw.next(4) == 0 {
        let mut words = *run.as_words();
        words.iter_mut().for_each(|word| *word = if draw.next(3) == 0 { draw.0 } else { draw.next(200) as u64 });
        run = Run::from_words(words);
    }
    let mut reader = MessageReader::new();
    for moment in 1..20 {
        let unread = input.lend(draw.next(300), draw.next(2) == 0);
        draw.fill(unread);
        if let (Some(length), true) = (unread.get_mut(1..5), draw.next(2) == 0) {
            length.copy_from_slice(&(draw.next(60) as u32).to_be_bytes());
        }
        let into = payload.lend(draw.next(2000), draw.next(2) == 0);
        let read = reader.read(1024, unread, draw.next(9) == 0, into);
        assert!(read.taken <= unread.len());
        let queue = [Queue::Free, Queue::Full, Queue::Free, Queue::Closed][draw.next(4)];
        let given = Input { moment: Moment(moment), client_time_micros: 0, stop: draw.next(30) == 0, queue, ended: draw.next(30) == 0 };
        let (into, out) = (payload.lend(settings.payload_len(), draw.next(2) == 0), output.lend(draw.next(200), draw.next(2) == 0));
        let out_len = out.len();
        let step = run.advance(&given, unread, into, out);
        assert!(step.taken <= unread.len() && step.written <= out_len);
    }
}

#[test]
fn no_byte_beyond_what_is_lent() {
    let until = std::env::var("GUARD").ok().map(|seconds| Instant::now() + Duration::from_secs(seconds.parse().unwrap()));
    let (mut input, mut payload, mut output) = (Guarded::new(), Guarded::new(), Guarded::new());
    let (mut draw, mut cache) = (Draw(0x9E37_79B9_7F4A_7C15), RelationCache::boxed());
    let mut rounds = 0u64;
    while until.map_or(rounds < 20_000, |until| Instant::now() < until) {
        let len = if draw.next(50) == 0 { draw.next(LEN / 4) } else { draw.next(120) };
        let data = input.lend(len, draw.next(2) == 0);
        draw.fill(data);
        let out_len = if draw.next(2) == 0 { len * 3 + 64 } else { draw.next(200) };
        read_all(data, output.lend(out_len.min(LEN), draw.next(2) == 0), &mut cache);
        stream(&mut draw, [&mut input, &mut payload, &mut output]);
        rounds += 1;
        if rounds % 100 == 0 {
            cache.clear();
        }
    }
    println!("{rounds} rounds");
}
