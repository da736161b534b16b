//! Writes lossy texts with the Rattle functions, on the plain path, by the table throughout and as people call it, and with `String::from_utf8_lossy`,
//! each into a lent buffer, and finds how far a text is well-formed; results compared. MB/s.
//! `cargo bench` prints what it measured; `cargo test --benches` only compares.

use bench::measuring;
use std::hint::black_box;
use std::time::Instant;

extern "C" {
    fn bench_lossy(text: *const u8, text_len: usize, out: *mut u8, out_len: usize) -> usize;
    fn bench_lossy_by_table(text: *const u8, text_len: usize, out: *mut u8, out_len: usize) -> usize;
    fn bench_lossy_plain(text: *const u8, text_len: usize, out: *mut u8, out_len: usize) -> usize;
    fn bench_well_formed_prefix(text: *const u8, text_len: usize) -> usize;
    fn bench_well_formed_prefix_plain(text: *const u8, text_len: usize) -> usize;
}

/// As people call it.
fn default(text: &[u8], out: &mut [u8]) -> usize {
    // SAFETY: both slices are lent whole and do not overlap.
    unsafe { bench_lossy(text.as_ptr(), text.len(), out.as_mut_ptr(), out.len()) }
}

/// By the table throughout, a byte at a time.
fn table(text: &[u8], out: &mut [u8]) -> usize {
    // SAFETY: both slices are lent whole and do not overlap.
    unsafe { bench_lossy_by_table(text.as_ptr(), text.len(), out.as_mut_ptr(), out.len()) }
}

/// A part at a time.
fn plain(text: &[u8], out: &mut [u8]) -> usize {
    // SAFETY: both slices are lent whole and do not overlap.
    unsafe { bench_lossy_plain(text.as_ptr(), text.len(), out.as_mut_ptr(), out.len()) }
}

fn library(text: &[u8], out: &mut [u8]) -> usize {
    let shown = String::from_utf8_lossy(text);
    out[..shown.len()].copy_from_slice(shown.as_bytes());
    shown.len()
}

fn default_prefix(text: &[u8]) -> usize {
    // SAFETY: the slice is lent whole.
    unsafe { bench_well_formed_prefix(text.as_ptr(), text.len()) }
}

fn plain_prefix(text: &[u8]) -> usize {
    // SAFETY: the slice is lent whole.
    unsafe { bench_well_formed_prefix_plain(text.as_ptr(), text.len()) }
}

fn library_prefix(text: &[u8]) -> usize {
    std::str::from_utf8(text).map_or_else(|e| e.valid_up_to(), str::len)
}

/// So many bytes of words, again and again.
fn repeated(words: &str, length: usize) -> Vec<u8> {
    words.bytes().cycle().take(length).collect()
}

/// The last character may be cut by `repeated`: it is left out.
fn well_formed(words: &str, length: usize) -> Vec<u8> {
    let mut text = repeated(words, length);
    text.truncate(library_prefix(&text));
    text
}

/// Of every 40 bytes one is FF, and a sequence of three bytes lacks its last one.
fn garbled(length: usize) -> Vec<u8> {
    let mut text = well_formed("Die Ausstellung öffnet um zehn Uhr, η έκθεση ανοίγει στις δέκα. ", length);
    for i in (0..text.len()).step_by(40) {
        text[i] = 0xFF;
    }
    for i in (20..text.len().saturating_sub(2)).step_by(40) {
        text[i..i + 2].copy_from_slice(&[0xE2, 0x82]);
    }
    text
}

/// Bytes a second, the best of five runs over the text until 64 MB are done.
fn speed(text: &[u8], mut call: impl FnMut(&[u8]) -> usize) -> f64 {
    let turns = (64_000_000 / text.len().max(1)).max(1);
    let mut best = f64::MAX;
    for _ in 0..5 {
        let begun = Instant::now();
        for _ in 0..turns {
            black_box(call(black_box(text)));
        }
        best = best.min(begun.elapsed().as_secs_f64());
    }
    (turns * text.len()) as f64 / best / 1e6
}

fn compared(name: &str, text: &[u8]) {
    let mut theirs = vec![0; 3 * text.len()];
    let length = library(text, &mut theirs);
    for path in [plain, table, default] {
        let mut ours = vec![0; 3 * text.len()];
        assert_eq!(path(text, &mut ours), length, "{name}");
        assert_eq!(ours, theirs, "{name}");
    }
    assert_eq!(plain_prefix(text), library_prefix(text), "{name}");
    assert_eq!(default_prefix(text), library_prefix(text), "{name}");
}

fn main() {
    let check = !measuring();
    type Maker = fn(usize) -> Vec<u8>;
    let texts: [(&str, Maker); 7] = [
        ("ASCII", |n| well_formed("The exhibition opens at ten o'clock in the great hall. ", n)),
        ("German", |n| well_formed("Die Ausstellung öffnet um zehn Uhr im großen Saal für Gäste. ", n)),
        ("Greek", |n| well_formed("Η έκθεση ανοίγει στις δέκα στη μεγάλη αίθουσα. ", n)),
        ("Polish", |n| well_formed("Wystawa zostanie otwarta o dziesiątej w głównej sali, żółw też. ", n)),
        ("Japanese", |n| well_formed("展覧会は十時に大広間で始まります。", n)),
        ("quoted", |n| well_formed("Die „Ausstellung“ öffnet um 10 Uhr – für 5 € im großen Saal… ", n)),
        ("garbled", garbled),
    ];
    if !check {
        println!("| text | bytes | plain | table | default | library | plain / default, time | table / default, time | default / library, time | prefix, plain | prefix, default | `valid_up_to` |");
        println!("|---|---|---|---|---|---|---|---|---|---|---|---|");
    }
    for (name, make) in texts {
        for length in [100, 10_000, 1_000_000] {
            let text = make(length);
            compared(name, &text);
            if check {
                continue;
            }
            let mut out = vec![0; 3 * text.len()];
            let [plain, table, default, library] = [plain, table, default, library].map(|path| speed(&text, |text| path(text, &mut out)));
            // Of a text that is soon ill-formed there is nothing to measure.
            let prefix = match library_prefix(&text) == text.len() {
                true => [plain_prefix, default_prefix, library_prefix].map(|path| format!("{:.0}", speed(&text, path))).join(" | "),
                false => "- | - | -".to_string(),
            };
            let times = [default / plain, default / table, library / default].map(|ratio| format!("{ratio:.2}")).join(" | ");
            println!("| {name} | {length} | {plain:.0} | {table:.0} | {default:.0} | {library:.0} | {times} | {prefix} |");
        }
    }
    if check {
        println!("bench: lossy texts, three paths and the library alike");
    }
}
