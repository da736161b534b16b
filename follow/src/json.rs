//! The bytes of lines: texts as JSON has them, digits, positions, and the members of objects.
use rufflesquash::Lsn;
use std::fmt::{self, Display, Write};

/// The longest text that the library's lossy writer takes.
const LOSSY: usize = 1_048_576;
/// U+FFFD, which stands for what is no UTF-8.
const MARK: &[u8] = "\u{fffd}".as_bytes();

/// Lines that are gathered.
#[derive(Default)]
pub struct Text {
    bytes: Vec<u8>,
}

impl Text {
    pub fn len(&self) -> usize {
        self.bytes.len()
    }

    pub fn capacity(&self) -> usize {
        self.bytes.capacity()
    }

    pub fn as_bytes(&self) -> &[u8] {
        &self.bytes
    }

    /// Takes the bytes out; those of `other`, whose memory is used again, take their place.
    pub fn replace(&mut self, mut other: Vec<u8>) -> Vec<u8> {
        other.clear();
        std::mem::replace(&mut self.bytes, other)
    }

    /// Adds bytes as they are.
    #[inline]
    pub fn raw(&mut self, bytes: &[u8]) {
        self.bytes.extend_from_slice(bytes);
    }

    /// Adds bytes as hexadecimal digits.
    pub fn hex(&mut self, bytes: &[u8]) {
        const DIGITS: &[u8; 16] = b"0123456789abcdef";
        self.bytes.reserve(bytes.len() * 2);
        self.bytes.extend(bytes.iter().flat_map(|b| [DIGITS[usize::from(b >> 4)], DIGITS[usize::from(b & 15)]]));
    }

    /// Adds a number in decimal digits.
    pub fn number(&mut self, mut number: u64) {
        let (mut text, mut at) = ([0; 20], 20);
        loop {
            at -= 1;
            text[at] = b'0' + (number % 10) as u8;
            number /= 10;
            if number == 0 {
                break;
            }
        }
        self.raw(&text[at..]);
    }

    /// Adds a position as PostgreSQL shows it.
    #[inline]
    pub fn position(&mut self, Lsn(position): Lsn) {
        let (mut text, mut at) = ([b'/'; 17], 17);
        for (mut half, end) in [(position as u32, 1), ((position >> 32) as u32, 0)] {
            loop {
                at -= 1;
                text[at] = b"0123456789ABCDEF"[half as usize & 15];
                half >>= 4;
                if half == 0 {
                    break;
                }
            }
            at -= end;
        }
        self.raw(&text[at..]);
    }

    /// Adds the lossy text of bytes as a JSON string; answers its marks.
    #[inline]
    pub fn quoted(&mut self, bytes: &[u8]) -> usize {
        self.raw(b"\"");
        let marks = self.escaped(bytes);
        self.raw(b"\"");
        marks
    }

    /// The same without the quotation marks around it.
    #[inline]
    pub fn escaped(&mut self, bytes: &[u8]) -> usize {
        if ascii_without_escapes(bytes) {
            self.raw(bytes);
            return 0;
        }
        self.escaped_or_lossy(bytes)
    }

    // Text that is well-formed is its own. Of other bytes the proved writer takes a megabyte; of more the standard library makes the same.
    fn escaped_or_lossy(&mut self, bytes: &[u8]) -> usize {
        if std::str::from_utf8(bytes).is_ok() {
            self.stretches(bytes);
            return 0;
        }
        if bytes.len() <= LOSSY {
            let mut text = vec![0; bytes.len() * 3];
            if let Ok(shown) = rufflesquash::lossy(bytes, &mut text) {
                self.stretches(&text[..shown.bytes]);
                return shown.marks;
            }
        }
        let mut marks = 0;
        for chunk in bytes.utf8_chunks() {
            self.stretches(chunk.valid().as_bytes());
            if !chunk.invalid().is_empty() {
                marks += 1;
                self.raw(MARK);
            }
        }
        marks
    }

    // The same of a text that may have characters which a terminal acts on, or by which a line reads otherwise than it is.
    fn stretches(&mut self, mut bytes: &[u8]) {
        while let Some((at, len, code)) = until_unsafe(bytes) {
            self.plain_stretches(&bytes[..at]);
            self.raw(b"\\u");
            self.hex(&code.to_be_bytes());
            bytes = &bytes[at + len..];
        }
        self.plain_stretches(bytes);
    }

    // Copies what needs no escape, as far as that goes, and escapes what does.
    fn plain_stretches(&mut self, mut bytes: &[u8]) {
        loop {
            let (front, rest) = bytes.split_at(until_escape(bytes));
            self.raw(front);
            let Some((byte, rest)) = rest.split_first() else { return };
            match byte {
                b'"' => self.raw(b"\\\""),
                b'\\' => self.raw(b"\\\\"),
                b'\n' => self.raw(b"\\n"),
                _ => {
                    self.raw(b"\\u00");
                    self.hex(&[*byte]);
                }
            }
            bytes = rest;
        }
    }
}

impl Write for Text {
    fn write_str(&mut self, text: &str) -> fmt::Result {
        self.raw(text.as_bytes());
        Ok(())
    }
}

// Without short cuts, so that compilers look at many bytes together.
#[inline]
fn escapes(byte: u8) -> bool {
    (byte < b' ') | (byte == b'"') | (byte == b'\\') | (byte == 0x7f)
}

#[inline]
fn is_plain(byte: u8) -> bool {
    byte.is_ascii() & !escapes(byte)
}

#[inline]
fn all_plain<const N: usize>(block: &[u8; N]) -> bool {
    block.iter().fold(true, |all, byte| all & is_plain(*byte))
}

// The first and the last so many bytes, which overlap; none where there are not so many.
#[inline]
fn ends_plain<const N: usize>(bytes: &[u8]) -> Option<bool> {
    Some(all_plain::<N>(bytes.first_chunk()?) & all_plain::<N>(bytes.last_chunk()?))
}

// Whether bytes are ASCII that needs no escape.
fn ascii_without_escapes(bytes: &[u8]) -> bool {
    const BLOCK: usize = 64;
    if let Some(last) = bytes.last_chunk::<BLOCK>() {
        let plain = |block: &[u8]| block.first_chunk::<BLOCK>().is_some_and(all_plain);
        return bytes.chunks_exact(BLOCK).all(plain) && all_plain(last);
    }
    let short = ends_plain::<32>(bytes).or_else(|| ends_plain::<16>(bytes)).or_else(|| ends_plain::<8>(bytes));
    short.unwrap_or_else(|| bytes.iter().all(|byte| is_plain(*byte)))
}

// The first character beyond ASCII that is escaped: its place, its length in UTF-8, and its number. All of these begin with one of three bytes.
fn until_unsafe(bytes: &[u8]) -> Option<(usize, usize, u16)> {
    let mut from = 0;
    loop {
        let at = from + bytes.get(from..)?.iter().position(|byte| matches!(byte, 0xc2 | 0xd8 | 0xe2))?;
        match bytes[at..] {
            [0xc2, second @ 0x80..=0x9f, ..] => return Some((at, 2, second.into())),
            [0xd8, 0x9c, ..] => return Some((at, 2, 0x61c)),
            [0xe2, 0x80, third @ (0x8e | 0x8f | 0xa8..=0xae), ..] => return Some((at, 3, 0x2000 + u16::from(third - 0x80))),
            [0xe2, 0x81, third @ 0xa6..=0xa9, ..] => return Some((at, 3, 0x2040 + u16::from(third - 0x80))),
            _ => from = at + 1,
        }
    }
}

// How many bytes stand before the first that needs an escape.
fn until_escape(bytes: &[u8]) -> usize {
    let clean = |block: &&[u8]| block.iter().fold(true, |all, byte| all & !escapes(*byte));
    let mut from = bytes.chunks_exact(32).take_while(clean).count() * 32;
    from += bytes[from..].chunks_exact(8).take_while(clean).count() * 8;
    bytes[from..].iter().position(|byte| escapes(*byte)).map_or(bytes.len(), |at| from + at)
}

/// The members of an object, with commas between. The marks of its texts are counted.
pub struct Members<'a> {
    pub out: &'a mut Text,
    pub marks: usize,
    // Whether a member stands before the next one.
    some: bool,
}

impl<'a> Members<'a> {
    pub fn new(out: &'a mut Text) -> Members<'a> {
        Members { out, marks: 0, some: false }
    }

    fn name(&mut self, name: &str) {
        self.out.raw(if self.some { &b",\""[..] } else { b"\"" });
        self.some = true;
        self.out.raw(name.as_bytes());
        self.out.raw(b"\":");
    }

    /// Members that are written already, without a comma before or after them, and their marks.
    pub fn prepared(&mut self, text: &[u8], marks: usize) {
        if self.some {
            self.out.raw(b",");
        }
        self.some = true;
        self.out.raw(text);
        self.marks += marks;
    }

    /// A number, a truth value, or JSON that is written already.
    pub fn value(&mut self, name: &str, value: impl Display) {
        self.name(name);
        // A text takes all.
        let _ = write!(self.out, "{value}");
    }

    /// A text of the server's.
    pub fn text(&mut self, name: &str, bytes: &[u8]) {
        self.name(name);
        self.marks += self.out.quoted(bytes);
    }

    /// A list of objects.
    pub fn list<T>(&mut self, name: &str, items: impl IntoIterator<Item = T>, members: impl Fn(&mut Members, T)) {
        self.name(name);
        self.out.raw(b"[");
        for (at, item) in items.into_iter().enumerate() {
            self.out.raw(if at > 0 { &b",{"[..] } else { b"{" });
            let mut object = Members::new(self.out);
            members(&mut object, item);
            object.end();
            self.out.raw(b"}");
        }
        self.out.raw(b"]");
    }

    /// How many marks the object's texts have, where there are any.
    pub fn end(mut self) {
        if self.marks > 0 {
            self.value("marks", self.marks);
        }
    }
}

#[cfg(test)]
mod tests {
    use super::*;

    fn written(write: impl Fn(&mut Text)) -> String {
        let mut text = Text::default();
        write(&mut text);
        String::from_utf8(text.bytes).unwrap()
    }

    #[test]
    fn members_of_objects() {
        let members = written(|out| {
            let mut members = Members::new(out);
            members.text("a", b"\xFF\"");
            members.list("b", [&b"x\xFF\xFF"[..], b""], |members, text| members.text("c", text));
            members.list("d", [0; 0], |_, _| {});
            members.prepared(b"\"p\":1", 1);
            members.value("e", true);
            members.end();
        });
        assert_eq!(
            members,
            "\"a\":\"\u{fffd}\\\"\",\"b\":[{\"c\":\"x\u{fffd}\u{fffd}\",\"marks\":2},{\"c\":\"\"}],\"d\":[],\"p\":1,\"e\":true,\"marks\":2"
        );
        assert_eq!(written(|out| Members::new(out).end()), "");
    }

    #[test]
    fn marks_of_a_text_above_a_megabyte() {
        for n in [LOSSY, LOSSY + 1] {
            let bytes = [&vec![b'a'; n - 2][..], b"\xFF\xC2"].concat();
            let mut text = Text::default();
            assert_eq!((text.escaped(&bytes), text.len()), (2, n + 4));
        }
    }

    // What a text is by JSON's rules, character by character.
    fn by_character(text: &str) -> String {
        let one = |c: char| match c {
            '"' => "\\\"".to_string(),
            '\\' => "\\\\".to_string(),
            '\n' => "\\n".to_string(),
            c if crate::failure::is_unsafe(c) => format!("\\u{:04x}", c as u32),
            c => c.to_string(),
        };
        text.chars().map(one).collect()
    }

    #[test]
    fn every_byte_at_every_place_of_texts_of_every_length() {
        for length in [1, 2, 7, 8, 9, 15, 16, 17, 31, 32, 33, 50, 63, 64, 65, 130] {
            for at in 0..length {
                for byte in 0..=255 {
                    let mut bytes = vec![b'x'; length];
                    bytes[at] = byte;
                    let lossy = String::from_utf8_lossy(&bytes);
                    let mut text = Text::default();
                    assert_eq!(text.escaped(&bytes), usize::from(byte >= 128), "{bytes:?}");
                    assert_eq!(std::str::from_utf8(&text.bytes), Ok(by_character(&lossy).as_str()));
                }
            }
        }
        let mixed = "\"ä\\\u{1}ß\n日本語 \"\u{7f}\"";
        assert_eq!(written(|out| assert_eq!(out.quoted(mixed.as_bytes()), 0)), format!("\"{}\"", by_character(mixed)));
    }

    // What is escaped beyond ASCII is what the lines of failures leave out, too.
    #[test]
    fn every_character() {
        for c in '\0'..='\u{ffff}' {
            let text = format!("{c}ä{c}");
            assert_eq!(written(|out| assert_eq!(out.escaped(text.as_bytes()), 0)), by_character(&text), "{c:?}");
        }
        let lossy = written(|out| assert_eq!(out.escaped(b"\xC2\x9B\xFF\xE2\x80\xAE\xE2\x80"), 2));
        assert_eq!(lossy, "\\u009b\u{fffd}\\u202e\u{fffd}");
    }

    #[test]
    fn positions_and_numbers_are_those_of_their_types() {
        let mut state = 1u64;
        for n in 0..200_000u64 {
            state = state.wrapping_mul(6_364_136_223_846_793_005).wrapping_add(1_442_695_040_888_963_407);
            for value in [n, n << 28, n << 32, state >> (n % 64), u64::MAX - n] {
                assert_eq!(written(|out| out.position(Lsn(value))), Lsn(value).to_string());
                assert_eq!(written(|out| out.number(value)), value.to_string());
            }
        }
    }
}
