//! Messages of a server, put together by their layouts.

use crate::protocol::framed;

pub fn keepalive(end: u64, time: i64, reply: u8) -> Vec<u8> {
    framed(b'd', &[&b"k"[..], &end.to_be_bytes(), &time.to_be_bytes(), &[reply]].concat())
}

pub fn data(start: u64, end: u64, time: i64, bytes: &[u8]) -> Vec<u8> {
    framed(b'd', &[&b"w"[..], &start.to_be_bytes(), &end.to_be_bytes(), &time.to_be_bytes(), bytes].concat())
}

pub fn begin(end: u64, time: i64, xid: u32) -> Vec<u8> {
    [&b"B"[..], &end.to_be_bytes(), &time.to_be_bytes(), &xid.to_be_bytes()].concat()
}

pub fn commit(flags: u8, position: u64, end: u64, time: i64) -> Vec<u8> {
    [&[b'C', flags][..], &position.to_be_bytes(), &end.to_be_bytes(), &time.to_be_bytes()].concat()
}

pub fn message(flags: u8, position: u64, prefix: &[u8], content: &[u8]) -> Vec<u8> {
    let length = (content.len() as u32).to_be_bytes();
    [&[b'M', flags][..], &position.to_be_bytes(), prefix, &[0], &length, content].concat()
}

pub fn error() -> Vec<u8> {
    framed(b'E', b"SFATAL\0C57P01\0Mterminating\0\0")
}

pub fn both() -> Vec<u8> {
    framed(b'W', &[0, 0, 0])
}

pub fn notice(n: usize) -> Vec<u8> {
    framed(b'N', &vec![b'n'; n])
}
