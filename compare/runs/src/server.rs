//! Messages of a server: those of `vectors/`, and two whose length fields say what they like.

pub use model::framed;
pub use model::server::{begin, both as accepted, commit, data, keepalive};

pub fn headed(tag: u8, length: i32, payload: &[u8]) -> Vec<u8> {
    [&[tag][..], &length.to_be_bytes(), payload].concat()
}

pub fn message(flags: u8, position: u64, prefix: &[u8], length: i32, content: &[u8]) -> Vec<u8> {
    [&[b'M', flags][..], &position.to_be_bytes(), prefix, &[0], &length.to_be_bytes(), content].concat()
}
