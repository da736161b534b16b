//! What a host writes and reads before and after the stream.

mod common;

use common::*;
use rufflesquash::{error_field, write_copy_done, write_query, write_startup, write_status, write_terminate};
use rufflesquash::{ErrorField, Kind, Lsn, Message, MessageReader, Query, QueryAnswer, Refusal, Text};

fn written(write: impl Fn(&mut [u8]) -> Result<usize, Refusal>) -> Vec<u8> {
    let mut out = [FILL; 128];
    let n = write(&mut out).unwrap();
    assert!(out[n..].iter().all(|&b| b == FILL));
    let mut short = vec![FILL; n - 1];
    assert_eq!(write(&mut short), Err(Refusal::OutputTooShort));
    assert!(short.iter().all(|&b| b == FILL));
    out[..n].to_vec()
}

#[test]
fn messages_of_the_client() {
    let startup = written(|out| write_startup(&[["user", "me"].map(Text::from), ["a", ""].map(Text::from)], out));
    assert_eq!(startup, b"\0\0\0\x14\0\x03\0\0user\0me\0a\0\0\0");
    assert_eq!(written(|out| write_query(b"SELECT 1", out)), message(b'Q', b"SELECT 1\0"));
    assert_eq!(written(write_copy_done), message(b'c', b""));
    assert_eq!(written(write_terminate), message(b'X', b""));
    let position = 0x16_B374_D848u64;
    let times: Vec<u8> = (-7i64).to_be_bytes().to_vec();
    for reply in [false, true] {
        let body = [&b"r"[..], &position.to_be_bytes().repeat(3), &times, &[reply as u8]].concat();
        assert_eq!(written(|out| write_status(Lsn(position), -7, reply, out)), message(b'd', &body));
    }
    let long = vec![b'a'; 1_048_577];
    assert_eq!(write_query(&long, &mut [0; 8]), Err(Refusal::InputTooLong));
    assert_eq!(write_startup(&[[Text::from("user"), Text::new(&long)]], &mut [0; 8]), Err(Refusal::InputTooLong));
}

#[test]
fn a_reader_cuts_bytes_into_messages() {
    let bytes = [message(b'R', &[0; 4]), message(b'Z', b"I"), message(b'N', b"")].concat();
    for size in 1..=bytes.len() {
        let (mut reader, mut payload) = (MessageReader::new(), [FILL; 8]);
        let mut messages = Vec::new();
        for piece in bytes.chunks(size) {
            let mut unread = piece;
            while !unread.is_empty() {
                let read = reader.read(8, unread, false, &mut payload);
                assert_eq!(read.refusal, None);
                messages.extend(read.message.map(|m| (m.tag, m.payload.to_vec())));
                unread = &unread[read.taken..];
            }
        }
        assert_eq!(messages, [(b'R', vec![0; 4]), (b'Z', b"I".to_vec()), (b'N', vec![])], "pieces of {size}");
        assert_eq!(reader.read(8, b"", true, &mut payload).refusal, Some(Refusal::EofInHeader));
    }
}

#[test]
fn a_reader_refuses() {
    let refused = |bytes: &[u8], ended, room: usize| {
        let (mut reader, mut payload) = (MessageReader::new(), vec![FILL; room]);
        let read = reader.read(8, bytes, ended, &mut payload);
        (read.refusal, read.taken, read.message.is_some())
    };
    assert_eq!(refused(b"Z\0\0\0\x05I", false, 7), (Some(Refusal::PayloadBufferTooShort), 0, false));
    assert_eq!(refused(b"Z\0\0\0\x03I", false, 8), (Some(Refusal::InvalidLength), 5, false));
    assert_eq!(refused(b"Z\0\0\0\x0DI", false, 8), (Some(Refusal::MessageTooLarge), 5, false));
    assert_eq!(refused(b"", true, 8), (Some(Refusal::EofInHeader), 0, false));
    // After 7 a reader is shut, after 6 it is at a new header.
    for (header, next) in [(b"Z\0\0\0\x0D", Some(Refusal::MessageTooLarge)), (b"Z\0\0\0\x03", None)] {
        let (mut reader, mut payload) = (MessageReader::new(), [FILL; 8]);
        assert!(reader.read(8, header, false, &mut payload).refusal.is_some());
        let read = reader.read(8, b"Z\0\0\0\x05I", false, &mut payload);
        assert_eq!((read.refusal, read.message.is_some()), (next, next.is_none()));
    }
    let (mut reader, mut payload) = (MessageReader::new(), [FILL; 8]);
    assert_eq!(reader.read(8, b"Z\0\0\0\x06I", true, &mut payload).taken, 6);
    assert_eq!(reader.read(8, b"", true, &mut payload).refusal, Some(Refusal::EofInPayload));
}

const ERROR: &[u8] = b"SERROR\0C42704\0Mno such slot\0\0";

#[test]
fn a_simple_query_is_folded() {
    let (mut query, mut error) = (Query::new(), [FILL; 64]);
    let columns = row(&[Some(b"one"), None]);
    let mut answers = |tag, payload: &[u8]| match query.message(Message { tag, payload }, &mut error) {
        QueryAnswer::Failed { payload, len } => format!("failed {len} {}", String::from_utf8_lossy(payload)),
        other => format!("{other:?}"),
    };
    assert_eq!(answers(b'T', b""), "More");
    assert_eq!(answers(b'D', &columns), "Row(2)");
    assert_eq!(answers(b'C', b"SELECT 1\0"), "More");
    assert_eq!(answers(b'Z', b"I"), "Ready");
    assert_eq!(answers(b'E', ERROR), "More");
    assert_eq!(answers(b'D', &columns), "Row(2)");
    assert_eq!(answers(b'Z', b"I"), format!("failed {} {}", ERROR.len(), String::from_utf8_lossy(ERROR)));
    assert_eq!(answers(b'Z', b"I"), "Ready");
    assert_eq!(answers(b'D', &columns[..5]), "Refused(MalformedDataRow)");
    // A buffer that is too short for the error holds its front.
    let (mut query, mut error) = (Query::new(), [FILL; 6]);
    assert_eq!(query.message(Message { tag: b'E', payload: ERROR }, &mut error), QueryAnswer::More);
    assert_eq!(query.message(Message { tag: b'Z', payload: b"I" }, &mut error), QueryAnswer::Failed { payload: b"SERROR", len: ERROR.len() });
}

#[test]
fn fields_of_an_error() {
    use ErrorField::*;
    let all = [Severity, Code, Message, Detail, Hint, Position, Where, Schema, Table, Column, DataType, Constraint, File, Line, Routine];
    let letters = b"SCMDHPWstcdnFLR";
    for (field, letter) in all.into_iter().zip(letters) {
        let payload = [&[*letter][..], b"old\0", &[*letter], b"value\0\0"].concat();
        assert_eq!(error_field(&payload, field), Some(&b"value"[..]), "{field:?}");
        for other in all.into_iter().filter(|other| *other != field) {
            assert_eq!(error_field(&payload, other), None, "{field:?} {other:?}");
        }
    }
    assert_eq!(error_field(ERROR, Code), Some(&b"42704"[..]));
    assert_eq!(error_field(b"", Code), None);
}

#[test]
fn kinds_of_refusals() {
    let kind = |number: u64| Refusal::from_number(number).unwrap().kind();
    for number in 1..=25 {
        let expected = match number {
            1..=5 | 25 => Kind::Usage,
            8 | 9 => Kind::Io,
            7 => Kind::MessageTooLarge,
            19 => Kind::Server,
            22..=24 => Kind::ParseLsn,
            _ => Kind::Protocol,
        };
        assert_eq!(kind(number), expected, "{number}");
        assert_eq!(Refusal::from_number(number).unwrap().is_transient(), matches!(number, 8 | 9), "{number}");
    }
    assert_eq!((Refusal::Unknown.kind(), Refusal::Unknown.is_transient()), (Kind::Usage, false));
}
