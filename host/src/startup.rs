//! What a host reads before the stream: messages, authentication requests, the answers to a simple query, errors.

use crate::archive::assert_archive;
use crate::ffi;
use crate::types::part;
use crate::Refusal;

/// A message of the server; its payload lies at the front of the buffer that was lent to the read.
#[derive(Clone, Copy, Debug, PartialEq, Eq)]
pub struct Message<'a> {
    /// Its tag.
    pub tag: u8,
    /// What follows its length.
    pub payload: &'a [u8],
}

/// What a read answers.
#[derive(Clone, Copy, Debug, PartialEq, Eq)]
#[must_use = "the read has taken bytes, and may have a message"]
pub struct Read<'a> {
    /// Why the bytes were refused: 3 changes nothing; after 6 the next byte begins a message; after 7 every further read is refused; 8 and 9 tell
    /// that the input has ended.
    pub refusal: Option<Refusal>,
    /// How many of the unread bytes were taken.
    pub taken: usize,
    /// The message that is whole now.
    pub message: Option<Message<'a>>,
}

/// Cuts the server's bytes into messages, as the steps of a run do. It can be copied and kept.
///
/// ```
/// use rufflesquash::{Message, MessageReader};
///
/// let (mut reader, mut payload) = (MessageReader::new(), [0; 1024]);
/// let first = reader.read(1024, b"Z\0\0", false, &mut payload);
/// assert_eq!((first.taken, first.message), (3, None));
/// let second = reader.read(1024, b"\0\x05I", false, &mut payload);
/// assert_eq!(second.message, Some(Message { tag: b'Z', payload: b"I" }));
/// ```
#[derive(Clone, Debug, PartialEq, Eq)]
pub struct MessageReader {
    words: [u64; ffi::READER_WORDS],
}

impl Default for MessageReader {
    fn default() -> MessageReader {
        MessageReader::new()
    }
}

impl MessageReader {
    /// A reader at the beginning of a message.
    pub fn new() -> MessageReader {
        assert_archive();
        MessageReader { words: [0; ffi::READER_WORDS] }
    }

    /// Takes unread bytes until a message is whole or none are left. `payload` has at least `max_message_size` bytes and is lent unchanged to every
    /// read; `ended` says that no byte follows those that are unread, and counts only where none are.
    pub fn read<'a>(&mut self, max_message_size: usize, unread: &[u8], ended: bool, payload: &'a mut [u8]) -> Read<'a> {
        let answer = ffi::read(&mut self.words, max_message_size, unread, ended, payload);
        let message = Message { tag: answer[ffi::READ_TAG] as u8, payload: part(payload, 0, answer[ffi::READ_LEN]) };
        Read {
            refusal: Refusal::of_word(answer[ffi::READ_REFUSAL]),
            taken: answer[ffi::READ_TAKEN] as usize,
            message: (answer[ffi::READ_WHOLE] != 0).then_some(message),
        }
    }
}

/// What a message means to a simple query.
#[derive(Clone, Copy, Debug, PartialEq, Eq)]
pub enum QueryAnswer<'a> {
    /// Nothing for the caller; the query goes on.
    More,
    /// The message is a row of so many columns: [`DataRow::parse`] reads it. The query goes on.
    Row(usize),
    /// The query has ended well.
    Ready,
    /// The query has ended with an error of the server's.
    Failed {
        /// The error's payload, as far as the error buffer holds it.
        payload: &'a [u8],
        /// How many bytes it had.
        len: usize,
    },
    /// A row is malformed (20); the query has ended.
    Refused(Refusal),
}

/// A simple query whose answers are awaited. It can be copied and kept.
///
/// ```
/// use rufflesquash::{Column, DataRow, Message, Query, QueryAnswer};
///
/// let (mut query, mut error) = (Query::new(), [0; 256]);
/// let row = Message { tag: b'D', payload: b"\0\x01\0\0\0\x02ok" };
/// assert_eq!(query.message(row, &mut error), QueryAnswer::Row(1));
/// assert_eq!(DataRow::parse(row.payload)?.column(0), Column::Value(b"ok"));
/// assert_eq!(query.message(Message { tag: b'Z', payload: b"I" }, &mut error), QueryAnswer::Ready);
/// # Ok::<(), rufflesquash::Refusal>(())
/// ```
#[derive(Clone, Debug, PartialEq, Eq)]
pub struct Query {
    words: [u64; ffi::QUERY_WORDS],
}

impl Default for Query {
    fn default() -> Query {
        Query::new()
    }
}

impl Query {
    /// A query of which no message came yet.
    pub fn new() -> Query {
        assert_archive();
        Query { words: [0; ffi::QUERY_WORDS] }
    }

    /// Takes a whole message. `error` keeps the server's error until the query ends, and is lent unchanged to every call.
    pub fn message<'a>(&mut self, message: Message, error: &'a mut [u8]) -> QueryAnswer<'a> {
        let answer = ffi::query_message(&mut self.words, message.tag, message.payload, error);
        let (value, len) = (answer[ffi::FOLD_VALUE], answer[ffi::FOLD_ERROR_LEN] as usize);
        match answer[ffi::FOLD_KIND] {
            ffi::FOLD_MORE => QueryAnswer::More,
            ffi::FOLD_ROW => QueryAnswer::Row(value as usize),
            ffi::FOLD_READY => QueryAnswer::Ready,
            ffi::FOLD_FAILED => QueryAnswer::Failed { payload: part(error, 0, value), len },
            ffi::FOLD_REFUSED => QueryAnswer::Refused(Refusal::of_word(value).unwrap_or(Refusal::Unknown)),
            _ => QueryAnswer::Refused(Refusal::Unknown),
        }
    }
}

/// An authentication request.
#[derive(Clone, Copy, Debug, PartialEq, Eq)]
pub struct AuthRequest<'a> {
    /// What the server asks for: 0 nothing more, 3 a cleartext password, 5 an MD5 password, 10 to 12 SASL.
    pub code: i32,
    /// What follows the code.
    pub rest: &'a [u8],
}

impl<'a> AuthRequest<'a> {
    /// The request that a payload holds. Refused (21) under 4 bytes.
    pub fn parse(payload: &'a [u8]) -> Result<AuthRequest<'a>, Refusal> {
        let answer = ffi::auth_request(payload);
        Refusal::checked(answer[ffi::AUTH_REFUSAL])?;
        Ok(AuthRequest { code: answer[ffi::AUTH_CODE] as i64 as i32, rest: part(payload, answer[ffi::AUTH_FROM], answer[ffi::AUTH_LEN]) })
    }
}

/// A column of a row.
#[derive(Clone, Copy, Debug, PartialEq, Eq)]
pub enum Column<'a> {
    /// The row has no such column.
    Absent,
    /// The column is null.
    Null,
    /// The column's value.
    Value(&'a [u8]),
}

/// A row of a simple query's answer.
#[derive(Clone, Copy, Debug, PartialEq, Eq)]
pub struct DataRow<'a> {
    payload: &'a [u8],
    columns: usize,
}

impl<'a> DataRow<'a> {
    /// The row that a payload holds. Refused (20) where it is malformed.
    pub fn parse(payload: &'a [u8]) -> Result<DataRow<'a>, Refusal> {
        let (number, columns) = ffi::data_row(payload);
        Refusal::checked(number).map(|()| DataRow { payload, columns: columns as usize })
    }

    /// How many columns the row has.
    pub fn columns(&self) -> usize {
        self.columns
    }

    /// One column, from 0. Each call walks the row from its front.
    pub fn column(&self, index: usize) -> Column<'a> {
        let (_, column) = ffi::column(self.payload, index);
        match column[ffi::COLUMN_KIND] {
            ffi::COLUMN_NULL => Column::Null,
            ffi::COLUMN_VALUE => Column::Value(part(self.payload, column[ffi::COLUMN_FROM], column[ffi::COLUMN_LEN])),
            _ => Column::Absent,
        }
    }
}

/// A field of a server's error.
#[derive(Clone, Copy, Debug, PartialEq, Eq)]
pub enum ErrorField {
    /// ERROR, FATAL or PANIC, in the language of the server.
    Severity = ffi::FIELD_SEVERITY as isize,
    /// The SQLSTATE.
    Code = ffi::FIELD_CODE as isize,
    /// What went wrong, in one line.
    Message = ffi::FIELD_MESSAGE as isize,
    /// More about it.
    Detail = ffi::FIELD_DETAIL as isize,
    /// What might help.
    Hint = ffi::FIELD_HINT as isize,
    /// Where in the query it went wrong: characters from 1.
    Position = ffi::FIELD_POSITION as isize,
    /// In which context it went wrong.
    Where = ffi::FIELD_WHERE as isize,
    /// The schema that it is about.
    Schema = ffi::FIELD_SCHEMA as isize,
    /// The table that it is about.
    Table = ffi::FIELD_TABLE as isize,
    /// The column that it is about.
    Column = ffi::FIELD_COLUMN as isize,
    /// The data type that it is about.
    DataType = ffi::FIELD_DATA_TYPE as isize,
    /// The constraint that it is about.
    Constraint = ffi::FIELD_CONSTRAINT as isize,
    /// The file of the server's source code.
    File = ffi::FIELD_FILE as isize,
    /// The line there.
    Line = ffi::FIELD_LINE as isize,
    /// The function there.
    Routine = ffi::FIELD_ROUTINE as isize,
}

/// A field of the error that an ErrorResponse's payload holds, where it is given.
///
/// ```
/// use rufflesquash::{error_field, ErrorField};
///
/// let payload = b"SFATAL\0C57P01\0Mthe server shuts down\0\0";
/// assert_eq!(error_field(payload, ErrorField::Code), Some(&b"57P01"[..]));
/// assert_eq!(error_field(payload, ErrorField::Hint), None);
/// ```
pub fn error_field(payload: &[u8], field: ErrorField) -> Option<&[u8]> {
    let words = ffi::error_field(payload, field as usize);
    (words[ffi::FIELD_GIVEN] != 0).then(|| part(payload, words[ffi::FIELD_FROM], words[ffi::FIELD_LEN]))
}
