//! Made by .ci/border.rs from the Rattle sources, where changes are made: the constants and functions of the archive.
//!
//! In a declaration a slice is a pointer and a length, an array a thin pointer.
// A host in C reads names that this crate does not.
#![allow(dead_code)]

// ---- The interface: its number grows with every change of a function, of a constant or of what they mean.

/// A host compares this number, which it was built with, with the one that `rufflesquash_abi` answers.
pub const ABI: u64 = 14;

// ---- Settings: intervals are nanoseconds, a flag is true unless 0.

/// How many words settings have.
pub const SETTINGS_WORDS: usize = 7;
/// How long after a status the next one is due, at most 86,400 seconds.
pub const SETTINGS_STATUS_INTERVAL_NANOS: usize = 0;
/// How long a wait lasts until a status is sent, at most 86,400 seconds.
pub const SETTINGS_IDLE_WAKEUP_INTERVAL_NANOS: usize = 1;
/// The longest payload of a message in bytes; more than 1,073,741,824 counts as that.
pub const SETTINGS_MAX_MESSAGE_BYTES: usize = 2;
/// Whether there is a stop position.
pub const SETTINGS_HAS_STOP: usize = 3;
/// The stop position.
pub const SETTINGS_STOP_AT_LSN: usize = 4;
/// Whether a status tells how long the position that it confirms had waited.
pub const SETTINGS_TIMING: usize = 5;
/// Whether the query asks for binary values.
pub const SETTINGS_BINARY: usize = 6;

// ---- Opaque words: a host keeps and copies them whole, and any words are those of some run, cell, reader or query.

/// How many words a run has.
pub const RUN_WORDS: usize = 64;
/// How many words a progress cell has.
pub const CELL_WORDS: usize = 4;
/// How many words a reader of messages has. All of them are 0 at the beginning of a message.
pub const READER_WORDS: usize = 8;
/// How many words a simple query has of which the answer is read. All of them are 0 before its first message.
pub const QUERY_WORDS: usize = 4;

// ---- Files: they are numbered from 0, and every other number is none.

/// How many files a run has.
pub const FILES: u64 = 4;
/// How many positions are handed in where each file is reported for, in the order of their numbers.
pub const POSITIONS_WORDS: usize = 4;

// ---- States of a run: every other number is `STATE_ENDED`.

/// The server has not yet begun the stream.
pub const STATE_OPENING: u64 = 0;
/// A round begins.
pub const STATE_TURN: u64 = 1;
/// Messages at hand are looked for.
pub const STATE_DRAIN: u64 = 2;
/// A message is read.
pub const STATE_READING: u64 = 3;
/// Nothing was at hand.
pub const STATE_WAITING: u64 = 4;
/// A whole message is there.
pub const STATE_HANDLING: u64 = 5;
/// An event is offered to the queue.
pub const STATE_OFFERING: u64 = 6;
/// No further step is accepted.
pub const STATE_ENDED: u64 = 7;

// ---- The queue to the consumer: every other number is `QUEUE_CLOSED`.

/// An event is taken.
pub const QUEUE_FREE: u64 = 0;
/// No event is taken now.
pub const QUEUE_FULL: u64 = 1;
/// Events are dropped.
pub const QUEUE_CLOSED: u64 = 2;

// ---- What a step answers.

/// How many words the answer of a step has.
pub const ANSWER_WORDS: usize = 12;
/// The refusal's number, 0 for none.
pub const ANSWER_REFUSAL: usize = 0;
/// How many unread bytes were taken.
pub const ANSWER_TAKEN: usize = 1;
/// How many bytes at the front of the output are to be sent.
pub const ANSWER_WRITTEN: usize = 2;
/// Whether a waiting time is told, 1 or 0.
pub const ANSWER_WAITED_TOLD: usize = 3;
/// The waiting time in nanoseconds.
pub const ANSWER_WAITED_NANOS: usize = 4;
/// The event's kind.
pub const ANSWER_EVENT: usize = 5;
/// The event's first number.
pub const ANSWER_EVENT_1: usize = 6;
/// The event's second number.
pub const ANSWER_EVENT_2: usize = 7;
/// The event's third number.
pub const ANSWER_EVENT_3: usize = 8;
/// The event's fourth number.
pub const ANSWER_EVENT_4: usize = 9;
/// The event's fifth number.
pub const ANSWER_EVENT_5: usize = 10;
/// The event's sixth number.
pub const ANSWER_EVENT_6: usize = 11;

// ---- Kinds of events, each with its numbers: every other kind is none. Times are microseconds from 2000-01-01.

/// No event.
pub const EVENT_NOTHING: u64 = 0;
/// KeepAlive: wal_end, server time, whether a reply is requested.
pub const EVENT_KEEP_ALIVE: u64 = 1;
/// Begin: final position, commit time, xid.
pub const EVENT_BEGIN: u64 = 2;
/// Commit: position, end position, commit time.
pub const EVENT_COMMIT: u64 = 3;
/// Message: whether it is transactional, position, the prefix's place in payload and its length, the content's place and its length.
pub const EVENT_MESSAGE: u64 = 4;
/// XLogData: wal_start, wal_end, server time, the data's place in payload and its length.
pub const EVENT_XLOG_DATA: u64 = 5;
/// StoppedAt: the position that reached the stop position.
pub const EVENT_STOPPED_AT: u64 = 6;

// ---- When to step again.

/// How many words the answer has.
pub const NEXT_WORDS: usize = 2;
/// Its kind.
pub const NEXT_KIND: usize = 0;
/// Of `NEXT_FROM` the moment, else 0.
pub const NEXT_MOMENT: usize = 1;

// ---- Kinds of next steps.

/// The next step moves.
pub const NEXT_AT_ONCE: u64 = 0;
/// Steps from a moment on move; it may lie at or before the last accepted one.
pub const NEXT_FROM: u64 = 1;
/// No step moves until something comes.
pub const NEXT_ON_INPUT: u64 = 2;
/// The run has ended.
pub const NEXT_NEVER: u64 = 3;

// ---- Counters of a run: each starts again at 0 after its largest value.

/// How many counters a run has.
pub const METRICS_WORDS: usize = 7;
/// Events handed on.
pub const METRICS_EVENTS_FORWARDED: usize = 0;
/// Statuses sent.
pub const METRICS_FEEDBACK_SENT: usize = 1;
/// Statuses sent in reply to a keepalive.
pub const METRICS_KEEPALIVE_REPLIES: usize = 2;
/// Stalls begun.
pub const METRICS_STALL_COUNT: usize = 3;
/// Microseconds of stalls that ended.
pub const METRICS_STALL_MICROS_TOTAL: usize = 4;
/// The position last confirmed.
pub const METRICS_LAST_APPLIED_LSN: usize = 5;
/// The server's end last told.
pub const METRICS_LAST_WAL_END: usize = 6;

// ---- The last status.

/// How many words are told of the last status.
pub const STATUS_WORDS: usize = 3;
/// Whether there was one, 1 or 0.
pub const STATUS_SENT: usize = 0;
/// The position that it confirmed.
pub const STATUS_POSITION: usize = 1;
/// The moment of its step.
pub const STATUS_AT: usize = 2;

// ---- The error that ended a run.

/// How many words are told of the error.
pub const ERROR_WORDS: usize = 2;
/// Whether a server error ended the run, 1 or 0.
pub const ERROR_GIVEN: usize = 0;
/// How many bytes it has at the front of the payload buffer, at most the length that was handed in.
pub const ERROR_LEN: usize = 1;

// ---- What a read answers.

/// How many words the answer of a read has.
pub const READ_WORDS: usize = 5;
/// The refusal's number, 0 for none.
pub const READ_REFUSAL: usize = 0;
/// How many unread bytes were taken.
pub const READ_TAKEN: usize = 1;
/// Whether a message is whole, 1 or 0.
pub const READ_WHOLE: usize = 2;
/// The whole message's tag.
pub const READ_TAG: usize = 3;
/// The length of its payload, which stands at the front of payload.
pub const READ_LEN: usize = 4;

// ---- What a message of a simple query answers.

/// How many words the answer has.
pub const FOLD_WORDS: usize = 3;
/// Its kind.
pub const FOLD_KIND: usize = 0;
/// Its value, which its kind says, else 0.
pub const FOLD_VALUE: usize = 1;
/// Of `FOLD_FAILED` how many bytes the error had, else 0.
pub const FOLD_ERROR_LEN: usize = 2;

// ---- Kinds of answers to a simple query, each with its value: the first two go on; the others end the query, and its words are then those of a new
// one.

/// Nothing to tell.
pub const FOLD_MORE: u64 = 0;
/// A row: how many columns it has.
pub const FOLD_ROW: u64 = 1;
/// The query is done.
pub const FOLD_READY: u64 = 2;
/// The server refused it: how many bytes of its error stand at the front of error.
pub const FOLD_FAILED: u64 = 3;
/// The message is refused: the refusal's number, 20.
pub const FOLD_REFUSED: u64 = 4;

// ---- A column of a DataRow.

/// How many words are told of a column.
pub const COLUMN_WORDS: usize = 3;
/// Its kind.
pub const COLUMN_KIND: usize = 0;
/// The value's place in payload, else 0.
pub const COLUMN_FROM: usize = 1;
/// The value's length, else 0.
pub const COLUMN_LEN: usize = 2;

// ---- Kinds of columns of a DataRow.

/// The row has no such column.
pub const COLUMN_ABSENT: u64 = 0;
/// The column is null.
pub const COLUMN_NULL: u64 = 1;
/// The column has a value.
pub const COLUMN_VALUE: u64 = 2;

// ---- An authentication request.

/// How many words are told of a request.
pub const AUTH_WORDS: usize = 4;
/// The refusal's number (21), 0 for none.
pub const AUTH_REFUSAL: usize = 0;
/// The code in two's complement.
pub const AUTH_CODE: usize = 1;
/// The place of the rest in payload.
pub const AUTH_FROM: usize = 2;
/// The rest's length.
pub const AUTH_LEN: usize = 3;

// ---- A field of an error.

/// How many words are told of a field.
pub const FIELD_WORDS: usize = 3;
/// Whether the field is given, 1 or 0.
pub const FIELD_GIVEN: usize = 0;
/// Its place in payload.
pub const FIELD_FROM: usize = 1;
/// Its length.
pub const FIELD_LEN: usize = 2;

// ---- Fields of an error by their numbers.

/// The severity.
pub const FIELD_SEVERITY: usize = 0;
/// The SQLSTATE.
pub const FIELD_CODE: usize = 1;
/// The message.
pub const FIELD_MESSAGE: usize = 2;
/// The detail.
pub const FIELD_DETAIL: usize = 3;
/// The hint.
pub const FIELD_HINT: usize = 4;
/// The position in the query.
pub const FIELD_POSITION: usize = 5;
/// The context.
pub const FIELD_WHERE: usize = 6;
/// The schema.
pub const FIELD_SCHEMA: usize = 7;
/// The table.
pub const FIELD_TABLE: usize = 8;
/// The column.
pub const FIELD_COLUMN: usize = 9;
/// The data type.
pub const FIELD_DATA_TYPE: usize = 10;
/// The constraint.
pub const FIELD_CONSTRAINT: usize = 11;
/// The source file of the server.
pub const FIELD_FILE: usize = 12;
/// The line in that file.
pub const FIELD_LINE: usize = 13;
/// The routine in that file.
pub const FIELD_ROUTINE: usize = 14;

// ---- Kinds of refusals.

/// No refusal has the number.
pub const KIND_NONE: u64 = 0;
/// Usage: the call was not used as it is to be.
pub const KIND_USAGE: u64 = 1;
/// Io: the input ended within a message, or before one.
pub const KIND_IO: u64 = 2;
/// Protocol: the bytes are not what the protocol says, or do not fit what is held.
pub const KIND_PROTOCOL: u64 = 3;
/// Server: the server sent an error.
pub const KIND_SERVER: u64 = 4;
/// MessageTooLarge: a message is longer than the limit.
pub const KIND_MESSAGE_TOO_LARGE: u64 = 5;
/// ParseLsn: a text is no position.
pub const KIND_PARSE_LSN: u64 = 6;

// ---- Opening hours: windows, Monday first.

/// How many windows there are.
pub const HOURS_DAYS: usize = 7;

// ---- What the opening hours answer.

/// How many words the answer has.
pub const HOURS_WORDS: usize = 3;
/// Whether the hall is open, 1 or 0.
pub const HOURS_OPEN: usize = 0;
/// Whether that ever changes, 1 or 0.
pub const HOURS_CHANGES: usize = 1;
/// The first later moment at which it changes, in two's complement, 0 where it never does.
pub const HOURS_MOMENT: usize = 2;

// ---- The head of a row: words that a row does not have are 0.

/// How many words a row's head has.
pub const ROW_WORDS: usize = 11;
/// Its kind.
pub const ROW_KIND: usize = 0;
/// The identifier of a relation or type, of an Origin the position of the commit at the origin.
pub const ROW_ID: usize = 1;
/// The replica identity of a Relation, the letter before an old tuple, the options of a Truncate.
pub const ROW_BYTE: usize = 2;
/// How many columns, descriptions or relations there are.
pub const ROW_COUNT: usize = 3;
/// The place in data of the first one.
pub const ROW_FROM: usize = 4;
/// How many columns the old tuple has.
pub const ROW_OLD_COUNT: usize = 5;
/// The place in data of its first column.
pub const ROW_OLD_FROM: usize = 6;
/// The namespace's place in data.
pub const ROW_NAMESPACE_FROM: usize = 7;
/// The namespace's length.
pub const ROW_NAMESPACE_LEN: usize = 8;
/// The name's place in data.
pub const ROW_NAME_FROM: usize = 9;
/// The name's length.
pub const ROW_NAME_LEN: usize = 10;

// ---- Kinds of rows, each with the words of its head.

/// No row, or refused.
pub const ROW_NONE: u64 = 0;
/// Relation: its identifier, its replica identity, its descriptions (`rufflesquash_row_description`), namespace and name.
pub const ROW_RELATION: u64 = 1;
/// Type: its identifier, namespace and name.
pub const ROW_TYPE: u64 = 2;
/// Origin: its position and its name.
pub const ROW_ORIGIN: u64 = 3;
/// Insert: the relation's identifier, the new tuple (`rufflesquash_row_column`).
pub const ROW_INSERT: u64 = 4;
/// Update: the relation's identifier, the new tuple, the old tuple after `K` where it has the key alone, after `O` where it has all columns; the byte
/// is 0 where no old tuple is sent.
pub const ROW_UPDATE: u64 = 5;
/// Delete: the relation's identifier, the old tuple after `K` or `O`, as such.
pub const ROW_DELETE: u64 = 6;
/// Truncate: its options, its relations (`rufflesquash_row_identifier`).
pub const ROW_TRUNCATE: u64 = 7;

// ---- A column of a tuple.

/// How many words are told of a column.
pub const TUPLE_WORDS: usize = 4;
/// The refusal's number (26, 27), 0 for none.
pub const TUPLE_REFUSAL: usize = 0;
/// Its kind.
pub const TUPLE_KIND: usize = 1;
/// The place of the value of a text or binary column in data, else 0.
pub const TUPLE_FROM: usize = 2;
/// The length of that value, else 0.
pub const TUPLE_LEN: usize = 3;

// ---- Kinds of columns of a tuple.

/// The column is refused.
pub const TUPLE_NONE: u64 = 0;
/// The column is null.
pub const TUPLE_NULL: u64 = 1;
/// The value is unchanged and not sent.
pub const TUPLE_UNCHANGED: u64 = 2;
/// The value is a text.
pub const TUPLE_TEXT: u64 = 3;
/// The value is binary.
pub const TUPLE_BINARY: u64 = 4;

// ---- A description: a column of a Relation.

/// How many words are told of a description.
pub const DESCRIPTION_WORDS: usize = 6;
/// The refusal's number (26), 0 for none.
pub const DESCRIPTION_REFUSAL: usize = 0;
/// The flags; 1 where the column belongs to the key.
pub const DESCRIPTION_FLAGS: usize = 1;
/// The name's place in data.
pub const DESCRIPTION_NAME_FROM: usize = 2;
/// The name's length.
pub const DESCRIPTION_NAME_LEN: usize = 3;
/// The type.
pub const DESCRIPTION_TYPE: usize = 4;
/// The type modifier in two's complement.
pub const DESCRIPTION_MODIFIER: usize = 5;

// ---- A relation of a Truncate.

/// How many words are told of a relation.
pub const IDENTIFIER_WORDS: usize = 2;
/// The refusal's number (26), 0 for none.
pub const IDENTIFIER_REFUSAL: usize = 0;
/// Its identifier.
pub const IDENTIFIER_ID: usize = 1;

// ---- An event of a load: its kind and its six numbers, as in the answer of a step.

/// How many words the event has.
pub const LOAD_WORDS: usize = 7;

// ---- The lent memory of a relation cache: 16,712 bytes in four parts, and the names, for which as many bytes are lent as the host has.

/// At most so many relations are held, each with an identifier and a count of columns.
pub const CACHE_RELATIONS: usize = 64;
/// The words of their columns, 32 for each relation.
pub const CACHE_COLUMNS: usize = 2048;
/// No more bytes of the names are read or written: 63 for each column.
pub const CACHE_NAMES: usize = 129024;

// ---- A column of a held relation.

/// How many words are told of a column.
pub const CACHE_COLUMN_WORDS: usize = 5;
/// Whether there is such a column, 1 or 0.
pub const CACHE_COLUMN_GIVEN: usize = 0;
/// The place of its name in names.
pub const CACHE_COLUMN_NAME_FROM: usize = 1;
/// The length of its name.
pub const CACHE_COLUMN_NAME_LEN: usize = 2;
/// Whether it belongs to the key, 1 or 0.
pub const CACHE_COLUMN_KEY: usize = 3;
/// Its type.
pub const CACHE_COLUMN_TYPE: usize = 4;

/// A text in a list of texts.
#[derive(Clone, Copy)]
#[repr(C)]
pub struct Bytes {
    /// Where it begins.
    pub at: *const u8,
    /// How many bytes it has.
    pub len: usize,
}

extern "C" {
    // ---- The number of the interface.

    /// The number of the interface that the archive has, `ABI`.
    pub fn rufflesquash_abi() -> u64;

    // ---- A run.

    /// Writes the query that opens a stream, and makes the run. Answers the refusal (1, 25, 4); refused, run and out are as they were and written is
    /// 0.
    ///
    /// The position is what the query asks for, the start is where confirmations begin.
    pub fn rufflesquash_open(
        settings: *const [u64; SETTINGS_WORDS],
        slot: *const u8,
        slot_len: usize,
        publications: *const Bytes,
        publications_len: usize,
        position: u64,
        start: u64,
        run: *mut [u64; RUN_WORDS],
        out: *mut u8,
        out_len: usize,
        written: *mut u64,
    ) -> u64;

    /// Makes a run whose stream has begun already: no query is sent. Answers the refusal (1); refused, run is as it was.
    pub fn rufflesquash_already_open(settings: *const [u64; SETTINGS_WORDS], start: u64, run: *mut [u64; RUN_WORDS]) -> u64;

    /// One step of a run. The parts that the event names lie in payload, whatever the words of the run are.
    ///
    /// The moment is nanoseconds, 1 to 2^63 - 1, the client's time microseconds from 2000-01-01. That the input has ended counts only where no byte
    /// is unread. The payload buffer is as long as the limit at least, and is lent unchanged to every step. Out has 39 bytes at least; what is
    /// written there is sent before the next step. Without a refusal a run ends at a stop request, at its stop position, or at the server's CopyDone;
    /// it has then written its own.
    pub fn rufflesquash_step(
        run: *mut [u64; RUN_WORDS],
        moment: u64,
        client_time: i64,
        stop: bool,
        queue: u64,
        ended: bool,
        unread: *const u8,
        unread_len: usize,
        payload: *mut u8,
        payload_len: usize,
        out: *mut u8,
        out_len: usize,
        answer: *mut [u64; ANSWER_WORDS],
    );

    /// One to four steps with the same input, until one of them has a refusal, an event or bytes to send. The answer is the last one's; taken is
    /// their sum.
    pub fn rufflesquash_advance(
        run: *mut [u64; RUN_WORDS],
        moment: u64,
        client_time: i64,
        stop: bool,
        queue: u64,
        ended: bool,
        unread: *const u8,
        unread_len: usize,
        payload: *mut u8,
        payload_len: usize,
        out: *mut u8,
        out_len: usize,
        answer: *mut [u64; ANSWER_WORDS],
    );

    /// A file, 0 to 3, has applied all before a position. Answers the refusal: 31 for every other number, on any run, and run is as it was.
    ///
    /// A status confirms the smallest over the four files of the largest of the start and that file's reports; a host with fewer files reports for
    /// all four.
    pub fn rufflesquash_report(run: *mut [u64; RUN_WORDS], file: u64, position: u64, moment: u64) -> u64;

    /// Each of the four files has applied all before its position: reports of the files 0 to 3, in this order and at one moment, of which none is
    /// refused. Answers what a status would confirm now.
    pub fn rufflesquash_report_each(run: *mut [u64; RUN_WORDS], positions: *const [u64; POSITIONS_WORDS], moment: u64) -> u64;

    /// When a step moves next while no byte is unread, the input has not ended, no stop is requested, the queue stays as it is and nothing is
    /// reported.
    ///
    /// A host that has unread bytes, an ended input or a stop request steps at once instead.
    pub fn rufflesquash_next_step(run: *const [u64; RUN_WORDS], payload_len: usize, queue: u64, next: *mut [u64; NEXT_WORDS]);

    /// The state of a run.
    pub fn rufflesquash_state(run: *const [u64; RUN_WORDS]) -> u64;

    /// The counters of a run.
    pub fn rufflesquash_metrics(run: *const [u64; RUN_WORDS], counters: *mut [u64; METRICS_WORDS]);

    /// What a status would confirm now.
    pub fn rufflesquash_position(run: *const [u64; RUN_WORDS]) -> u64;

    /// The last status that a run sent.
    pub fn rufflesquash_last_sent(run: *const [u64; RUN_WORDS], status: *mut [u64; STATUS_WORDS]);

    /// Whether a server error ended the run, and its length at the front of the payload buffer of its steps, of which the length is handed in.
    pub fn rufflesquash_error_part(run: *const [u64; RUN_WORDS], payload_len: usize, part: *mut [u64; ERROR_WORDS]);

    /// The service page of a run: six lines of 32 characters and a newline, 198 bytes, at the front of out. Answers the refusal (4); refused, out is
    /// as it was and written is 0.
    ///
    /// A label stands flush left in 12 characters, its value flush right in 20: POSITION (what a status would confirm now), SENT (what the last
    /// status confirmed, a hyphen before the first), SERVER (wal_end of the last XLogData or keepalive that was handled without refusal), EVENTS
    /// (handed on), STALLS (begun), STATE.
    pub fn rufflesquash_page(run: *const [u64; RUN_WORDS], out: *mut u8, out_len: usize, written: *mut u64) -> u64;

    // ---- Texts and positions: refused, out is as it was and what is given beside it is 0.
    //
    // The marks are how many U+FFFD were put in, one for each ill-formed part of the texts that are shown; one that was in the text already is not
    // counted.

    /// The lossy text of bytes, such as a prefix. Answers the refusal (25, 4).
    pub fn rufflesquash_lossy(text: *const u8, text_len: usize, out: *mut u8, out_len: usize, written: *mut u64, marks: *mut u64) -> u64;

    /// The same, where every byte is looked up in the constant table of UTF-8's states, one after the other. It answers and writes what
    /// `rufflesquash_lossy` does, which is faster.
    pub fn rufflesquash_lossy_by_table(text: *const u8, text_len: usize, out: *mut u8, out_len: usize, written: *mut u64, marks: *mut u64) -> u64;

    /// The length of the longest well-formed beginning of a text of any length. Refuses nothing.
    pub fn rufflesquash_well_formed_prefix(text: *const u8, text_len: usize) -> u64;

    /// The text of the error that the payload of an ErrorResponse holds. Answers the refusal (25, 4).
    pub fn rufflesquash_error_text(payload: *const u8, payload_len: usize, out: *mut u8, out_len: usize, written: *mut u64, marks: *mut u64) -> u64;

    /// The position that a text names: two hexadecimal numbers of 1 to 8 digits with a slash between. Answers the refusal (22, 23, 24); refused,
    /// position is 0.
    pub fn rufflesquash_parse_position(text: *const u8, text_len: usize, position: *mut u64) -> u64;

    /// The text of a position, at most 17 bytes. Answers the refusal (4).
    pub fn rufflesquash_display_position(position: u64, out: *mut u8, out_len: usize, written: *mut u64) -> u64;

    // ---- A progress cell: it has one position, where a run has four files; these calls are for a host that keeps a cell of its own. Moments are
    // nanoseconds, 0 is none.

    /// A new cell. With timing it keeps the moment of the first raise that no status has covered.
    pub fn rufflesquash_cell_new(start: u64, timed: bool, cell: *mut [u64; CELL_WORDS]);

    /// The position.
    pub fn rufflesquash_cell_load(cell: *const [u64; CELL_WORDS]) -> u64;

    /// The pending moment.
    pub fn rufflesquash_cell_pending_since(cell: *const [u64; CELL_WORDS]) -> u64;

    /// A report of a position at a moment. Answers 1 where the signal is new, else 0.
    pub fn rufflesquash_cell_raise(cell: *mut [u64; CELL_WORDS], position: u64, moment: u64) -> u64;

    /// Clears the signal. Answers the position.
    pub fn rufflesquash_cell_take_signal(cell: *mut [u64; CELL_WORDS]) -> u64;

    /// A status was sent with a position that was read at a moment. Answers the moment that was pending.
    pub fn rufflesquash_cell_take_pending(cell: *mut [u64; CELL_WORDS], sent: u64, loaded_at: u64) -> u64;

    /// A pending moment from an earlier session: the older one counts.
    pub fn rufflesquash_cell_carry_pending(cell: *mut [u64; CELL_WORDS], since: u64);

    // ---- Messages of the client: refused, out is as it was and written is 0.

    /// A startup message; its texts are names and values in turn. Answers the refusal (25, 4).
    pub fn rufflesquash_write_startup(version: i32, texts: *const Bytes, texts_len: usize, out: *mut u8, out_len: usize, written: *mut u64) -> u64;

    /// A simple query. Answers the refusal (25, 4).
    pub fn rufflesquash_write_query(text: *const u8, text_len: usize, out: *mut u8, out_len: usize, written: *mut u64) -> u64;

    /// A CopyDone. Answers the refusal (4).
    pub fn rufflesquash_write_copy_done(out: *mut u8, out_len: usize, written: *mut u64) -> u64;

    /// A Terminate. Answers the refusal (4).
    pub fn rufflesquash_write_terminate(out: *mut u8, out_len: usize, written: *mut u64) -> u64;

    /// A status that confirms a position in all its three places, 39 bytes. Answers the refusal (4).
    pub fn rufflesquash_write_status(position: u64, client_time: i64, reply: bool, out: *mut u8, out_len: usize, written: *mut u64) -> u64;

    // ---- Messages of the server, before and after the stream.

    /// One read of the server's messages, as the steps of a run do it. Refusals: 3, 6, 7, 8, 9.
    ///
    /// The payload buffer has at least the limit's bytes and is lent unchanged to every read.
    pub fn rufflesquash_read(
        reader: *mut [u64; READER_WORDS],
        max_message_size: usize,
        unread: *const u8,
        unread_len: usize,
        ended: bool,
        payload: *mut u8,
        payload_len: usize,
        answer: *mut [u64; READ_WORDS],
    );

    /// A whole message in answer to a simple query. The front of error takes the bytes of a server's error.
    pub fn rufflesquash_query_message(
        query: *mut [u64; QUERY_WORDS],
        tag: u8,
        payload: *const u8,
        payload_len: usize,
        error: *mut u8,
        error_len: usize,
        answer: *mut [u64; FOLD_WORDS],
    );

    /// How many columns a DataRow has. Answers the refusal (20); refused, columns is 0.
    pub fn rufflesquash_data_row(payload: *const u8, payload_len: usize, columns: *mut u64) -> u64;

    /// A column of a DataRow, from 0. Answers the refusal (20); refused, all words are 0.
    pub fn rufflesquash_column(payload: *const u8, payload_len: usize, index: usize, column: *mut [u64; COLUMN_WORDS]) -> u64;

    /// An authentication request.
    pub fn rufflesquash_auth_request(payload: *const u8, payload_len: usize, answer: *mut [u64; AUTH_WORDS]);

    /// A field of an ErrorResponse by its number.
    pub fn rufflesquash_error_field(payload: *const u8, payload_len: usize, field: usize, part: *mut [u64; FIELD_WORDS]);

    // ---- Kinds by the number of a refusal.

    /// The kind of a refusal by its number, `KIND_NONE` where no refusal has it.
    pub fn rufflesquash_refusal_kind(refusal: u64) -> u64;

    /// Whether a new connection may help after a refusal, by its number: 1 or 0.
    pub fn rufflesquash_refusal_is_transient(refusal: u64) -> u64;

    // ---- Opening hours.

    /// Whether a venue's hall is open at a moment, and the first later moment at which that changes. Answers the refusal (32, 33, 34, in this order);
    /// refused, all words are 0.
    ///
    /// For each weekday, Monday first, the minutes from 0 to 1440 at which its window opens and closes: the opening minute is open, the closing
    /// minute shut, equal minutes mean shut all day. The offset is the minutes, -840 to 840, by which the venue's clock is ahead of UTC. Moments are
    /// microseconds from 2000-01-01 00:00 UTC, a Saturday, at most 2^62 from it; the moment of the change may lie past that. A window to 1440 and one
    /// from 0 on the next day meet without a change.
    pub fn rufflesquash_hours(
        opens: *const [u64; HOURS_DAYS],
        closes: *const [u64; HOURS_DAYS],
        offset: i64,
        moment: i64,
        answer: *mut [u64; HOURS_WORDS],
    ) -> u64;

    // ---- Rows: in the data of an event of kind `EVENT_XLOG_DATA`, or in any data of pgoutput, protocol version 1. Any data and any place are
    // answered.
    //
    // Refusals: 26 where a field is cut short or a count or length is negative, 27 where a letter stands that may not, the first of them in the order
    // of the bytes. Refused, all other words are 0.

    /// The row that the data hold, judged to its end; what follows it is not read. Answers the refusal (26, 27). Data that begin with B, C or M are
    /// no row.
    pub fn rufflesquash_row(data: *const u8, data_len: usize, row: *mut [u64; ROW_WORDS]) -> u64;

    /// The column of a tuple at a place. Answers the place of the next one, 0 where it is refused.
    ///
    /// From the place that a head names on, so many calls as the head counts are not refused, each at the place that the last one answered.
    pub fn rufflesquash_row_column(data: *const u8, data_len: usize, at: usize, column: *mut [u64; TUPLE_WORDS]) -> u64;

    /// The description at a place, a column of a Relation. Answers the place of the next one, 0 where it is refused.
    pub fn rufflesquash_row_description(data: *const u8, data_len: usize, at: usize, description: *mut [u64; DESCRIPTION_WORDS]) -> u64;

    /// The relation of a Truncate at a place. Answers the place of the next one, 0 where it is refused.
    pub fn rufflesquash_row_identifier(data: *const u8, data_len: usize, at: usize, identifier: *mut [u64; IDENTIFIER_WORDS]) -> u64;

    // ---- Touched files: which of the four files a transaction touched.

    /// The files that a transaction touched, after one more event: its kind, and of an XLogData its data. What is lent with any other kind is not
    /// read. Answers the refusal: 31 where one of the first 64 entries has a file above 3, whatever the event is, and then touched is as it was.
    ///
    /// The call is made for every event in order. A Begin clears all bits; an XLogData that is an Insert, Update, Delete or Truncate sets the bit of
    /// the file of every relation that it names; all else leaves them, so that at a Commit they are its transaction's. Bit n of touched stands for
    /// file n; it is 0 at first and is handed in as the last call left it. Bits above the four are not read, and are 0 afterwards.
    ///
    /// The list: identifiers of relations and their files, 0 to 3, in two arrays of which the shorter length holds. A relation outside it touches no
    /// file, of a repeated one the first entry holds, entries past the sixty-fourth are not read. A row that is cut short, or that has a letter which
    /// the protocol does not list, touches nothing.
    pub fn rufflesquash_touched(
        identifiers: *const u32,
        identifiers_len: usize,
        files: *const u64,
        files_len: usize,
        kind: u64,
        data: *const u8,
        data_len: usize,
        touched: *mut u64,
    ) -> u64;

    // ---- A load for benchmarks.

    /// Writes so many messages of a server, drawn from a seed, over the front of out: CopyData with keepalives, Begins, Commits and other data in
    /// turn as they are drawn. Answers the refusal (35 for a seed of 0, then 4); refused, out is as it was and written is 0.
    pub fn rufflesquash_load(seed: u64, messages: u64, out: *mut u8, out_len: usize, written: *mut u64) -> u64;

    /// The event of the message that is drawn from a state, of which the first is the seed. Answers the next state.
    ///
    /// It is the event that a run hands on that was opened already and has no stop position; the data of an XLogData begin at place 25 of its
    /// payload.
    pub fn rufflesquash_load_event(state: u64, event: *mut [u64; LOAD_WORDS]) -> u64;

    // ---- A relation cache: what the Relation messages of a stream said of their columns, and rows matched with it.
    //
    // The memory is lent in five parts: how many relations are held (64 bits); of each slot its relation's identifier (32 bits) and how many columns
    // that has (8 bits); a word of each column (64 bits); and the bytes of the names. Column c of the relation in slot r has number 32 r + c. A word
    // has, from its most significant bit on, whether the column belongs to the key (1 bit), its type (32), its name's length (7) and its name's place
    // in names (24). The names lie without gaps, in the order of the columns' numbers, so as many bytes suffice as the names have that are held: for
    // names of at most L bytes, L for each column, and 63 × 2,048 = 129,024 always; bytes past these are neither read nor written. Every call gets
    // the memory as the last one left it. Any content of it is some cache: a call with it has one stated outcome, whatever the bytes are; a name that
    // a word places outside of names ends with them.

    /// An empty cache: every byte of what is lent is 0. The names are not lent: nothing of them is read before it is written.
    pub fn rufflesquash_cache_clear(
        held: *mut u64,
        ids: *mut [u32; CACHE_RELATIONS],
        counts: *mut [u8; CACHE_RELATIONS],
        words: *mut [u64; CACHE_COLUMNS],
    );

    /// One message: the row that its data hold, as `rufflesquash_row` answers it. A Relation is held from then on, in place of an earlier one with
    /// its identifier: the names of later slots are moved. Answers the refusal (26 to 30, 4); refused, the memory is as it was and all words are 0.
    ///
    /// - 26, 27: those of `rufflesquash_row`.
    /// - 28: a Relation, where 64 others are held.
    /// - 29: a Relation with more than 32 columns or with a column's name of more than 63 bytes. The former description of the relation stays, and
    ///   rows with the old number of columns are read under the old names.
    /// - 30: an Insert, Update or Delete whose relation is not held or has another number of columns than one of its tuples.
    /// - 4: a Relation, where the names of those that are held, or of those that would be, are longer than names. It is told after 26 to 29.
    pub fn rufflesquash_cache_message(
        held: *mut u64,
        ids: *mut [u32; CACHE_RELATIONS],
        counts: *mut [u8; CACHE_RELATIONS],
        words: *mut [u64; CACHE_COLUMNS],
        names: *mut u8,
        names_len: usize,
        data: *const u8,
        data_len: usize,
        row: *mut [u64; ROW_WORDS],
    ) -> u64;

    /// Whether a relation is held, 1 or 0, and how many columns it has.
    pub fn rufflesquash_cache_count(
        held: u64,
        ids: *const [u32; CACHE_RELATIONS],
        counts: *const [u8; CACHE_RELATIONS],
        id: u32,
        columns: *mut u64,
    ) -> u64;

    /// A column of a relation, from 0. All words are 0 where the relation is not held or has no such column. Of names the length alone is read.
    pub fn rufflesquash_cache_column(
        held: u64,
        ids: *const [u32; CACHE_RELATIONS],
        counts: *const [u8; CACHE_RELATIONS],
        words: *const [u64; CACHE_COLUMNS],
        names: *const u8,
        names_len: usize,
        id: u32,
        index: usize,
        column: *mut [u64; CACHE_COLUMN_WORDS],
    );
}
