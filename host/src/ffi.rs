//! The functions of the archive, safe to call: the rest of the crate calls these alone, and no other file of the crate has unsafe code. What is
//! declared for C, and the constants, stand in `bindings`, which .ci/border.rs makes.
//!
//! A safe function lends each slice whole; arrays have the length that the declaration names, and exclusive references do not overlap. That is all that
//! the archive asks of its caller.
#![allow(unsafe_code)]

mod bindings;

pub use bindings::*;

/// The words of a run.
pub type RunWords = [u64; RUN_WORDS];
/// The words of a cell.
pub type CellWords = [u64; CELL_WORDS];

type Stepping =
    unsafe extern "C" fn(*mut RunWords, u64, i64, bool, u64, bool, *const u8, usize, *mut u8, usize, *mut u8, usize, *mut [u64; ANSWER_WORDS]);
type Showing = unsafe extern "C" fn(*const u8, usize, *mut u8, usize, *mut u64, *mut u64) -> u64;

/// What a step is given beside the lent bytes.
pub struct Given {
    pub moment: u64,
    pub client_time: i64,
    pub stop: bool,
    pub queue: u64,
    pub ended: bool,
}

/// A writer's answer: the refusal's number and how many bytes were written.
pub type Written = (u64, u64);

/// The same of a lossy text, and how many marks were put in.
pub type Shown = (u64, u64, u64);

#[inline]
fn stepped(call: Stepping, run: &mut RunWords, given: &Given, unread: &[u8], payload: &mut [u8], out: &mut [u8]) -> [u64; ANSWER_WORDS] {
    let mut answer = [0; ANSWER_WORDS];
    // SAFETY: every slice is lent whole, and exclusive references do not overlap.
    unsafe {
        call(
            run,
            given.moment,
            given.client_time,
            given.stop,
            given.queue,
            given.ended,
            unread.as_ptr(),
            unread.len(),
            payload.as_mut_ptr(),
            payload.len(),
            out.as_mut_ptr(),
            out.len(),
            &mut answer,
        );
    }
    answer
}

#[inline]
pub fn step(run: &mut RunWords, given: &Given, unread: &[u8], payload: &mut [u8], out: &mut [u8]) -> [u64; ANSWER_WORDS] {
    stepped(rufflesquash_step, run, given, unread, payload, out)
}

#[inline]
pub fn advance(run: &mut RunWords, given: &Given, unread: &[u8], payload: &mut [u8], out: &mut [u8]) -> [u64; ANSWER_WORDS] {
    stepped(rufflesquash_advance, run, given, unread, payload, out)
}

/// The refusal's number, the run's words (zeros where it is refused) and how many bytes were written.
pub fn open(
    settings: &[u64; SETTINGS_WORDS],
    slot: &[u8],
    publications: &[crate::Text<'_>],
    position: u64,
    start: u64,
    out: &mut [u8],
) -> (u64, RunWords, u64) {
    let (mut run, mut written) = ([0; RUN_WORDS], 0);
    // SAFETY: every slice is lent whole, a text is its `Bytes`, whose bytes live as long as the call, and nothing overlaps `out` or the run.
    let number = unsafe {
        rufflesquash_open(
            settings,
            slot.as_ptr(),
            slot.len(),
            publications.as_ptr().cast(),
            publications.len(),
            position,
            start,
            &mut run,
            out.as_mut_ptr(),
            out.len(),
            &mut written,
        )
    };
    (number, run, written)
}

/// The refusal's number and the run's words.
pub fn already_open(settings: &[u64; SETTINGS_WORDS], start: u64) -> (u64, RunWords) {
    let mut run = [0; RUN_WORDS];
    // SAFETY: both arrays have the lengths that the function names.
    let number = unsafe { rufflesquash_already_open(settings, start, &mut run) };
    (number, run)
}

pub fn report(run: &mut RunWords, file: u64, position: u64, moment: u64) -> u64 {
    // SAFETY: the array has the length that the function names.
    unsafe { rufflesquash_report(run, file, position, moment) }
}

pub fn report_each(run: &mut RunWords, positions: &[u64; POSITIONS_WORDS], moment: u64) -> u64 {
    // SAFETY: both arrays have the lengths that the function names.
    unsafe { rufflesquash_report_each(run, positions, moment) }
}

pub fn next_step(run: &RunWords, payload_len: usize, queue: u64) -> [u64; NEXT_WORDS] {
    let mut next = [0; NEXT_WORDS];
    // SAFETY: both arrays have the lengths that the function names.
    unsafe { rufflesquash_next_step(run, payload_len, queue, &mut next) };
    next
}

pub fn state(run: &RunWords) -> u64 {
    // SAFETY: the array has the length that the function names.
    unsafe { rufflesquash_state(run) }
}

pub fn metrics(run: &RunWords) -> [u64; METRICS_WORDS] {
    let mut counters = [0; METRICS_WORDS];
    // SAFETY: both arrays have the lengths that the function names.
    unsafe { rufflesquash_metrics(run, &mut counters) };
    counters
}

pub fn position(run: &RunWords) -> u64 {
    // SAFETY: the array has the length that the function names.
    unsafe { rufflesquash_position(run) }
}

pub fn last_sent(run: &RunWords) -> [u64; STATUS_WORDS] {
    let mut status = [0; STATUS_WORDS];
    // SAFETY: both arrays have the lengths that the function names.
    unsafe { rufflesquash_last_sent(run, &mut status) };
    status
}

pub fn error_part(run: &RunWords, payload_len: usize) -> [u64; ERROR_WORDS] {
    let mut part = [0; ERROR_WORDS];
    // SAFETY: both arrays have the lengths that the function names.
    unsafe { rufflesquash_error_part(run, payload_len, &mut part) };
    part
}

fn shown(call: Showing, from: &[u8], out: &mut [u8]) -> Shown {
    let (mut written, mut marks) = (0, 0);
    // SAFETY: both slices are lent whole; they and the two numbers do not overlap.
    let number = unsafe { call(from.as_ptr(), from.len(), out.as_mut_ptr(), out.len(), &mut written, &mut marks) };
    (number, written, marks)
}

pub fn lossy(text: &[u8], out: &mut [u8]) -> Shown {
    shown(rufflesquash_lossy, text, out)
}

pub fn lossy_by_table(text: &[u8], out: &mut [u8]) -> Shown {
    shown(rufflesquash_lossy_by_table, text, out)
}

pub fn well_formed_prefix(text: &[u8]) -> u64 {
    // SAFETY: the slice is lent whole.
    unsafe { rufflesquash_well_formed_prefix(text.as_ptr(), text.len()) }
}

pub fn error_text(payload: &[u8], out: &mut [u8]) -> Shown {
    shown(rufflesquash_error_text, payload, out)
}

/// The refusal's number and the position.
pub fn parse_position(text: &[u8]) -> (u64, u64) {
    let mut position = 0;
    // SAFETY: the slice is lent whole.
    let number = unsafe { rufflesquash_parse_position(text.as_ptr(), text.len(), &mut position) };
    (number, position)
}

pub fn page(run: &RunWords, out: &mut [u8]) -> Written {
    let mut written = 0;
    // SAFETY: the words and the slice are lent whole.
    let number = unsafe { rufflesquash_page(run, out.as_mut_ptr(), out.len(), &mut written) };
    (number, written)
}

pub fn display_position(position: u64, out: &mut [u8]) -> Written {
    let mut written = 0;
    // SAFETY: the slice is lent whole.
    let number = unsafe { rufflesquash_display_position(position, out.as_mut_ptr(), out.len(), &mut written) };
    (number, written)
}

pub fn cell_new(start: u64, timed: bool) -> CellWords {
    let mut cell = [0; CELL_WORDS];
    // SAFETY: the array has the length that the function names.
    unsafe { rufflesquash_cell_new(start, timed, &mut cell) };
    cell
}

pub fn cell_load(cell: &CellWords) -> u64 {
    // SAFETY: the array has the length that the function names.
    unsafe { rufflesquash_cell_load(cell) }
}

pub fn cell_pending_since(cell: &CellWords) -> u64 {
    // SAFETY: the array has the length that the function names.
    unsafe { rufflesquash_cell_pending_since(cell) }
}

pub fn cell_raise(cell: &mut CellWords, position: u64, moment: u64) -> u64 {
    // SAFETY: the array has the length that the function names.
    unsafe { rufflesquash_cell_raise(cell, position, moment) }
}

pub fn cell_take_signal(cell: &mut CellWords) -> u64 {
    // SAFETY: the array has the length that the function names.
    unsafe { rufflesquash_cell_take_signal(cell) }
}

pub fn cell_take_pending(cell: &mut CellWords, sent: u64, loaded_at: u64) -> u64 {
    // SAFETY: the array has the length that the function names.
    unsafe { rufflesquash_cell_take_pending(cell, sent, loaded_at) }
}

pub fn cell_carry_pending(cell: &mut CellWords, since: u64) {
    // SAFETY: the array has the length that the function names.
    unsafe { rufflesquash_cell_carry_pending(cell, since) }
}

pub fn abi() -> u64 {
    // SAFETY: takes nothing.
    unsafe { rufflesquash_abi() }
}

/// Names and values in turn.
pub fn write_startup(version: i32, texts: &[crate::Text<'_>], out: &mut [u8]) -> Written {
    let mut written = 0;
    // SAFETY: the slices are lent whole, a text is its `Bytes`, whose bytes live as long as the call, and nothing overlaps `out`.
    let number = unsafe { rufflesquash_write_startup(version, texts.as_ptr().cast(), texts.len(), out.as_mut_ptr(), out.len(), &mut written) };
    (number, written)
}

pub fn write_query(text: &[u8], out: &mut [u8]) -> Written {
    let mut written = 0;
    // SAFETY: both slices are lent whole and do not overlap.
    let number = unsafe { rufflesquash_write_query(text.as_ptr(), text.len(), out.as_mut_ptr(), out.len(), &mut written) };
    (number, written)
}

pub fn write_copy_done(out: &mut [u8]) -> Written {
    let mut written = 0;
    // SAFETY: the slice is lent whole.
    let number = unsafe { rufflesquash_write_copy_done(out.as_mut_ptr(), out.len(), &mut written) };
    (number, written)
}

pub fn write_terminate(out: &mut [u8]) -> Written {
    let mut written = 0;
    // SAFETY: the slice is lent whole.
    let number = unsafe { rufflesquash_write_terminate(out.as_mut_ptr(), out.len(), &mut written) };
    (number, written)
}

pub fn write_status(position: u64, client_time: i64, reply: bool, out: &mut [u8]) -> Written {
    let mut written = 0;
    // SAFETY: the slice is lent whole.
    let number = unsafe { rufflesquash_write_status(position, client_time, reply, out.as_mut_ptr(), out.len(), &mut written) };
    (number, written)
}

pub fn read(reader: &mut [u64; READER_WORDS], max_message_size: usize, unread: &[u8], ended: bool, payload: &mut [u8]) -> [u64; READ_WORDS] {
    let mut answer = [0; READ_WORDS];
    // SAFETY: every slice is lent whole, arrays have the lengths that the function names, and exclusive references do not overlap.
    unsafe {
        let (at, len) = (payload.as_mut_ptr(), payload.len());
        rufflesquash_read(reader, max_message_size, unread.as_ptr(), unread.len(), ended, at, len, &mut answer);
    }
    answer
}

pub fn query_message(query: &mut [u64; QUERY_WORDS], tag: u8, payload: &[u8], error: &mut [u8]) -> [u64; FOLD_WORDS] {
    let mut answer = [0; FOLD_WORDS];
    // SAFETY: every slice is lent whole, arrays have the lengths that the function names, and exclusive references do not overlap.
    unsafe {
        rufflesquash_query_message(query, tag, payload.as_ptr(), payload.len(), error.as_mut_ptr(), error.len(), &mut answer);
    }
    answer
}

pub fn auth_request(payload: &[u8]) -> [u64; AUTH_WORDS] {
    let mut answer = [0; AUTH_WORDS];
    // SAFETY: the slice is lent whole, and the array has the length that the function names.
    unsafe { rufflesquash_auth_request(payload.as_ptr(), payload.len(), &mut answer) };
    answer
}

/// The refusal's number and how many columns the row has.
pub fn data_row(payload: &[u8]) -> (u64, u64) {
    let mut columns = 0;
    // SAFETY: the slice is lent whole.
    let number = unsafe { rufflesquash_data_row(payload.as_ptr(), payload.len(), &mut columns) };
    (number, columns)
}

/// The refusal's number, and the column's kind, place and length.
pub fn column(payload: &[u8], index: usize) -> (u64, [u64; COLUMN_WORDS]) {
    let mut column = [0; COLUMN_WORDS];
    // SAFETY: the slice is lent whole, and the array has the length that the function names.
    let number = unsafe { rufflesquash_column(payload.as_ptr(), payload.len(), index, &mut column) };
    (number, column)
}

pub fn error_field(payload: &[u8], field: usize) -> [u64; FIELD_WORDS] {
    let mut part = [0; FIELD_WORDS];
    // SAFETY: the slice is lent whole, and the array has the length that the function names.
    unsafe { rufflesquash_error_field(payload.as_ptr(), payload.len(), field, &mut part) };
    part
}

pub fn refusal_kind(refusal: u64) -> u64 {
    // SAFETY: takes a number.
    unsafe { rufflesquash_refusal_kind(refusal) }
}

pub fn refusal_is_transient(refusal: u64) -> bool {
    // SAFETY: takes a number.
    unsafe { rufflesquash_refusal_is_transient(refusal) != 0 }
}

/// The refusal's number and the answer's words.
pub fn hours(opens: &[u64; HOURS_DAYS], closes: &[u64; HOURS_DAYS], offset: i64, moment: i64) -> (u64, [u64; HOURS_WORDS]) {
    let mut answer = [0; HOURS_WORDS];
    // SAFETY: the arrays have the lengths that the function names.
    let number = unsafe { rufflesquash_hours(opens, closes, offset, moment, &mut answer) };
    (number, answer)
}

// ---- rows

/// The refusal's number and the words of a row's head.
#[inline]
pub fn row(data: &[u8]) -> (u64, [u64; ROW_WORDS]) {
    let mut row = [0; ROW_WORDS];
    // SAFETY: the slice is lent whole, and the array has the length that the function names.
    let number = unsafe { rufflesquash_row(data.as_ptr(), data.len(), &mut row) };
    (number, row)
}

/// The place of the next column, 0 where it is refused, and the words of the column at a place; any place is answered.
#[inline]
pub fn row_column(data: &[u8], at: usize) -> (u64, [u64; TUPLE_WORDS]) {
    let mut column = [0; TUPLE_WORDS];
    // SAFETY: the slice is lent whole, and the array has the length that the function names.
    let next = unsafe { rufflesquash_row_column(data.as_ptr(), data.len(), at, &mut column) };
    (next, column)
}

/// .. of the description at a place.
#[inline]
pub fn row_description(data: &[u8], at: usize) -> (u64, [u64; DESCRIPTION_WORDS]) {
    let mut description = [0; DESCRIPTION_WORDS];
    // SAFETY: the slice is lent whole, and the array has the length that the function names.
    let next = unsafe { rufflesquash_row_description(data.as_ptr(), data.len(), at, &mut description) };
    (next, description)
}

/// .. of the identifier at a place.
#[inline]
pub fn row_identifier(data: &[u8], at: usize) -> (u64, [u64; IDENTIFIER_WORDS]) {
    let mut identifier = [0; IDENTIFIER_WORDS];
    // SAFETY: the slice is lent whole, and the array has the length that the function names.
    let next = unsafe { rufflesquash_row_identifier(data.as_ptr(), data.len(), at, &mut identifier) };
    (next, identifier)
}

// ---- the files that a transaction touched

/// The refusal's number; the bits change unless it is refused.
pub fn touched(identifiers: &[u32], files: &[u64], kind: u64, data: &[u8], bits: &mut u64) -> u64 {
    // SAFETY: every slice is lent whole, and nothing overlaps the bits.
    unsafe {
        let (at, len) = (data.as_ptr(), data.len());
        rufflesquash_touched(identifiers.as_ptr(), identifiers.len(), files.as_ptr(), files.len(), kind, at, len, bits)
    }
}

// ---- a load

/// The refusal's number and how many bytes were written.
pub fn load(seed: u64, messages: u64, out: &mut [u8]) -> (u64, u64) {
    let mut written = 0;
    // SAFETY: the slice is lent whole, and nothing overlaps the count.
    let number = unsafe { rufflesquash_load(seed, messages, out.as_mut_ptr(), out.len(), &mut written) };
    (number, written)
}

/// The next state and the words of the event that is drawn from a state.
pub fn load_event(state: u64) -> (u64, [u64; LOAD_WORDS]) {
    let mut event = [0; LOAD_WORDS];
    // SAFETY: the array has the length that the function names.
    let next = unsafe { rufflesquash_load_event(state, &mut event) };
    (next, event)
}

/// The memory of a relation cache beside its names; any content of it is some cache.
pub struct CacheMemory {
    pub held: u64,
    pub ids: [u32; CACHE_RELATIONS],
    pub counts: [u8; CACHE_RELATIONS],
    pub words: [u64; CACHE_COLUMNS],
}

impl CacheMemory {
    /// An empty cache: all is zero.
    pub const fn new() -> CacheMemory {
        CacheMemory { held: 0, ids: [0; CACHE_RELATIONS], counts: [0; CACHE_RELATIONS], words: [0; CACHE_COLUMNS] }
    }
}

pub fn cache_clear(m: &mut CacheMemory) {
    // SAFETY: arrays have the lengths that the function names, and exclusive references do not overlap.
    unsafe { rufflesquash_cache_clear(&mut m.held, &mut m.ids, &mut m.counts, &mut m.words) };
}

/// The refusal's number and the words of a row's head.
pub fn cache_message(m: &mut CacheMemory, names: &mut [u8], data: &[u8]) -> (u64, [u64; ROW_WORDS]) {
    let mut row = [0; ROW_WORDS];
    // SAFETY: slices are lent whole, arrays have the lengths that the function names, and exclusive references do not overlap.
    let number = unsafe {
        let (names, names_len, at, len) = (names.as_mut_ptr(), names.len(), data.as_ptr(), data.len());
        rufflesquash_cache_message(&mut m.held, &mut m.ids, &mut m.counts, &mut m.words, names, names_len, at, len, &mut row)
    };
    (number, row)
}

/// How many columns a relation has, where it is held.
pub fn cache_count(m: &CacheMemory, id: u32) -> Option<u64> {
    let mut columns = 0;
    // SAFETY: arrays have the lengths that the function names.
    let held = unsafe { rufflesquash_cache_count(m.held, &m.ids, &m.counts, id, &mut columns) };
    (held != 0).then_some(columns)
}

/// The words of a column of a relation; any identifier and index are answered.
pub fn cache_column(m: &CacheMemory, names: &[u8], id: u32, index: usize) -> [u64; CACHE_COLUMN_WORDS] {
    let mut column = [0; CACHE_COLUMN_WORDS];
    // SAFETY: the slice is lent whole, and arrays have the lengths that the function names.
    unsafe { rufflesquash_cache_column(m.held, &m.ids, &m.counts, &m.words, names.as_ptr(), names.len(), id, index, &mut column) };
    column
}
