//! A host as on a controller board: no std, no heap, no C library; all memory is static or on the stack. It opens a run, plays a load into it by
//! pieces, reports what it was handed on, matches a row with its relation, and ends with status 0 where every answer is the one that is due.
//! It runs on Linux on x86-64; `host/test` builds and runs it.
#![no_std]
#![no_main]

mod bare;

use core::ptr::addr_of_mut;
use rufflesquash::relations::{MatchedRow, RelationCache};
use rufflesquash::rows::Column;
use rufflesquash::{write_load, Event, Input, Load, Lsn, Moment, Queue, Run, Settings, Text, STEP_OUTPUT};

const MESSAGES: u64 = 1000;
const SEED: u64 = 7;

static mut STREAM: [u8; 94 * MESSAGES as usize] = [0; 94 * MESSAGES as usize];
static mut CACHE: RelationCache = RelationCache::new();

/// What `_start` calls, once: nothing else names the two statics.
#[no_mangle]
extern "C" fn start() -> ! {
    // SAFETY: the program has one thread, and this function is called once.
    let (stream, cache) = unsafe { (&mut *addr_of_mut!(STREAM), &mut *addr_of_mut!(CACHE)) };
    open();
    play(stream);
    matched(cache);
    bare::print(b"board: a run and a relation cache without std, heap and C library\n");
    bare::exit(0)
}

fn open() {
    let publications = [Text::from("orders"), Text::from("customers")];
    let mut query = [0; 256];
    let (_, len) = Run::open(&Settings::default(), b"board", &publications, Lsn(0), Lsn(0), &mut query).unwrap();
    assert!(query[..len].starts_with(b"Q"));
}

/// The events of a load that comes in pieces of 100 bytes are those that it is proved to have.
fn play(stream: &mut [u8]) {
    let len = write_load(SEED, MESSAGES, stream).unwrap();
    let settings = Settings { max_message_size: 128, ..Settings::default() };
    let (mut payload, mut out) = ([0; 128], [0; STEP_OUTPUT]);
    let mut run = Run::already_open(&settings, Lsn(0)).unwrap();
    let mut due = Load::new(SEED, MESSAGES).unwrap();
    let (mut at, mut moment, mut left) = (0, 1, MESSAGES);
    while left > 0 {
        let input = Input { moment: Moment(moment), client_time_micros: 0, stop: false, queue: Queue::Free, ended: false };
        let step = run.advance(&input, &stream[at..len.min(at + 100)], &mut payload, &mut out);
        assert!(step.refusal.is_none());
        at += step.taken;
        moment += 1;
        let Some(event) = step.event else { continue };
        assert!(Some(event) == due.next());
        left -= 1;
        if let Event::Commit { end_lsn, .. } = event {
            run.report_all(end_lsn, Moment(moment));
        }
    }
    assert!(at == len && due.next().is_none() && run.metrics().events_forwarded == MESSAGES);
}

fn matched(cache: &mut RelationCache) {
    assert!(cache.row(b"R\0\0\x40\x01public\0t\0d\0\x01\x01id\0\0\0\0\x17\xFF\xFF\xFF\xFF").is_ok());
    let Ok(Some(MatchedRow::Insert { mut new, .. })) = cache.row(b"I\0\0\x40\x01N\0\x01t\0\0\0\x017") else { panic!("an Insert") };
    assert!(new.next().is_some_and(|column| column.name == b"id" && column.value == Column::Text(b"7")));
}
