//! A load, written and played.

use rufflesquash::{write_load, Event, Input, Load, Lsn, Moment, Queue, Refusal, Run, Settings};

fn input(moment: u64) -> Input {
    Input { moment: Moment(moment), client_time_micros: 0, stop: false, queue: Queue::Free, ended: false }
}

/// Plays a stream in pieces on a run that was opened already; its events, with their data, as texts.
fn played(stream: &[u8], piece: usize) -> Vec<String> {
    let settings = Settings { max_message_size: 100, ..Settings::default() };
    let mut run = Run::already_open(&settings, Lsn(0)).unwrap();
    let (mut payload, mut out, mut at, mut events) = (vec![0; settings.payload_len()], [0; 39], 0, Vec::new());
    // A message takes four steps at most; a piece of it may take one more.
    for moment in 1..(8 * stream.len() as u64 + 16) {
        let end = stream.len().min(at + piece);
        let step = run.step(&input(moment), &stream[at..end], &mut payload, &mut out);
        assert_eq!(step.refusal, None);
        events.extend(step.event.map(|event| format!("{event:?}")));
        at += step.taken;
    }
    assert_eq!(at, stream.len());
    events
}

#[test]
fn a_run_hands_on_the_loads_events() {
    for (seed, messages) in [(1, 0), (1, 1), (2, 3), (u64::MAX, 40), (0x9E37_79B9_7F4A_7C15, 120)] {
        let mut stream = vec![0; 94 * messages as usize];
        let len = write_load(seed, messages, &mut stream).unwrap();
        let own: Vec<String> = Load::new(seed, messages).unwrap().map(|event| format!("{event:?}")).collect();
        assert_eq!(own.len(), messages as usize);
        for piece in [1, 7, 64, 4096] {
            assert_eq!(played(&stream[..len], piece), own, "seed {seed}, pieces of {piece}");
        }
    }
}

#[test]
fn seed_and_room_are_refused_in_this_order() {
    let mut out = [7; 22];
    assert_eq!(write_load(0, u64::MAX, &mut out), Err(Refusal::SeedZero));
    assert_eq!(write_load(0, 0, &mut out), Err(Refusal::SeedZero));
    assert_eq!(write_load(9, 1, &mut out), Err(Refusal::OutputTooShort));
    assert_eq!(write_load(9, u64::MAX, &mut out), Err(Refusal::OutputTooShort));
    assert_eq!(out, [7; 22]);
    assert_eq!(write_load(9, 0, &mut []), Ok(0));
    assert!(Load::new(0, 1).is_err());
}

#[test]
fn data_are_a_letter_and_as() {
    for event in Load::new(3, 500).unwrap() {
        if let Event::XLogData { data, .. } = event {
            assert!(data[0] == b'I' && data[1..].iter().all(|byte| *byte == b'A') && data.len() <= 64);
        }
    }
}
