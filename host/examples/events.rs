//! Prints the events of a stream of server bytes: one of standard input, or a keepalive where that is empty.
use rufflesquash::{Event, Input, Lsn, Moment, Queue, Refusal, Run, Settings, State, STEP_OUTPUT};
use std::io::Read;

const KEEPALIVE: &[u8] = b"d\0\0\0\x16k\0\0\0\0\0\0\0\x10\0\0\0\0\0\0\0\0\0";

fn main() -> Result<(), Refusal> {
    let mut bytes = Vec::new();
    std::io::stdin().read_to_end(&mut bytes).expect("standard input");
    let mut unread = if bytes.is_empty() { KEEPALIVE } else { &bytes[..] };
    let settings = Settings { max_message_size: 65_536, ..Settings::default() };
    let mut run = Run::already_open(&settings, Lsn(0))?;
    let mut payload = vec![0; settings.payload_len()];
    let mut out = [0; STEP_OUTPUT];
    let mut moment = 0;
    while run.state() != State::Ended {
        moment += 1;
        let input = Input { moment: Moment(moment), client_time_micros: 0, stop: false, queue: Queue::Free, ended: true };
        let step = run.advance(&input, unread, &mut payload, &mut out);
        unread = &unread[step.taken..];
        // A host would send out[..step.written] here.
        if let Some(event) = step.event {
            show(event);
        }
        match step.refusal {
            Some(refusal) => println!("END {}: {refusal}", refusal.number()),
            // No stop is asked for here: the server's CopyDone.
            None if run.state() == State::Ended => println!("END 0"),
            None => {}
        }
    }
    Ok(())
}

fn show(event: Event) {
    match event {
        Event::Begin { final_lsn, xid, .. } => println!("begin {xid}, final {final_lsn}"),
        Event::Commit { end_lsn, .. } => println!("commit, end {end_lsn}"),
        Event::KeepAlive { wal_end, .. } => println!("keepalive, end {wal_end}"),
        Event::Message { prefix, content, .. } => {
            println!("message {}, {} bytes", String::from_utf8_lossy(prefix), content.len());
        }
        Event::XLogData { wal_end, data, .. } => {
            println!("data to {wal_end}, {} bytes", data.len())
        }
        Event::StoppedAt { reached } => println!("stopped at {reached}"),
        other => println!("{other:?}"),
    }
}
