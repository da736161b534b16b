//! Makes what the programs `events` and `test_streams` must print, from an independent reading of SCOPE 6 and 11.4 (model.rs). The streams' own
//! .events files, which come with the recorded bytes, must say the same.

use crate::model::{Event, Input, Queue, Run, Settings, State, MOST_INTERVAL};
use crate::shared::{display, stream_files};
use std::path::Path;

/// A line of the program `events`: lengths where a script has bytes.
fn line(event: &Event) -> String {
    match event {
        Event::Message { flag, position, prefix, content } => {
            format!("M {} {} {} {}\n", *flag as u8, display(*position), String::from_utf8_lossy(prefix).len(), content.len())
        }
        Event::Other { start, end, time, data } => format!("X {} {} {} {}\n", display(*start), display(*end), time, data.len()),
        other => other.line() + "\n",
    }
}

/// Already open, the queue free, no stop position; the input ends after its last byte.
fn events(bytes: &[u8]) -> String {
    let settings = Settings { status: MOST_INTERVAL, idle: MOST_INTERVAL, limit: 65_536, stop_at: None, timing: false, binary: false };
    let mut run = Run::new(settings, 0, State::Turn);
    let mut payload = vec![0; 65_536];
    let mut unread = bytes;
    let mut lines = String::new();
    loop {
        let input = Input { moment: 1, client_time: 0, stop: false, queue: Queue::Free, unread, ended: true };
        let answer = run.step(&input, &mut payload, &mut [0; 39]);
        unread = &unread[answer.taken..];
        answer.event.iter().for_each(|event| lines += &line(event));
        if run.state == State::Ended {
            return lines + &format!("END {}\n", answer.refusal);
        }
    }
}

pub fn all(folder: &Path) {
    // the example of SCOPE 11.4
    let example = [&[0x64, 0, 0, 0, 0x16, 0x6B][..], &[0; 7], &[0x10], &[0; 9]].concat();
    assert_eq!(events(&example), "K 0/10 0 0\nEND 8\n");
    std::fs::write(folder.join("events-stdin"), &example).unwrap();
    std::fs::write(folder.join("events-stdout"), events(&example)).unwrap();
    let names = stream_files();
    let mut all = String::new();
    for name in &names {
        let told = events(&std::fs::read(name).unwrap());
        assert_eq!(told, std::fs::read_to_string(name.with_extension("events")).unwrap(), "{}", name.display());
        all += &format!("{}\n{told}", name.file_name().unwrap().to_str().unwrap());
    }
    std::fs::write(folder.join("streams-stdout"), &all).unwrap();
    println!("vectors: streams, {} files, {} lines", names.len(), all.lines().count());
}
