//! consumer LOG SEED all|files: a consumer of `follow --ack --json`, as a program of any language could be one. It reads the lines of follow, appends
//! each whole transaction to LOG, and acknowledges on standard output what stands there, at random moments. Each acknowledgement stands in LOG before
//! it is written, so that LOG always holds at least what follow can know. Its lines:
//!
//! tx NUMBER ROWS END [FILES]: a transaction of the workload with this number, how many of its rows came, and the end of its commit.
//! ack FILE END: what was acknowledged, for all files where FILE is `*`.
//! resumed FROM: follow connected again.
mod draw;
mod fail;
mod json;

use draw::Draw;
use fail::fail;
use json::Json;
use std::fs::{File, OpenOptions};
use std::io::{self, BufRead, Read, Write};
use std::sync::mpsc::{channel, RecvTimeoutError};
use std::time::Duration;
use std::{env, process, thread};

const FILES: usize = 4;

/// A transaction that is not yet committed: its number and its rows so far.
#[derive(Default)]
struct Open {
    number: String,
    rows: usize,
}

struct Consumer {
    log: File,
    draw: Draw,
    by_file: bool,
    open: Option<Open>,
    // The end of the last transaction that stands in the file, and what each file was acknowledged to.
    end: String,
    acknowledged: [String; FILES],
}

// What was cut off by a kill has no end of line, and counts for nothing.
fn open_log(path: &str) -> io::Result<File> {
    let mut log = OpenOptions::new().read(true).create(true).append(true).open(path)?;
    let mut text = Vec::new();
    log.read_to_end(&mut text)?;
    log.set_len(text.iter().rposition(|byte| *byte == b'\n').map_or(0, |at| at + 1) as u64)?;
    Ok(log)
}

impl Consumer {
    fn keep(&mut self, line: &str) {
        let kept = self.log.write_all(line.as_bytes()).and_then(|()| self.log.sync_data());
        kept.unwrap_or_else(|e| fail(&format!("the consumer's file: {e}")));
    }

    fn take(&mut self, line: &Json) {
        match line.get("event").text() {
            "begin" => self.open = Some(Open::default()),
            "resumed" => {
                self.open = None;
                self.keep(&format!("resumed {}\n", line.get("from").text()));
            }
            "data" if line.get("kind").text() == "insert" => self.row(line),
            "commit" => self.commit(line),
            _ => {}
        }
    }

    // Every row has the number of its transaction in the column n.
    fn row(&mut self, line: &Json) {
        let open = self.open.as_mut().unwrap_or_else(|| fail("a row outside a transaction"));
        let column = line.get("columns").list().iter().find(|column| column.get("name").text() == "n");
        let number = column.unwrap_or_else(|| fail("a row without its number")).get("value").text();
        if open.rows > 0 && open.number != number {
            fail(&format!("a row of transaction {number} within {}", open.number));
        }
        open.number = number.to_string();
        open.rows += 1;
    }

    fn commit(&mut self, line: &Json) {
        let open = self.open.take().unwrap_or_else(|| fail("a commit without its begin"));
        self.end = line.get("end_lsn").text().to_string();
        if open.rows > 0 {
            let files: Vec<String> =
                line.find("files").map_or(Vec::new(), |files| files.list().iter().map(|file| file.number().to_string()).collect());
            self.keep(&format!("tx {} {} {} {}\n", open.number, open.rows, self.end, files.join(",")));
        }
        if self.draw.below(4) == 0 {
            let file = self.draw.below(FILES as u64) as usize;
            self.acknowledge(if self.by_file { file..file + 1 } else { 0..FILES });
        }
    }

    fn acknowledge(&mut self, files: std::ops::Range<usize>) {
        for file in files {
            if self.acknowledged[file] == self.end {
                continue;
            }
            let name = if self.by_file { format!("{file} ") } else { String::new() };
            self.keep(&format!("ack {} {}\n", if self.by_file { file.to_string() } else { "*".into() }, self.end));
            // Follow has ended: what it did not read it does not know.
            if writeln!(io::stdout(), "{name}{}", self.end).is_err() {
                process::exit(0);
            }
            if self.by_file {
                self.acknowledged[file] = self.end.clone();
            } else {
                self.acknowledged = std::array::from_fn(|_| self.end.clone());
            }
        }
    }
}

fn main() {
    let arguments: Vec<String> = env::args().collect();
    let log = open_log(&arguments[1]).unwrap_or_else(|e| fail(&format!("{}: {e}", arguments[1])));
    let draw = Draw::new(arguments[2].parse().expect("a number"));
    let mut consumer = Consumer { log, draw, by_file: arguments[3] == "files", open: None, end: String::new(), acknowledged: Default::default() };
    let (sender, lines) = channel();
    thread::spawn(move || io::stdin().lock().lines().map_while(Result::ok).all(|line| sender.send(line).is_ok()));
    loop {
        match lines.recv_timeout(Duration::from_millis(5)) {
            Ok(line) => consumer.take(&json::read(&line)),
            // With nothing more to read all is acknowledged.
            Err(RecvTimeoutError::Timeout) => consumer.acknowledge(0..FILES),
            Err(RecvTimeoutError::Disconnected) => return,
        }
    }
}
