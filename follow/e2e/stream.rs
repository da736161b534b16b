//! A small host of the library: follows a slot of its own on a blocking connection.
use crate::fail::fail;
use crate::plain::Plain;
use rufflesquash::{Event, Input, Lsn, Moment, Queue, Run, Settings, State, Text, STEP_OUTPUT};
use std::io::{Read, Write};
use std::time::Instant;

pub struct Stream {
    plain: Plain,
    run: Run,
    began: Instant,
    payload: Vec<u8>,
    input: Vec<u8>,
    at: usize,
    filled: usize,
}

impl Stream {
    /// Makes a slot that ends with the connection, and follows it from here on.
    pub fn open(port: u16, database: &str, publication: &str, binary: bool) -> Stream {
        let mut plain = Plain::connect(port, database, true);
        let slot = format!("e2e_{database}");
        plain.query(&format!("CREATE_REPLICATION_SLOT {slot} TEMPORARY LOGICAL pgoutput NOEXPORT_SNAPSHOT"));
        let settings = Settings { max_message_size: 4_194_304, binary, ..Settings::default() };
        let mut query = [0; 512];
        let opened = Run::open(&settings, slot.as_bytes(), &[Text::from(publication)], Lsn(0), Lsn(0), &mut query);
        let (run, n) = opened.unwrap_or_else(|refusal| fail(&format!("the stream is not opened: {refusal}")));
        plain.socket.write_all(&query[..n]).unwrap_or_else(|e| fail(&format!("the server takes no query: {e}")));
        let payload = vec![0; settings.payload_len()];
        Stream { plain, run, began: Instant::now(), payload, input: vec![0; 65_536], at: 0, filled: 0 }
    }

    /// Hands on events until one is answered with true.
    pub fn until(&mut self, mut take: impl FnMut(Event) -> bool) {
        let mut out = [0; STEP_OUTPUT];
        loop {
            let moment = Moment(self.began.elapsed().as_nanos() as u64 + 1);
            let input = Input { moment, client_time_micros: 0, stop: false, queue: Queue::Free, ended: false };
            let step = self.run.advance(&input, &self.input[self.at..self.filled], &mut self.payload, &mut out);
            if let Some(refusal) = step.refusal {
                fail(&format!("refusal {}: {refusal}", refusal.number()));
            }
            self.at += step.taken;
            let (written, done) = (step.written, step.event.is_some_and(&mut take));
            self.plain.socket.write_all(&out[..written]).unwrap_or_else(|e| fail(&format!("the server takes no status: {e}")));
            if done {
                return;
            }
            self.read();
        }
    }

    // Where the run takes bytes and has none.
    fn read(&mut self) {
        let takes = matches!(self.run.state(), State::Opening | State::Reading | State::Waiting);
        if takes && self.at == self.filled {
            self.at = 0;
            self.filled = match self.plain.socket.read(&mut self.input) {
                Ok(n @ 1..) => n,
                other => fail(&format!("the stream ends: {other:?}")),
            };
        }
    }
}
