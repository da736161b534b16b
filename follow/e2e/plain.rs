//! A connection to the server that asks simple queries, without the library: what it answers is what the library is held against.
use crate::fail::fail;
use std::io::{Read, Write};
use std::net::TcpStream;
use std::time::Duration;

/// A row of an answer: for each column its bytes, or none where it is null.
pub type Answer = Vec<Option<Vec<u8>>>;

/// A connection whose user needs no password.
pub struct Plain {
    pub socket: TcpStream,
}

impl Plain {
    pub fn connect(port: u16, database: &str, replication: bool) -> Plain {
        let socket = TcpStream::connect(("127.0.0.1", port)).unwrap_or_else(|e| fail(&format!("port {port}: {e}")));
        socket.set_read_timeout(Some(Duration::from_secs(30))).expect("a limit of reading");
        let mut parameters = format!("user\0postgres\0database\0{database}\0client_encoding\0UTF8\0");
        if replication {
            parameters.push_str("replication\0database\0");
        }
        let body = [&196_608u32.to_be_bytes(), parameters.as_bytes(), b"\0"].concat();
        let mut plain = Plain { socket };
        plain.send(None, &body);
        plain.until_ready(|_, _| {});
        plain
    }

    /// A message: its tag, its length and its body.
    pub fn send(&mut self, tag: Option<u8>, body: &[u8]) {
        let length = (body.len() as u32 + 4).to_be_bytes();
        let message = [tag.as_slice(), &length, body].concat();
        self.socket.write_all(&message).unwrap_or_else(|e| fail(&format!("the server takes no message: {e}")));
    }

    fn receive(&mut self, n: usize) -> Vec<u8> {
        let mut bytes = vec![0; n];
        self.socket.read_exact(&mut bytes).unwrap_or_else(|e| fail(&format!("the server answers nothing: {e}")));
        bytes
    }

    fn until_ready(&mut self, mut take: impl FnMut(u8, &[u8])) {
        loop {
            let head = self.receive(5);
            let length = u32::from_be_bytes(head[1..].try_into().expect("four bytes"));
            let body = self.receive(length as usize - 4);
            match head[0] {
                b'E' => fail(&format!("the server says: {}", String::from_utf8_lossy(&body))),
                b'Z' => return,
                tag => take(tag, &body),
            }
        }
    }

    /// The rows that answer a query of one or several commands.
    pub fn query(&mut self, text: &str) -> Vec<Answer> {
        let mut rows = Vec::new();
        self.send(Some(b'Q'), &[text.as_bytes(), b"\0"].concat());
        self.until_ready(|tag, body| {
            if tag == b'D' {
                rows.push(answer(body));
            }
        });
        rows
    }

    /// The same, each column as a text.
    pub fn texts(&mut self, text: &str) -> Vec<Vec<String>> {
        let text_of = |value: Option<Vec<u8>>| String::from_utf8(value.unwrap_or_default()).expect("UTF-8");
        self.query(text).into_iter().map(|row| row.into_iter().map(text_of).collect()).collect()
    }
}

// The columns of a DataRow.
fn answer(body: &[u8]) -> Answer {
    let count = u16::from_be_bytes([body[0], body[1]]);
    let mut rest = &body[2..];
    let mut columns = Vec::new();
    for _ in 0..count {
        let (length, after) = rest.split_at(4);
        rest = after;
        let length = i32::from_be_bytes(length.try_into().expect("four bytes"));
        columns.push((length >= 0).then(|| rest[..length as usize].to_vec()));
        rest = &rest[length.max(0) as usize..];
    }
    columns
}
