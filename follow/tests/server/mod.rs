//! A server of the tests: it lets `follow` in, answers what is asked before a stream, and reads what is confirmed.
#![allow(dead_code)]

#[path = "../../../host/tests/common/mod.rs"]
mod common;

pub use common::{begin, commit, keepalive, message, row, xlog_data};
use std::io::{Read, Write};
use std::net::{TcpListener, TcpStream};
use std::process::{Command, Output, Stdio};
use std::thread::{self, JoinHandle};

/// `follow` with what every test gives it; the rest of the surroundings says nothing of a connection.
pub fn command(port: u16, arguments: &[&str]) -> Command {
    let mut command = Command::new(env!("CARGO_BIN_EXE_follow"));
    command.args(["-h", "127.0.0.1", "-p", &port.to_string(), "-U", "me", "-d", "db", "-S", "s"]).args(arguments);
    // The server of the tests asks for the password in clear.
    command.env("PGPASSWORD", "geheim").env("PGREQUIREAUTH", "password").stdin(Stdio::null());
    command
}

/// Follows the publication P until the end.
pub fn follow(port: u16, arguments: &[&str]) -> Output {
    command(port, &[&["--publication", "P"], arguments].concat()).output().expect("follow runs")
}

/// The one line on standard error.
pub fn line(output: &Output) -> String {
    let text = String::from_utf8(output.stderr.clone()).unwrap();
    assert_eq!(text.lines().count(), 1, "{text}");
    assert!(text.starts_with("follow: "), "{text}");
    text.trim_end().to_string()
}

/// The first word of each line that was printed.
pub fn kinds(output: &Output) -> Vec<String> {
    let text = String::from_utf8(output.stdout.clone()).unwrap();
    text.lines().filter_map(|line| line.split(' ').next()).map(String::from).collect()
}

/// Waits for clients on a port of its own.
pub fn serve<T: Send + 'static>(server: impl FnOnce(TcpListener) -> T + Send + 'static) -> (u16, JoinHandle<T>) {
    let listener = TcpListener::bind("127.0.0.1:0").unwrap();
    let port = listener.local_addr().unwrap().port();
    (port, thread::spawn(move || server(listener)))
}

/// The next client.
pub fn accept(listener: &TcpListener) -> TcpStream {
    listener.accept().unwrap().0
}

/// A message of the client.
pub fn receive(client: &mut TcpStream) -> (u8, Vec<u8>) {
    let mut tag = [0];
    client.read_exact(&mut tag).expect("a tag");
    (tag[0], payload(client))
}

fn payload(client: &mut TcpStream) -> Vec<u8> {
    let mut length = [0; 4];
    client.read_exact(&mut length).expect("a length");
    let mut payload = vec![0; u32::from_be_bytes(length) as usize - 4];
    client.read_exact(&mut payload).expect("a payload");
    payload
}

/// The client's startup message, which has no tag. TLS, where it is asked for, is refused.
pub fn startup(client: &mut TcpStream) -> String {
    let mut message = payload(client);
    while message == 80_877_103_u32.to_be_bytes() {
        client.write_all(b"N").unwrap();
        message = payload(client);
    }
    String::from_utf8_lossy(&message).into_owned()
}

/// Lets the client in with a cleartext password.
pub fn authenticate(client: &mut TcpStream) {
    let text = startup(client);
    assert!(text.contains("replication\0database\0") && text.contains("user\0me\0"));
    client.write_all(&message(b'R', &[0, 0, 0, 3])).unwrap();
    assert_eq!(receive(client), (b'p', b"geheim\0".to_vec()));
    client.write_all(&message(b'R', &[0; 4])).unwrap();
    client.write_all(&message(b'S', b"a\0b\0")).unwrap();
    client.write_all(&message(b'Z', b"I")).unwrap();
}

/// The client's next query.
pub fn query(client: &mut TcpStream) -> String {
    let (tag, text) = receive(client);
    assert_eq!(tag, b'Q');
    String::from_utf8(text).unwrap().trim_end_matches('\0').to_string()
}

/// Answers a query with rows of one column.
pub fn answer(client: &mut TcpStream, rows: &[&[u8]]) {
    for value in rows {
        client.write_all(&message(b'D', &row(&[Some(value)]))).unwrap();
    }
    client.write_all(&message(b'C', b"SELECT\0")).unwrap();
    client.write_all(&message(b'Z', b"I")).unwrap();
}

/// The payload of an ErrorResponse.
pub fn error(state: &str, text: &str) -> Vec<u8> {
    format!("SERROR\0C{state}\0M{text}\0\0").into_bytes()
}

/// Answers a query with an error.
pub fn refuse(client: &mut TcpStream, error: &[u8]) {
    client.write_all(&message(b'E', error)).unwrap();
    client.write_all(&message(b'Z', b"I")).unwrap();
}

/// A slot that can be followed, as the client asks for it.
pub const SLOT: &[u8] = b"logical\n\nreserved\n0/0\nfalse\n60000\npgoutput\n";

/// What a server says of itself: its identifier, its timeline and the end of its log.
pub const SYSTEM: [&str; 3] = ["7000000000000000001", "1", "F/0"];

/// Answers what is asked before a stream: a publication, a table, a slot, the server. The first other query.
pub fn asked(client: &mut TcpStream, slot: &[u8]) -> String {
    asked_of(client, slot, SYSTEM)
}

/// Answers IDENTIFY_SYSTEM.
pub fn identify(client: &mut TcpStream, system: [&str; 3]) {
    client.write_all(&message(b'D', &row(&system.map(|value| Some(value.as_bytes()))))).unwrap();
    client.write_all(&message(b'C', b"IDENTIFY_SYSTEM\0")).unwrap();
    client.write_all(&message(b'Z', b"I")).unwrap();
}

/// The same of another server.
pub fn asked_of(client: &mut TcpStream, slot: &[u8], system: [&str; 3]) -> String {
    loop {
        let text = query(client);
        if text == "IDENTIFY_SYSTEM" {
            identify(client, system);
            continue;
        }
        let known = [("SELECT pubname", &b"P"[..]), ("SELECT DISTINCT pg_catalog.concat", b"77 a.b"), ("SELECT pg_catalog.concat_ws", slot)];
        match known.iter().find(|(begin, _)| text.starts_with(begin)) {
            Some((_, row)) => answer(client, &[row]),
            None => return text,
        }
    }
}

/// Lets the client in and begins the stream; the query that asked for it.
pub fn let_in(client: &mut TcpStream) -> String {
    authenticate(client);
    let text = asked(client, SLOT);
    assert!(text.starts_with("START_REPLICATION "), "{text}");
    client.write_all(&message(b'W', &[0; 3])).unwrap();
    text
}

/// The positions of the statuses up to the CopyDone; a Terminate follows it.
pub fn statuses(client: &mut TcpStream) -> Vec<u64> {
    let mut positions = Vec::new();
    loop {
        match receive(client) {
            (b'd', body) => positions.push(status(&body)),
            (b'c', _) => break,
            other => panic!("{other:?}"),
        }
    }
    assert_eq!(receive(client), (b'X', vec![]));
    positions
}

/// The position that a status confirms.
pub fn status(body: &[u8]) -> u64 {
    assert_eq!((body[0], body.len()), (b'r', 34));
    u64::from_be_bytes(body[9..17].try_into().unwrap())
}

/// A transaction of one change.
pub fn transaction(at: u64, xid: u32) -> Vec<u8> {
    transaction_of(at, xid, &[b"Insert"])
}

pub fn transaction_of(at: u64, xid: u32, data: &[&[u8]]) -> Vec<u8> {
    let mut bytes = xlog_data(at, at, 0, &begin(at, 0, xid));
    data.iter().for_each(|data| bytes.extend(xlog_data(at, at, 0, data)));
    bytes.extend(xlog_data(at, at, 0, &commit(at, at + 8, 0)));
    bytes
}

/// Lines that a pipe hands over, one after the other.
pub fn lines(pipe: &mut impl Read, count: usize) -> Vec<String> {
    let mut text = Vec::new();
    while text.iter().filter(|b| **b == b'\n').count() < count {
        let mut byte = [0];
        pipe.read_exact(&mut byte).expect("a line");
        text.extend(byte);
    }
    String::from_utf8(text).unwrap().lines().map(String::from).collect()
}

/// Sends a signal to a process, as `kill` does.
pub fn signal(pid: u32, name: &str) {
    let sent = Command::new("kill").args(["-s", name, &pid.to_string()]).status().expect("kill runs");
    assert!(sent.success());
}
