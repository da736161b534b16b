//! Stands between `follow` and the server: closes connections at random bytes, and keeps an account of its own of what was confirmed.
//!
//! proxy SERVER_PORT STATE_FILE CUTS SEED: listens on a free port of loopback and keeps in the file one line of numbers:
//! port, connections, cuts, cuts within a message, last confirmed position, commits sent again although confirmed before.
use std::io::{Read, Write};
use std::net::{Shutdown, TcpListener, TcpStream};
use std::sync::{Arc, Mutex};
use std::{env, fs, thread};

#[derive(Default)]
struct Account {
    path: String,
    port: u16,
    connections: u64,
    cuts: u64,
    within: u64,
    confirmed: u64,
    again: u64,
}

impl Account {
    // Written beside and moved, so that a reader never sees half of it.
    fn save(&self) {
        let text = format!(
            "{} {} {} {} {:X}/{:X} {}\n",
            self.port,
            self.connections,
            self.cuts,
            self.within,
            self.confirmed >> 32,
            self.confirmed & 0xFFFF_FFFF,
            self.again
        );
        let beside = format!("{}.new", self.path);
        fs::write(&beside, text).expect("the state file");
        fs::rename(&beside, &self.path).expect("the state file");
    }
}

/// Cuts a stream into messages, and keeps the first bytes of each payload.
struct Messages {
    header: Vec<u8>,
    head: Vec<u8>,
    left: usize,
    startup: bool,
    // The server's first byte may be its answer to a request for TLS, which has no length.
    answer: bool,
}

const HEAD: usize = 43;
/// The code of a request for TLS; another startup message follows it.
const TLS_REQUEST: [u8; 4] = 80_877_103u32.to_be_bytes();

impl Messages {
    fn new(startup: bool) -> Messages {
        Messages { header: Vec::new(), head: Vec::new(), left: 0, startup, answer: false }
    }

    fn within(&self) -> bool {
        !self.header.is_empty()
    }

    // Takes bytes, and calls with the tag and the payload's first bytes of each message that is whole.
    fn feed(&mut self, bytes: &[u8], mut whole: impl FnMut(u8, &[u8])) {
        for b in bytes {
            if std::mem::take(&mut self.answer) && *b == b'N' {
                continue;
            }
            let header = if self.startup { 4 } else { 5 };
            if self.header.len() < header {
                self.header.push(*b);
                if self.header.len() < header {
                    continue;
                }
                let length = self.header[header - 4..].try_into().expect("four bytes");
                self.left = u32::from_be_bytes(length) as usize - 4;
            } else {
                self.left -= 1;
                if self.head.len() < HEAD {
                    self.head.push(*b);
                }
            }
            if self.left == 0 {
                whole(if self.startup { 0 } else { self.header[0] }, &self.head);
                *self = Messages::new(self.startup && self.head == TLS_REQUEST);
            }
        }
    }
}

fn number(bytes: &[u8]) -> u64 {
    u64::from_be_bytes(bytes.try_into().expect("eight bytes"))
}

// The client's bytes: each status counts as confirmed once it was passed on.
fn to_server(mut client: TcpStream, mut server: TcpStream, account: &Mutex<Account>) {
    let mut messages = Messages::new(true);
    let mut buffer = [0; 4096];
    while let Ok(n @ 1..) = client.read(&mut buffer) {
        if server.write_all(&buffer[..n]).is_err() {
            break;
        }
        messages.feed(&buffer[..n], |tag, head| {
            if tag == b'd' && head.first() == Some(&b'r') {
                let mut account = account.lock().expect("no thread fails");
                account.confirmed = number(&head[9..17]);
                account.save();
            }
        });
    }
    let _ = server.shutdown(Shutdown::Both);
    let _ = client.shutdown(Shutdown::Both);
}

// The server's bytes, so many of them where the connection is to be cut.
fn to_client(mut server: TcpStream, mut client: TcpStream, mut limit: Option<usize>, account: &Mutex<Account>) {
    let confirmed = account.lock().expect("no thread fails").confirmed;
    let mut messages = Messages { answer: true, ..Messages::new(false) };
    let mut buffer = [0; 8192];
    while limit != Some(0) {
        let room = limit.unwrap_or(buffer.len()).min(buffer.len());
        let Ok(n @ 1..) = server.read(&mut buffer[..room]) else {
            break;
        };
        limit = limit.map(|left| left - n);
        messages.feed(&buffer[..n], |tag, head| {
            // XLogData with a Commit: its end stands after 25 bytes of XLogData, the letter, a flag and the commit's position.
            if tag == b'd' && head.len() == HEAD && head[0] == b'w' && head[25] == b'C' && number(&head[35..43]) <= confirmed {
                account.lock().expect("no thread fails").again += 1;
            }
        });
        if client.write_all(&buffer[..n]).is_err() {
            break;
        }
    }
    if limit == Some(0) {
        let mut account = account.lock().expect("no thread fails");
        account.cuts += 1;
        account.within += u64::from(messages.within());
        account.save();
    }
    let _ = client.shutdown(Shutdown::Both);
    let _ = server.shutdown(Shutdown::Both);
}

fn pass(client: TcpStream, port: u16, limit: Option<usize>, account: &Arc<Mutex<Account>>) -> std::io::Result<()> {
    let server = TcpStream::connect(("127.0.0.1", port))?;
    server.set_nodelay(true)?;
    client.set_nodelay(true)?;
    let (from, to, own) = (client.try_clone()?, server.try_clone()?, account.clone());
    thread::spawn(move || to_server(from, to, &own));
    let own = account.clone();
    thread::spawn(move || to_client(server, client, limit, &own));
    Ok(())
}

fn main() {
    let arguments: Vec<String> = env::args().collect();
    let parse = |i: usize| arguments[i].parse::<u64>().expect("a number");
    let (server_port, cuts, mut random) = (parse(1) as u16, parse(3), parse(4) | 1);
    let listener = TcpListener::bind(("127.0.0.1", 0)).expect("a free port");
    let port = listener.local_addr().expect("a bound socket").port();
    let account = Arc::new(Mutex::new(Account { path: arguments[2].clone(), port, ..Account::default() }));
    account.lock().expect("no thread fails").save();
    for client in listener.incoming().flatten() {
        random ^= random << 13;
        random ^= random >> 7;
        random ^= random << 17;
        let cut = {
            let mut account = account.lock().expect("no thread fails");
            account.connections += 1;
            (account.cuts < cuts).then_some(account.connections)
        };
        // From a few bytes, in the startup, to about 260,000; small ones are as likely as large ones. The first stream begins well.
        let spread = (random >> 8) as usize % (1 << (10 + random % 9));
        let limit = cut.map(|count| if count == 1 { 20_000 + spread } else { 300 + spread });
        // A server that is down: the client is closed.
        let _ = pass(client, server_port, limit, &account);
    }
}
