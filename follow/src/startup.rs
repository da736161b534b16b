//! What comes before the stream: a server is chosen, startup, authentication, and simple queries.
use crate::auth::{Auth, Channel, Step};
use crate::conninfo::{Conninfo, Place, SessionAttrs, SslMode, Target};
use crate::failure::{sqlstate, Failure, FAILED};
use crate::ffi::{self, Waiter};
use crate::link::{Address, Link};
use crate::terminal;
use crate::tls::Connector;
use rufflesquash::{Column, DataRow, Message, MessageReader, Query, QueryAnswer, Refusal, Text};
use std::time::{Duration, Instant};

/// The longest answer that is taken here, and the longest error that is kept, in bytes.
const LONGEST_ANSWER: usize = 1_048_576;

/// No query here has an answer of so many bytes.
const LONGEST_ROWS: usize = 16 * 1_048_576;

/// What answers a query: rows, or the payload of the server's ErrorResponse.
pub type Answers<Row> = Result<Vec<Row>, Vec<u8>>;

/// When the user is asked for a password.
#[derive(Clone, Copy, Debug, PartialEq)]
pub enum Ask {
    /// -w
    Never,
    /// Where the server wants one and none is known.
    WhenNeeded,
    /// -W
    First,
}

/// A password that the user typed is asked for once.
#[derive(Debug)]
pub struct Passwords {
    pub ask: Ask,
    pub typed: Option<Vec<u8>>,
}

impl Passwords {
    // Asks the user; fails where that is forbidden, not possible, or was done before.
    fn ask(&mut self, user: &str, waiter: &Waiter) -> Result<(), Failure> {
        let wanted = if self.ask == Ask::First { "-W asks for a password" } else { "the server asks for a password" };
        let known = "set PGPASSWORD, or write it to ~/.pgpass or into the connection string";
        let fail = |line: String| Err(Failure::new(FAILED, line));
        if self.ask == Ask::Never {
            return fail(format!("{wanted}, and -w forbids to ask for it: {known}"));
        }
        if self.typed.is_some() {
            return fail(format!("{wanted}, and an empty one was typed"));
        }
        match terminal::ask_password(user, waiter)? {
            Some(typed) => self.typed = Some(typed),
            None => return fail(format!("{wanted}, and there is no terminal to ask at: {known}, or run where there is a terminal")),
        }
        Ok(())
    }
}

/// Why an attempt to connect failed, and what may help.
enum Miss {
    /// The server was not reached, or is not there yet: the next address or server may do. With whether even the socket failed.
    Next(Failure, bool),
    /// Refused before the user was authenticated, or TLS did not come about: the other of TLS and plain may do.
    Other(Failure),
    /// No further attempt helps.
    End(Failure),
    /// An error of the server's, and where in the startup it came.
    Rejected(Failure, Stage),
    /// The server wants a password, and none is known.
    Password,
}

/// How far a startup was.
#[derive(Clone, Copy, PartialEq)]
enum Stage {
    /// The server is starting up, or shutting down.
    Closed,
    /// Nothing was sent that says who the user is.
    Asked,
    /// A password was sent.
    Sent,
    /// The user was let in.
    Allowed,
}

impl From<Failure> for Miss {
    fn from(failure: Failure) -> Miss {
        if failure.again {
            Miss::Next(failure, false)
        } else {
            Miss::End(failure)
        }
    }
}

/// What the attempts of one connection share.
struct Opening<'c, 'a> {
    conninfo: &'c Conninfo,
    waiter: &'a Waiter,
    typed: Option<&'c [u8]>,
    connector: Option<Connector>,
    attrs: SessionAttrs,
}

impl<'a> Opening<'_, 'a> {
    // Each server, and each address of it, in order.
    fn each_target(&mut self) -> Result<Talk<'a>, Miss> {
        let conninfo = self.conninfo;
        let (mut missed, mut unreached, mut there) = (Vec::new(), true, false);
        for target in &conninfo.targets {
            let addresses = match Address::all(target, self.waiter) {
                Ok(addresses) => addresses,
                Err(reason) => {
                    missed.push(format!("{target}: {reason}"));
                    continue;
                }
            };
            for address in &addresses {
                let (failure, socket) = match self.each_mode(target, address).and_then(|talk| self.accept(talk)) {
                    Err(Miss::Next(failure, socket)) => (failure, socket),
                    other => return other,
                };
                let several = if addresses.len() > 1 { format!(" ({address})") } else { String::new() };
                missed.push(format!("{target}{several}: {}", failure.line));
                unreached &= socket;
                there |= failure.there;
                if ffi::stop_requested() {
                    return Err(Failure::cut("stopped before a connection was open").into());
                }
            }
        }
        let advice = if unreached { "; is the server running, and are host and port right?" } else { "" };
        Err(Failure { there, ..Failure::cut(format!("cannot connect to {}{advice}", missed.join("; "))) }.into())
    }

    // A server that is not of the wanted kind is left for the next.
    fn accept(&self, mut talk: Talk<'a>) -> Result<Talk<'a>, Miss> {
        let Some((query, wanted, otherwise)) = self.attrs.question() else { return Ok(talk) };
        match talk.query(query)? {
            Ok(rows) if rows.first().is_some_and(|answer| answer == wanted) => Ok(talk),
            Ok(_) => Err(Failure::cut(otherwise).into()),
            Err(error) => Err(Failure::server(&error).into()),
        }
    }

    // With and without TLS, as sslmode has it; Unix sockets have none.
    fn each_mode(&mut self, target: &Target, address: &Address) -> Result<Talk<'a>, Miss> {
        let until = self.conninfo.connect_timeout.or(self.conninfo.server_timeout).map(|timeout| Instant::now() + timeout);
        let mode = if matches!(address, Address::Unix(_)) { SslMode::Disable } else { self.conninfo.tls.mode };
        let (first, second) = match mode {
            SslMode::Disable => (false, None),
            SslMode::Allow => (false, Some(true)),
            SslMode::Prefer => (true, Some(false)),
            SslMode::Require | SslMode::VerifyCa | SslMode::VerifyFull => (true, None),
        };
        let failed = match (self.attempt(target, address, first, until), second) {
            (Err(Miss::Other(failure)), Some(_)) => failure,
            (Err(Miss::Other(failure)), None) => return Err(failure.into()),
            (other, _) => return other,
        };
        let with = if first { "without TLS" } else { "with TLS" };
        match self.attempt(target, address, !first, until) {
            Err(Miss::Other(again) | Miss::End(again)) => {
                let line =
                    if again.line == failed.line { failed.line } else { format!("{}; {with}: {}", brief(&failed.line, &again.line), again.line) };
                Err(Miss::End(Failure { line, ..again }))
            }
            other => other,
        }
    }

    fn attempt(&mut self, target: &Target, address: &Address, tls: bool, until: Option<Instant>) -> Result<Talk<'a>, Miss> {
        let socket = |reason| Miss::Next(Failure::cut(reason), true);
        let mut link = Link::open(address, &self.conninfo.keepalives, self.waiter, until).map_err(socket)?;
        if tls {
            link = self.secure(link, target, until)?;
        }
        let password = self.typed.or(target.password.as_deref());
        let is_tls = link.is_tls();
        let channel = Channel { tls: is_tls, unix: matches!(address, Address::Unix(_)), end_point: link.end_point() };
        let mut auth = Auth::new(self.conninfo, password, channel);
        let mut talk = Talk::new(link, self.conninfo.server_timeout);
        let opened = talk.startup(self.conninfo, &mut auth, until).and_then(|()| Ok(talk.take_any_encoding()?));
        match opened {
            Ok(()) => {
                let Conninfo { user, dbname, .. } = self.conninfo;
                let tls = if is_tls { "TLS" } else { "no TLS" };
                talk.about = format!("{target} as {user}, database {dbname}, {tls}, {}", auth.method());
                Ok(talk)
            }
            Err(miss) => match self.explain(miss, &talk, target) {
                // The server has no TLS, so this was the other way already.
                Miss::Other(failure) if tls && !is_tls => Err(Miss::End(failure)),
                miss => Err(miss),
            },
        }
    }

    // Asks for TLS. A server that has none gets us in clear on the same connection, where the mode allows that.
    fn secure(&mut self, mut link: Link<'a>, target: &Target, until: Option<Instant>) -> Result<Link<'a>, Miss> {
        let mode = self.conninfo.tls.mode;
        match link.ask_tls(until)? {
            Some(b'S') => {}
            Some(b'N') if mode == SslMode::Prefer => return Ok(link),
            Some(b'N') => {
                let line = "the server does not speak TLS, and sslmode asks for it: set ssl = on there; is it the server that it seems to be?";
                return Err(Miss::Other(Failure::new(FAILED, line)));
            }
            // The text of this error is not shown: nothing says yet who sent it.
            Some(b'E') => return Err(Miss::Other(Failure::new(FAILED, "the server answers the request for TLS with an error: look at its log"))),
            Some(_) => return Err(unexpected().into()),
            None => return Err(Failure::cut("the server closed the connection when TLS was asked for").into()),
        }
        let host = match &target.place {
            Place::Tcp { host, hostaddr } if host.is_empty() && mode != SslMode::VerifyFull => hostaddr.as_deref().unwrap_or(""),
            Place::Tcp { host, .. } => host.as_str(),
            Place::Unix(_) => "",
        };
        if self.connector.is_none() {
            self.connector = Some(Connector::new(&self.conninfo.tls).map_err(Miss::Other)?);
        }
        let Some(connector) = &self.connector else { return Err(unexpected().into()) };
        link.secure(connector, host, until).map_err(Miss::Other)
    }

    // What the server's refusal had to do with, and what follows from it.
    fn explain(&self, miss: Miss, talk: &Talk, target: &Target) -> Miss {
        let connector = self.connector.as_ref().filter(|_| talk.link.is_tls());
        match miss {
            // With TLS 1.3 the server tells only after the handshake that it does not take a certificate.
            Miss::Next(failure, socket) => match (connector, talk.link.trouble()) {
                (Some(connector), Some(trouble)) if trouble.contains("alert") => Miss::Other(Failure::new(FAILED, connector.words(trouble))),
                _ => Miss::Next(failure, socket),
            },
            Miss::Rejected(failure, Stage::Closed) => Miss::Next(failure, false),
            Miss::Rejected(failure, Stage::Allowed) => Miss::End(failure),
            Miss::Rejected(failure, Stage::Sent) => {
                let line = format!("{}; the password that was sent {}", failure.line, self.source(target));
                Miss::End(Failure { line, ..failure })
            }
            Miss::Rejected(failure, Stage::Asked) => {
                let note = match connector.and_then(Connector::cert) {
                    _ if !failure.line.contains("client certificate") => String::new(),
                    Some(path) => format!("; {} was read: does its key belong to it?", path.display()),
                    None => "; none was sent: name one with sslcert and its key with sslkey".to_string(),
                };
                Miss::Other(Failure { line: failure.line + &note, ..failure })
            }
            miss => miss,
        }
    }

    // Where the password came from.
    fn source(&self, target: &Target) -> String {
        match (self.typed, &target.passfile) {
            (Some(_), _) => "was typed".to_string(),
            (None, Some(file)) => format!("came from {}", file.display()),
            (None, None) => "came from PGPASSWORD or the connection's parameters".to_string(),
        }
    }
}

/// A connection on which nothing streams yet: messages go out and come in one by one.
pub struct Talk<'a> {
    link: Link<'a>,
    reader: MessageReader,
    input: Vec<u8>,
    at: usize,
    filled: usize,
    payload: Vec<u8>,
    about: String,
    // Whether the database's texts are of no encoding.
    sql_ascii: bool,
    /// After how long a server that does not answer is given up; none where it never is.
    pub timeout: Option<Duration>,
}

impl<'a> Talk<'a> {
    /// Connects to the first server that lets us in: says who asks, authenticates, and waits until the server is ready.
    pub fn connect(conninfo: &Conninfo, waiter: &'a Waiter, passwords: &mut Passwords) -> Result<Talk<'a>, Failure> {
        if passwords.ask == Ask::First && passwords.typed.is_none() {
            passwords.ask(&conninfo.user, waiter)?;
        }
        let mut attrs = conninfo.session_attrs;
        loop {
            let mut opening = Opening { conninfo, waiter, typed: passwords.typed.as_deref(), connector: None, attrs };
            match opening.each_target() {
                Ok(talk) => return Ok(talk),
                Err(Miss::Next(..)) if attrs == SessionAttrs::PreferStandby && !ffi::stop_requested() => attrs = SessionAttrs::Any,
                // The connection is closed while the user types: the server does not wait for long.
                Err(Miss::Password) => passwords.ask(&conninfo.user, waiter)?,
                Err(Miss::Next(failure, _) | Miss::Other(failure) | Miss::End(failure) | Miss::Rejected(failure, _)) => return Err(failure),
            }
        }
    }

    fn new(link: Link<'a>, timeout: Option<Duration>) -> Talk<'a> {
        let (input, payload) = (vec![0; 65_536], vec![0; LONGEST_ANSWER]);
        Talk { link, reader: MessageReader::new(), input, at: 0, filled: 0, payload, about: String::new(), sql_ascii: false, timeout }
    }

    // Until the server is ready for a query.
    fn startup(&mut self, conninfo: &Conninfo, auth: &mut Auth, until: Option<Instant>) -> Result<(), Miss> {
        // A server that has closed already may have said why: a message that cannot be sent is no failure of its own here.
        let _ = self.link.send(&startup_message(conninfo)?);
        let mut allowed = false;
        let (failure, closed) = loop {
            let message = self.answer_before(until)?;
            match message.tag {
                b'R' if !allowed => match auth.request(message.payload)? {
                    Step::Send(bytes) => drop(self.link.send(&bytes)),
                    Step::Wait => {}
                    Step::Done => allowed = true,
                    Step::Password => return Err(Miss::Password),
                },
                b'E' => break (Failure::server(message.payload), sqlstate(message.payload) == b"57P03"),
                b'Z' if allowed => return Ok(()),
                b'R' | b'Z' => return Err(unexpected().into()),
                b'S' => self.sql_ascii |= message.payload == b"server_encoding\0SQL_ASCII\0",
                // BackendKeyData, notices.
                _ => {}
            }
        };
        let stage = match (closed, allowed, auth.begun()) {
            (true, _, _) => Stage::Closed,
            (_, true, _) => Stage::Allowed,
            (_, _, true) => Stage::Sent,
            _ => Stage::Asked,
        };
        Err(Miss::Rejected(failure, stage))
    }

    // Texts of no encoding come as they are, and what is no UTF-8 is then lossy: the server would refuse to send it as UTF-8.
    fn take_any_encoding(&mut self) -> Result<(), Failure> {
        if !self.sql_ascii {
            return Ok(());
        }
        self.query("SET client_encoding TO 'SQL_ASCII'")?.map(drop).map_err(|error| Failure::server(&error))
    }

    /// What is told with --verbose: server, user, database, TLS and authentication.
    pub fn about(&self) -> String {
        self.about.clone()
    }

    /// The link, and the bytes that came and belong to no message of the talk.
    pub fn end(self) -> (Link<'a>, Vec<u8>) {
        (self.link, self.input[self.at..self.filled].to_vec())
    }

    /// The next message of the server.
    pub(crate) fn answer(&mut self) -> Result<Message<'_>, Failure> {
        self.answer_before(self.timeout.map(|timeout| Instant::now() + timeout))
    }

    fn answer_before(&mut self, until: Option<Instant>) -> Result<Message<'_>, Failure> {
        let mut ended = false;
        loop {
            let read = self.reader.read(LONGEST_ANSWER, &self.input[self.at..self.filled], ended, &mut self.payload);
            self.at += read.taken;
            let whole = read.message.map(|message| (message.tag, message.payload.len()));
            if let Some(refusal) = read.refusal {
                return Err(refused(refusal));
            }
            if let Some((tag, len)) = whole {
                return Ok(Message { tag, payload: &self.payload[..len] });
            }
            self.filled = self.link.read_some(&mut self.input, until)?;
            (self.at, ended) = (0, self.filled == 0);
        }
    }

    /// Sends a query; its answers are the next messages.
    pub(crate) fn send_query(&mut self, text: &str) -> Result<(), Failure> {
        let mut out = vec![0; text.len() + 6];
        let n = rufflesquash::write_query(text.as_bytes(), &mut out).map_err(|refusal| Failure::refused(refusal, 0))?;
        self.link.send(&out[..n])
    }

    /// The first column of each row that answers a query, or the payload of the server's ErrorResponse.
    pub fn query(&mut self, text: &str) -> Result<Answers<Vec<u8>>, Failure> {
        self.send_query(text)?;
        self.answers()
    }

    /// The first columns of each row.
    pub fn query_columns(&mut self, text: &str, columns: usize) -> Result<Answers<Vec<Vec<u8>>>, Failure> {
        self.send_query(text)?;
        self.rows(columns)
    }

    /// Whether the server says nothing for so long.
    pub(crate) fn silent_for(&mut self, time: Duration) -> bool {
        if self.at < self.filled {
            return false;
        }
        match self.link.read_some(&mut self.input, Some(Instant::now() + time)) {
            Ok(filled) => (self.at, self.filled) = (0, filled),
            Err(_) => return !ffi::stop_requested(),
        }
        false
    }

    /// What answers a query that was sent.
    pub(crate) fn answers(&mut self) -> Result<Answers<Vec<u8>>, Failure> {
        Ok(self.rows(1)?.map(|rows| rows.into_iter().flatten().collect()))
    }

    // Of each row the values of its first columns; nulls are left out.
    fn rows(&mut self, columns: usize) -> Result<Answers<Vec<Vec<u8>>>, Failure> {
        let (mut query, mut error) = (Query::new(), vec![0; LONGEST_ANSWER]);
        let (mut rows, mut bytes) = (Vec::new(), 0);
        loop {
            let message = self.answer()?;
            bytes += message.payload.len() + 64;
            if bytes > LONGEST_ROWS {
                return Err(Failure::new(FAILED, "the server's answer to a query has no end: is this a PostgreSQL server?"));
            }
            match query.message(message, &mut error) {
                QueryAnswer::More => {}
                QueryAnswer::Row(_) => {
                    let Ok(row) = DataRow::parse(message.payload) else { return Err(unexpected()) };
                    let value = |at| match row.column(at) {
                        Column::Value(value) => Some(value.to_vec()),
                        _ => None,
                    };
                    rows.push((0..columns).filter_map(value).collect());
                }
                QueryAnswer::Ready => return Ok(Ok(rows)),
                QueryAnswer::Failed { payload, .. } => return Ok(Err(payload.to_vec())),
                QueryAnswer::Refused(refusal) => return Err(Failure::refused(refusal, 0)),
            }
        }
    }
}

// A line without the advice with which the next one ends, too.
fn brief<'s>(line: &'s str, next: &str) -> &'s str {
    match line.find("; ") {
        Some(at) if next.ends_with(&line[at..]) => &line[..at],
        _ => line,
    }
}

// A refusal of the first bytes: another connection may help where they only ended.
fn refused(refusal: Refusal) -> Failure {
    if refusal.is_transient() {
        return Failure::cut("the server closed the connection while it was opened");
    }
    unexpected()
}

fn unexpected() -> Failure {
    Failure::new(FAILED, "the server's first bytes are not what the protocol says: is this a PostgreSQL server?")
}

/// So that values do not depend on settings of the database and the role: what PostgreSQL's own subscriber asks for, and what else changes them.
const SETTINGS: &str = "-c datestyle=ISO -c intervalstyle=postgres -c extra_float_digits=3 -c TimeZone=UTC -c bytea_output=hex";

fn startup_message(conninfo: &Conninfo) -> Result<Vec<u8>, Failure> {
    // The user's own come after, and win.
    let options = conninfo.options.as_ref().map_or(SETTINGS.to_string(), |own| format!("{SETTINGS} {own}"));
    let parameters = [
        ["user", &conninfo.user].map(Text::from),
        ["database", &conninfo.dbname].map(Text::from),
        ["replication", "database"].map(Text::from),
        ["client_encoding", "UTF8"].map(Text::from),
        ["application_name", &conninfo.application_name].map(Text::from),
        ["options", &options].map(Text::from),
    ];
    let mut out = vec![0; 9 + parameters.as_flattened().iter().map(|text| text.len() + 1).sum::<usize>()];
    let n = rufflesquash::write_startup(&parameters, &mut out).map_err(|refusal| Failure::refused(refusal, 0))?;
    out.truncate(n);
    Ok(out)
}

#[cfg(test)]
#[path = "../tests/server/scram.rs"]
mod scram;

#[cfg(test)]
pub(crate) mod tests {
    use super::*;
    use crate::conninfo::{CertFile, ChannelBinding, Keepalives, RequireAuth, Tls, TlsVersion};
    use crate::startup::scram::Scram;
    use std::io::{Read, Write};
    use std::net::{Shutdown, TcpListener, TcpStream};
    use std::thread;

    /// Which of the server's answers is changed, and how.
    #[derive(Clone, Copy, Debug)]
    enum Change {
        None,
        /// It ends after so many bytes.
        Cut(usize),
        /// It is changed by a generator of this seed.
        Random(u64),
    }

    pub(crate) fn conninfo(port: u16) -> Conninfo {
        let none = CertFile { path: None, named: false };
        let place = Place::Tcp { host: "127.0.0.1".into(), hostaddr: None };
        let tls =
            Tls { mode: SslMode::Prefer, root_cert: none.clone(), cert: none.clone(), key: none, sni: true, min_version: None, max_version: None };
        Conninfo {
            targets: vec![Target { place, port, password: Some(b"geheim".to_vec()), passfile: None }],
            user: "me".into(),
            dbname: "db".into(),
            application_name: "follow".into(),
            options: Some("-c x=y".into()),
            connect_timeout: None,
            server_timeout: None,
            keepalives: Keepalives { on: true, idle: Some(60), interval: Some(5), count: Some(3), user_timeout: Some(1000) },
            tls: Tls { min_version: Some(TlsVersion::V1_2), ..tls },
            channel_binding: ChannelBinding::Prefer,
            require_auth: RequireAuth::Any,
            scram_iterations: (1, 10_000_000),
            session_attrs: SessionAttrs::Any,
        }
    }

    fn message(tag: u8, payload: &[u8]) -> Vec<u8> {
        [&[tag], &(payload.len() as u32 + 4).to_be_bytes()[..], payload].concat()
    }

    // A message of the client, with or without a tag; nothing where the client has gone.
    fn receive(client: &mut TcpStream, tagged: bool) -> Option<Vec<u8>> {
        let mut head = vec![0; if tagged { 5 } else { 4 }];
        client.read_exact(&mut head).ok()?;
        let length = u32::from_be_bytes(head[head.len() - 4..].try_into().unwrap());
        let mut payload = vec![0; length as usize - 4];
        client.read_exact(&mut payload).ok()?;
        Some(payload)
    }

    fn next(seed: &mut u64) -> usize {
        *seed ^= *seed << 13;
        *seed ^= *seed >> 7;
        *seed ^= *seed << 17;
        (*seed >> 16) as usize
    }

    fn changed(mut bytes: Vec<u8>, change: Change) -> Vec<u8> {
        match change {
            Change::None => {}
            Change::Cut(len) => bytes.truncate(len),
            Change::Random(mut seed) => match next(&mut seed) % 3 {
                0 => bytes = (0..next(&mut seed) % 200).map(|_| next(&mut seed) as u8).collect(),
                1 => {
                    let at = next(&mut seed) % (bytes.len() + 1);
                    bytes.truncate(at);
                    bytes.extend((0..next(&mut seed) % 20).map(|_| next(&mut seed) as u8));
                }
                _ => {
                    for _ in 0..=next(&mut seed) % 3 {
                        let at = next(&mut seed) % bytes.len();
                        bytes[at] = next(&mut seed) as u8;
                    }
                }
            },
        }
        bytes
    }

    // Plays a server that asks for SCRAM; one of its four answers is changed, and is then the last one. Answers the lengths of those that were sent.
    fn play(client: &mut TcpStream, (number, change): (usize, Change)) -> Option<[usize; 4]> {
        let mut scram = Scram::new("geheim", 2);
        let mut lengths = [0; 4];
        for (at, length) in lengths.iter_mut().enumerate() {
            let payload = receive(client, at > 1)?;
            let answer = match at {
                0 => b"N".to_vec(),
                1 => message(b'R', &Scram::request(10, b"SCRAM-SHA-256\0\0")),
                2 => message(b'R', &Scram::request(11, scram.first(&payload).2.as_bytes())),
                _ => {
                    let last = message(b'R', &Scram::request(12, scram.last(&payload).1.as_bytes()));
                    [last, message(b'R', &[0; 4]), message(b'S', b"a\0b\0"), message(b'K', &[0; 8]), message(b'Z', b"I")].concat()
                }
            };
            *length = answer.len();
            let answer = if at == number { changed(answer, change) } else { answer };
            client.write_all(&answer).ok()?;
            if at == number && !matches!(change, Change::None) {
                break;
            }
        }
        let _ = client.shutdown(Shutdown::Write);
        let _ = client.read_to_end(&mut Vec::new());
        Some(lengths)
    }

    fn all_cases(lengths: [usize; 4]) -> Vec<(usize, Change)> {
        let cuts = lengths.iter().enumerate().flat_map(|(at, length)| (0..*length).map(move |len| (at, Change::Cut(len))));
        let random = (1..3001).map(|seed: u64| (seed as usize % 4, Change::Random(seed.wrapping_mul(0x9E37_79B9_7F4A_7C15))));
        cuts.chain(random).collect()
    }

    #[test]
    fn a_connection_that_breaks_off_is_tried_again() {
        let listener = TcpListener::bind("127.0.0.1:0").unwrap();
        let mut conninfo = conninfo(listener.local_addr().unwrap().port());
        conninfo.tls.mode = SslMode::Require;
        let waiter = Waiter::new(false).unwrap();
        let mut passwords = Passwords { ask: Ask::Never, typed: None };
        // After so many bytes of the client's, in its request for TLS and in the handshake.
        for (bytes, line) in [(1, "cannot connect to "), (8, "the server closed the connection"), (9, "the server closed the connection")] {
            let server = listener.try_clone().unwrap();
            let served = thread::spawn(move || {
                let mut client = server.accept().unwrap().0;
                client.read_exact(&mut vec![0; bytes.min(8)]).unwrap();
                if bytes > 8 {
                    client.write_all(b"S").unwrap();
                    client.read_exact(&mut [0]).unwrap();
                }
            });
            let failure = Talk::connect(&conninfo, &waiter, &mut passwords).map(drop).unwrap_err();
            served.join().unwrap();
            assert!(failure.again && failure.line.contains(line), "{failure}");
        }
    }

    #[test]
    fn a_server_that_sends_anything() {
        let listener = TcpListener::bind("127.0.0.1:0").unwrap();
        let conninfo = conninfo(listener.local_addr().unwrap().port());
        let waiter = Waiter::new(false).unwrap();
        let talk = |cases: Vec<(usize, Change)>| {
            let (server, plan) = (listener.try_clone().unwrap(), cases.clone());
            let play_all = move || plan.into_iter().fold(None, |_, case| play(&mut server.accept().unwrap().0, case));
            let served = thread::spawn(play_all);
            let results = cases.iter().map(|case| {
                let mut tries = conninfo.clone();
                // Without a second try: each case has one connection.
                tries.tls.mode = if case.0 == 0 { SslMode::Require } else { SslMode::Prefer };
                let mut passwords = Passwords { ask: Ask::Never, typed: None };
                Talk::connect(&tries, &waiter, &mut passwords).map(|talk| talk.about())
            });
            let results: Vec<Result<String, Failure>> = results.collect();
            (results, served.join().unwrap())
        };
        let (results, lengths) = talk(vec![(4, Change::None)]);
        let port = conninfo.targets[0].port;
        assert_eq!(results[0].as_deref().unwrap(), format!("127.0.0.1 port {port} as me, database db, no TLS, SCRAM-SHA-256"));
        let cases = all_cases(lengths.unwrap());
        let (results, _) = talk(cases.clone());
        assert!(cases.len() > 3100 && results.len() == cases.len());
        for (case, result) in cases.iter().zip(&results) {
            match result {
                // A change of what nobody reads changes nothing.
                Ok(_) => assert!(matches!(case, (3, Change::Random(_))), "{case:?}"),
                Err(failure) => assert!(!failure.line.is_empty() && failure.status == FAILED, "{case:?}"),
            }
        }
    }
}
