//! A connection to the server: opened, and read and written without blocking.
use crate::conninfo::{Keepalives, Place, Target};
use crate::failure::{Failure, FAILED};
use crate::ffi::{self, Waiter};
use crate::tls::Connector;
use native_tls::TlsStream;
use std::fmt;
use std::io::{self, ErrorKind, Read, Write};
use std::net::{IpAddr, SocketAddr, TcpStream, ToSocketAddrs};
use std::os::fd::{AsRawFd, RawFd};
use std::os::linux::net::SocketAddrExt;
use std::os::unix::ffi::OsStrExt;
use std::os::unix::net::{self, UnixStream};
use std::path::PathBuf;
use std::sync::mpsc::{self, TryRecvError};
use std::thread;
use std::time::{Duration, Instant};

const SEND_TIMEOUT: Duration = Duration::from_secs(60);
/// After so long a wait looks again whether it has ended.
const LOOK: Duration = Duration::from_secs(1);

/// One address of a server.
#[derive(Clone, Debug, PartialEq)]
pub enum Address {
    Tcp(SocketAddr),
    Unix(PathBuf),
}

impl fmt::Display for Address {
    fn fmt(&self, f: &mut fmt::Formatter<'_>) -> fmt::Result {
        match self {
            Address::Tcp(address) => write!(f, "{}", address.ip()),
            Address::Unix(path) => write!(f, "{}", path.display()),
        }
    }
}

impl Address {
    /// The addresses of a server, in the order in which they are tried, or why there are none.
    pub fn all(target: &Target, waiter: &Waiter) -> Result<Vec<Address>, String> {
        let port = target.port;
        let found = match &target.place {
            Place::Unix(folder) => return Ok(vec![Address::Unix(folder.join(format!(".s.PGSQL.{port}")))]),
            Place::Tcp { host, hostaddr } => match hostaddr.as_deref().unwrap_or(host).parse::<IpAddr>() {
                Ok(ip) => vec![SocketAddr::new(ip, port)],
                // One with a zone, which std's parser does not take.
                Err(_) if hostaddr.as_deref().unwrap_or(host).contains('%') => {
                    (hostaddr.as_deref().unwrap_or(host), port).to_socket_addrs().map_err(plain)?.collect()
                }
                Err(_) if hostaddr.is_some() => return Err("hostaddr is not an IP address".into()),
                Err(_) => look_up(host, port, waiter)?,
            },
        };
        if found.is_empty() {
            return Err("the host has no address".into());
        }
        Ok(found.into_iter().map(Address::Tcp).collect())
    }
}

// A look-up cannot be broken off, so another thread does it.
fn look_up(host: &str, port: u16, waiter: &Waiter) -> Result<Vec<SocketAddr>, String> {
    let (sender, receiver) = mpsc::channel();
    let name = host.to_string();
    let work = move || {
        let found: io::Result<Vec<SocketAddr>> = (name.as_str(), port).to_socket_addrs().map(Iterator::collect);
        let _ = sender.send(found);
        ffi::wake();
    };
    thread::Builder::new().spawn(work).map_err(plain)?;
    loop {
        match receiver.try_recv() {
            Ok(found) => return found.map_err(|e| format!("the name cannot be looked up: {}", look_up_reason(&plain(e)))),
            Err(TryRecvError::Disconnected) => return Err("the name cannot be looked up".into()),
            Err(TryRecvError::Empty) if ffi::stop_requested() => return Err("stopped while the name was looked up".into()),
            Err(TryRecvError::Empty) => waiter.wait(None, Some(LOOK)),
        }
    }
}

fn look_up_reason(text: &str) -> &str {
    text.strip_prefix("failed to lookup address information: ").unwrap_or(text)
}

/// An error of the system without its number.
pub fn plain(e: io::Error) -> String {
    let text = e.to_string();
    text.split(" (os error").next().unwrap_or(&text).to_string()
}

enum Stream {
    Tcp(TcpStream),
    Unix(UnixStream),
    Tls(Box<TlsStream<TcpStream>>),
}

impl Stream {
    fn read(&mut self, buffer: &mut [u8]) -> io::Result<usize> {
        match self {
            Stream::Tcp(stream) => stream.read(buffer),
            Stream::Unix(stream) => stream.read(buffer),
            Stream::Tls(stream) => stream.read(buffer),
        }
    }

    fn write(&mut self, bytes: &[u8]) -> io::Result<usize> {
        match self {
            Stream::Tcp(stream) => stream.write(bytes),
            Stream::Unix(stream) => stream.write(bytes),
            Stream::Tls(stream) => stream.write(bytes),
        }
    }

    fn fd(&self) -> RawFd {
        match self {
            Stream::Tcp(stream) => stream.as_raw_fd(),
            Stream::Unix(stream) => stream.as_raw_fd(),
            Stream::Tls(stream) => stream.get_ref().as_raw_fd(),
        }
    }
}

/// A connection, in clear or with TLS.
pub struct Link<'a> {
    stream: Stream,
    waiter: &'a Waiter,
    // Why the connection ended, where it did not by the server's regular end.
    trouble: Option<String>,
}

impl<'a> Link<'a> {
    /// Opens a connection in clear, or answers why it cannot be opened.
    pub fn open(address: &Address, keepalives: &Keepalives, waiter: &'a Waiter, until: Option<Instant>) -> Result<Link<'a>, String> {
        let stream = match address {
            Address::Unix(path) => Stream::Unix(open_unix(path).map_err(plain)?),
            Address::Tcp(address) => Stream::Tcp(open_tcp(address, keepalives, waiter, until)?),
        };
        Ok(Link { stream, waiter, trouble: None })
    }

    /// Asks the server for TLS and answers its one byte; nothing more is read, so that what follows comes by TLS or not at all.
    pub fn ask_tls(&mut self, until: Option<Instant>) -> Result<Option<u8>, Failure> {
        let mut request = bytes::BytesMut::new();
        postgres_protocol::message::frontend::ssl_request(&mut request);
        self.send(&request)?;
        let mut answer = [0];
        Ok((self.read_some(&mut answer, until)? > 0).then_some(answer[0]))
    }

    /// The same connection with TLS.
    pub fn secure(self, connector: &Connector, host: &str, until: Option<Instant>) -> Result<Link<'a>, Failure> {
        match self.stream {
            Stream::Tcp(socket) => {
                let stream = Stream::Tls(Box::new(connector.handshake(host, socket, self.waiter, until)?));
                Ok(Link { stream, ..self })
            }
            _ => Err(Failure::new(FAILED, "TLS is spoken by TCP alone")),
        }
    }

    pub fn is_tls(&self) -> bool {
        matches!(self.stream, Stream::Tls(_))
    }

    /// The hash of the server's certificate that channel binding takes.
    pub fn end_point(&self) -> Option<Vec<u8>> {
        match &self.stream {
            Stream::Tls(stream) => stream.tls_server_end_point().ok().flatten(),
            _ => None,
        }
    }

    /// Why the connection ended, where an error ended it.
    pub fn trouble(&self) -> Option<&str> {
        self.trouble.as_deref()
    }

    /// What is there: `None` where nothing is there now, 0 where the server has ended.
    pub fn read(&mut self, buffer: &mut [u8]) -> Option<usize> {
        match self.stream.read(buffer) {
            Ok(n) => Some(n),
            Err(e) if matches!(e.kind(), ErrorKind::WouldBlock | ErrorKind::Interrupted) => None,
            // A connection that was reset has ended, too.
            Err(e) => {
                self.trouble = Some(plain(e));
                Some(0)
            }
        }
    }

    /// Sends all, waiting where the server does not take it at once.
    pub fn send(&mut self, mut bytes: &[u8]) -> Result<(), Failure> {
        let until = Instant::now() + SEND_TIMEOUT;
        while !bytes.is_empty() {
            match self.stream.write(bytes) {
                Ok(n) if n > 0 => bytes = &bytes[n..],
                Ok(_) => return Err(Failure::cut("cannot send: the connection takes nothing")),
                Err(e) if e.kind() == ErrorKind::Interrupted => {}
                Err(e) if e.kind() == ErrorKind::WouldBlock && Instant::now() < until => {
                    self.waiter.wait(Some((self.stream.fd(), true)), Some(LOOK));
                }
                Err(e) => return Err(Failure::cut(format!("cannot send: {}", plain(e)))),
            }
        }
        Ok(())
    }

    /// Until bytes come (where `reading`), the consumer or a signal wakes, or the time has passed. With TLS bytes may be there that the socket does
    /// not show, so all is read before.
    pub fn wait(&self, reading: bool, timeout: Option<Duration>) {
        let socket = reading.then_some((self.stream.fd(), false));
        self.waiter.wait(socket, timeout);
    }

    /// Waits until bytes come or the server ends; how many came, 0 at the end. Fails where neither has happened before the moment, or the user stops.
    pub fn read_some(&mut self, buffer: &mut [u8], until: Option<Instant>) -> Result<usize, Failure> {
        loop {
            if ffi::stop_requested() {
                return Err(Failure::cut("stopped before the server answered"));
            }
            if let Some(n) = self.read(buffer) {
                return Ok(n);
            }
            let left = until.map(|until| until.saturating_duration_since(Instant::now()));
            if left.is_some_and(|left| left.is_zero()) {
                return Err(Failure::cut("the server did not answer within connect_timeout or --server-timeout"));
            }
            self.wait(true, left);
        }
    }
}

// A name that begins with @ is one of the abstract namespace.
fn open_unix(path: &PathBuf) -> io::Result<UnixStream> {
    let stream = match path.as_os_str().as_bytes().strip_prefix(b"@") {
        Some(name) => UnixStream::connect_addr(&net::SocketAddr::from_abstract_name(name)?)?,
        None => UnixStream::connect(path)?,
    };
    stream.set_nonblocking(true)?;
    Ok(stream)
}

fn open_tcp(address: &SocketAddr, keepalives: &Keepalives, waiter: &Waiter, until: Option<Instant>) -> Result<TcpStream, String> {
    let socket = ffi::begin_connect(address).map_err(plain)?;
    loop {
        if let Some(e) = socket.take_error().map_err(plain)? {
            return Err(plain(e));
        }
        if socket.peer_addr().is_ok() {
            break;
        }
        let left = until.map(|until| until.saturating_duration_since(Instant::now()));
        if left.is_some_and(|left| left.is_zero()) {
            return Err("no connection within connect_timeout or --server-timeout".into());
        }
        if ffi::stop_requested() {
            return Err("stopped".into());
        }
        waiter.wait(Some((socket.as_raw_fd(), true)), left);
    }
    socket.set_nodelay(true).and_then(|()| set_keepalives(&socket, keepalives)).map_err(plain)?;
    Ok(socket)
}

fn set_keepalives(socket: &TcpStream, keepalives: &Keepalives) -> io::Result<()> {
    let tcp = |option, value: Option<u32>| match value.filter(|value| *value > 0) {
        Some(value) => ffi::set_option(socket, libc::IPPROTO_TCP, option, value),
        None => Ok(()),
    };
    if keepalives.on {
        ffi::set_option(socket, libc::SOL_SOCKET, libc::SO_KEEPALIVE, 1)?;
        tcp(libc::TCP_KEEPIDLE, keepalives.idle)?;
        tcp(libc::TCP_KEEPINTVL, keepalives.interval)?;
        tcp(libc::TCP_KEEPCNT, keepalives.count)?;
    }
    tcp(libc::TCP_USER_TIMEOUT, keepalives.user_timeout)
}
