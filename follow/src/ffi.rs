//! The C functions that std lacks, behind safe ones: waiting for several things at once, signals, descriptors, and memory that may not be there. No
//! other file of the program has unsafe code.
#![allow(unsafe_code)]

use crate::failure::FAILED;
use libc::c_int;
use std::alloc::{GlobalAlloc, Layout, System};
use std::cell::RefCell;
use std::ffi::{CStr, OsString};
use std::fs::File;
use std::io::{self, Read};
use std::mem::{size_of, size_of_val, MaybeUninit};
use std::net::{SocketAddr, TcpStream};
use std::os::fd::{AsFd, AsRawFd, BorrowedFd, FromRawFd, IntoRawFd, OwnedFd, RawFd};
use std::os::unix::ffi::OsStringExt;
use std::os::unix::net::UnixStream;
use std::path::PathBuf;
use std::sync::atomic::{AtomicBool, AtomicI32, AtomicU8, Ordering::SeqCst};
use std::time::Duration;

/// A bit for each of the descriptors 0 to 2 that was closed when the process began.
static CLOSED: AtomicU8 = AtomicU8::new(0);

// std opens /dev/null in place of a closed descriptor before it calls `main`, and nothing tells that from the user's own `> /dev/null` then. The C
// library calls the functions of .init_array before that.
#[used]
#[link_section = ".init_array"]
static AT_START: extern "C" fn() = at_start;

extern "C" fn at_start() {
    for fd in 0..3 {
        if !is_open(fd) {
            CLOSED.fetch_or(1 << fd, SeqCst);
        }
    }
    // Would end a process that is only beginning.
    handle(libc::SIGUSR1, on_page as extern "C" fn(c_int) as libc::sighandler_t);
}

/// Whether a descriptor, 0 to 2, was closed when the process began.
pub fn closed_at_start(fd: RawFd) -> bool {
    CLOSED.load(SeqCst) & (1 << fd) != 0
}

/// Whether a descriptor is open.
pub fn is_open(fd: RawFd) -> bool {
    // SAFETY: only asks for the descriptor's flags, which fails where it is closed.
    unsafe { libc::fcntl(fd, libc::F_GETFD) >= 0 }
}

/// Whether a descriptor was opened for one of reading and writing alone: `O_RDONLY` or `O_WRONLY`.
fn opened_as(fd: RawFd, mode: c_int) -> bool {
    // SAFETY: only asks for the flags of the open file.
    let flags = unsafe { libc::fcntl(fd, libc::F_GETFL) };
    flags >= 0 && flags & libc::O_ACCMODE == mode
}

/// Whether a descriptor was opened for reading alone.
pub fn read_only(fd: RawFd) -> bool {
    opened_as(fd, libc::O_RDONLY)
}

/// Whether a descriptor was opened for writing alone.
pub fn write_only(fd: RawFd) -> bool {
    opened_as(fd, libc::O_WRONLY)
}

/// The file, on which reads and writes wait.
pub fn blocking(file: File) -> io::Result<File> {
    // SAFETY: asks for the flags of the open file and sets one; the file stays open meanwhile.
    let set = unsafe {
        let flags = libc::fcntl(file.as_raw_fd(), libc::F_GETFL);
        libc::fcntl(file.as_raw_fd(), libc::F_SETFL, flags & !libc::O_NONBLOCK)
    };
    if set < 0 {
        return Err(io::Error::last_os_error());
    }
    Ok(file)
}

/// Locks a file while it is open; false where another program has it locked.
pub fn lock(file: &File) -> io::Result<bool> {
    // SAFETY: takes numbers alone; the file stays open meanwhile.
    if unsafe { libc::flock(file.as_raw_fd(), libc::LOCK_EX | libc::LOCK_NB) } == 0 {
        return Ok(true);
    }
    match io::Error::last_os_error() {
        e if e.kind() == io::ErrorKind::WouldBlock => Ok(false),
        e => Err(e),
    }
}

/// Standard output as a file: std's own handle takes a write to a descriptor that cannot be written for done.
pub fn standard_output() -> io::Result<File> {
    Ok(io::stdout().as_fd().try_clone_to_owned()?.into())
}

/// A copy of a descriptor that the user named.
pub fn file_of(fd: RawFd) -> io::Result<File> {
    if !is_open(fd) {
        return Err(io::Error::from_raw_os_error(libc::EBADF));
    }
    // SAFETY: the descriptor is open, and is borrowed only while it is copied.
    Ok(unsafe { BorrowedFd::borrow_raw(fd) }.try_clone_to_owned()?.into())
}

/// The system's memory. Where there is none the program ends with a line, where std's own would abort.
struct Memory;

#[global_allocator]
static MEMORY: Memory = Memory;

fn given(bytes: *mut u8) -> *mut u8 {
    if bytes.is_null() {
        let line = b"follow: there is no memory; raise the limit (ulimit -v), or give less with --max-message-size\n";
        // SAFETY: the line is lent with its length; nothing is allocated on the way out.
        unsafe {
            libc::write(2, line.as_ptr().cast(), line.len());
            libc::_exit(c_int::from(FAILED))
        }
    }
    bytes
}

// SAFETY: each call is handed on to the system's allocator as it came.
unsafe impl GlobalAlloc for Memory {
    unsafe fn alloc(&self, layout: Layout) -> *mut u8 {
        given(System.alloc(layout))
    }

    unsafe fn alloc_zeroed(&self, layout: Layout) -> *mut u8 {
        given(System.alloc_zeroed(layout))
    }

    unsafe fn realloc(&self, bytes: *mut u8, layout: Layout, len: usize) -> *mut u8 {
        given(System.realloc(bytes, layout, len))
    }

    unsafe fn dealloc(&self, bytes: *mut u8, layout: Layout) {
        System.dealloc(bytes, layout);
    }
}

/// So many zero bytes; none where there is no memory for them. They are the system's own until they are written.
pub fn zeroed(len: usize) -> Option<Box<[u8]>> {
    let layout = Layout::array::<u8>(len).ok().filter(|layout| layout.size() > 0)?;
    // SAFETY: the layout is not empty; where memory was given it has `len` zero bytes of this layout, and the box alone owns it. `Memory` frees by the
    // same allocator.
    unsafe {
        let bytes = System.alloc_zeroed(layout);
        (!bytes.is_null()).then(|| Box::from_raw(std::ptr::slice_from_raw_parts_mut(bytes, len)))
    }
}

/// A user of the system.
#[derive(Clone, Debug, PartialEq)]
pub struct Account {
    pub name: OsString,
    pub home: PathBuf,
}

/// The user that the process runs as; none where the system knows nothing of it.
pub fn account() -> Option<Account> {
    let mut buffer = vec![0; 1024];
    loop {
        // SAFETY: the entry is plain numbers and pointers. It and the buffer are lent with the buffer's length; where an entry was found its name and
        // folder are strings in the buffer, copied before that goes.
        unsafe {
            let mut entry: libc::passwd = std::mem::zeroed();
            let mut found = std::ptr::null_mut();
            let status = libc::getpwuid_r(libc::geteuid(), &mut entry, buffer.as_mut_ptr(), buffer.len(), &mut found);
            if !found.is_null() {
                let text = |text| OsString::from_vec(CStr::from_ptr(text).to_bytes().to_vec());
                return Some(Account { name: text(entry.pw_name), home: text(entry.pw_dir).into() });
            }
            if status != libc::ERANGE || buffer.len() > 1_000_000 {
                return None;
            }
        }
        buffer.resize(buffer.len() * 4, 0);
    }
}

/// Begins to connect, without waiting: the socket has a peer once it is connected, or an error.
pub fn begin_connect(address: &SocketAddr) -> io::Result<TcpStream> {
    let family = if address.is_ipv4() { libc::AF_INET } else { libc::AF_INET6 };
    // SAFETY: takes numbers alone.
    let fd = unsafe { libc::socket(family, libc::SOCK_STREAM | libc::SOCK_CLOEXEC | libc::SOCK_NONBLOCK, 0) };
    if fd < 0 {
        return Err(io::Error::last_os_error());
    }
    // SAFETY: the descriptor is new, and nothing else owns it.
    let socket = TcpStream::from(unsafe { OwnedFd::from_raw_fd(fd) });
    let begun = match address {
        SocketAddr::V4(v4) => {
            // SAFETY: a structure of numbers, for which zeros are a value.
            let mut name: libc::sockaddr_in = unsafe { std::mem::zeroed() };
            name.sin_family = libc::AF_INET as libc::sa_family_t;
            name.sin_port = v4.port().to_be();
            name.sin_addr.s_addr = u32::from_ne_bytes(v4.ip().octets());
            // SAFETY: the structure is lent with its length.
            unsafe { libc::connect(fd, (&raw const name).cast(), size_of_val(&name) as libc::socklen_t) }
        }
        SocketAddr::V6(v6) => {
            // SAFETY: as above.
            let mut name: libc::sockaddr_in6 = unsafe { std::mem::zeroed() };
            name.sin6_family = libc::AF_INET6 as libc::sa_family_t;
            name.sin6_port = v6.port().to_be();
            name.sin6_addr.s6_addr = v6.ip().octets();
            name.sin6_scope_id = v6.scope_id();
            // SAFETY: as above.
            unsafe { libc::connect(fd, (&raw const name).cast(), size_of_val(&name) as libc::socklen_t) }
        }
    };
    match io::Error::last_os_error() {
        e if begun < 0 && !matches!(e.raw_os_error(), Some(libc::EINPROGRESS | libc::EINTR)) => Err(e),
        _ => Ok(socket),
    }
}

/// An option of a socket whose value is a number.
pub fn set_option(socket: &TcpStream, level: c_int, option: c_int, value: u32) -> io::Result<()> {
    let value = c_int::try_from(value).unwrap_or(c_int::MAX);
    // SAFETY: the number is lent with its length.
    let set = unsafe { libc::setsockopt(socket.as_raw_fd(), level, option, (&raw const value).cast(), size_of::<c_int>() as libc::socklen_t) };
    if set < 0 {
        return Err(io::Error::last_os_error());
    }
    Ok(())
}

/// A terminal that does not show what is typed, until this is dropped.
pub struct NoEcho<'a> {
    terminal: &'a File,
    before: libc::termios,
}

impl NoEcho<'_> {
    pub fn new(terminal: &File) -> io::Result<NoEcho<'_>> {
        let mut before = MaybeUninit::<libc::termios>::uninit();
        // SAFETY: the structure is written where the call does not fail, and read only then.
        let before = unsafe {
            if libc::tcgetattr(terminal.as_raw_fd(), before.as_mut_ptr()) < 0 {
                return Err(io::Error::last_os_error());
            }
            before.assume_init()
        };
        let mut without = before;
        without.c_lflag &= !libc::ECHO;
        // SAFETY: the structure is lent.
        if unsafe { libc::tcsetattr(terminal.as_raw_fd(), libc::TCSAFLUSH, &without) } < 0 {
            return Err(io::Error::last_os_error());
        }
        Ok(NoEcho { terminal, before })
    }
}

impl Drop for NoEcho<'_> {
    fn drop(&mut self) {
        // SAFETY: the structure is lent. Where the terminal is gone there is nothing to restore.
        unsafe { libc::tcsetattr(self.terminal.as_raw_fd(), libc::TCSAFLUSH, &self.before) };
    }
}

/// Whether a status line stands on the terminal.
pub static LINE_SHOWN: AtomicBool = AtomicBool::new(false);
static STOP: AtomicBool = AtomicBool::new(false);
static PAGE: AtomicBool = AtomicBool::new(false);
static REOPEN: AtomicBool = AtomicBool::new(false);
static WAKE: AtomicI32 = AtomicI32::new(-1);

extern "C" fn on_stop(_: c_int) {
    if STOP.swap(true, SeqCst) {
        let clear: &[u8] = if LINE_SHOWN.load(SeqCst) { b"\r\x1b[K" } else { b"" };
        // SAFETY: the bytes are lent with their length. Ends the process at once, as the second request asks.
        unsafe {
            libc::write(2, clear.as_ptr().cast(), clear.len());
            libc::_exit(130)
        }
    }
    wake();
}

extern "C" fn on_page(_: c_int) {
    PAGE.store(true, SeqCst);
    wake();
}

extern "C" fn on_reopen(_: c_int) {
    REOPEN.store(true, SeqCst);
    wake();
}

/// Whether the user asked to stop.
pub fn stop_requested() -> bool {
    STOP.load(SeqCst)
}

/// Whether the user asked for the service page since this was last looked at.
pub fn page_requested() -> bool {
    PAGE.swap(false, SeqCst)
}

/// Whether the user asked to open the output file again since this was last looked at.
pub fn reopen_requested() -> bool {
    REOPEN.swap(false, SeqCst)
}

/// Ends a wait of the main thread; also called by the signal handlers, so it only writes a byte and leaves errno as it was.
pub fn wake() {
    let fd = WAKE.load(SeqCst);
    if fd >= 0 {
        // SAFETY: one byte is lent; the descriptor stays open. A full pipe wakes as well.
        unsafe {
            let errno = *libc::__errno_location();
            libc::write(fd, b"w".as_ptr().cast(), 1);
            *libc::__errno_location() = errno;
        }
    }
}

fn handle(signal: c_int, handler: libc::sighandler_t) {
    // SAFETY: a handler touches atomics and calls write or _exit alone.
    unsafe { libc::signal(signal, handler) };
}

fn is_ignored(signal: c_int) -> bool {
    // SAFETY: zeros are a value of the structure, which is lent; nothing is changed.
    unsafe {
        let mut now: libc::sigaction = std::mem::zeroed();
        libc::sigaction(signal, std::ptr::null(), &mut now) == 0 && now.sa_sigaction == libc::SIG_IGN
    }
}

/// Waits for a socket and for `wake`.
pub struct Waiter {
    woken: UnixStream,
    // What is looked after in each wait, where no stream does it.
    between: RefCell<Option<Box<dyn Fn()>>>,
}

impl Waiter {
    /// Takes the signals over. SIGHUP opens the output file again, or stops where there is none.
    pub fn new(reopens: bool) -> io::Result<Waiter> {
        let (woken, waker) = UnixStream::pair()?;
        woken.set_nonblocking(true)?;
        waker.set_nonblocking(true)?;
        WAKE.store(waker.into_raw_fd(), SeqCst);
        let stop = on_stop as extern "C" fn(c_int) as libc::sighandler_t;
        let reopen = on_reopen as extern "C" fn(c_int) as libc::sighandler_t;
        handle(libc::SIGINT, stop);
        handle(libc::SIGTERM, stop);
        // nohup has it ignored, and so it stays.
        if reopens || !is_ignored(libc::SIGHUP) {
            handle(libc::SIGHUP, if reopens { reopen } else { stop });
        }
        // A write beyond the limit of a file's size fails like one to a full disk.
        handle(libc::SIGXFSZ, libc::SIG_IGN);
        Ok(Waiter { woken, between: RefCell::default() })
    }

    /// This is done at once and in each wait from now on; none where a stream begins.
    pub fn between_streams(&self, work: Option<Box<dyn Fn()>>) {
        *self.between.borrow_mut() = work;
        self.look_after();
    }

    fn look_after(&self) {
        if let Some(work) = &*self.between.borrow() {
            work();
        }
    }

    /// Until the socket can be read (or written, where `out`), a wake comes, or the time has passed.
    pub fn wait(&self, socket: Option<(RawFd, bool)>, timeout: Option<Duration>) {
        let entry = |fd, events| libc::pollfd { fd, events, revents: 0 };
        let (fd, out) = socket.unwrap_or((-1, false));
        let mut fds = [entry(self.woken.as_raw_fd(), libc::POLLIN), entry(fd, if out { libc::POLLOUT } else { libc::POLLIN })];
        let millis = match timeout {
            None => -1,
            // Rounded up, so that the moment has come when the wait ends.
            Some(t) => c_int::try_from(t.as_nanos().div_ceil(1_000_000)).unwrap_or(c_int::MAX),
        };
        // SAFETY: the array is lent with its length. An error (a signal) is a wake like any other: the caller looks again.
        unsafe { libc::poll(fds.as_mut_ptr(), fds.len() as libc::nfds_t, millis) };
        let mut bytes = [0; 256];
        while matches!((&self.woken).read(&mut bytes), Ok(n) if n == bytes.len()) {}
        self.look_after();
    }
}

#[cfg(test)]
mod tests {
    use super::*;

    #[test]
    fn memory_that_is_there_or_not() {
        assert_eq!(zeroed(5).as_deref(), Some(&[0; 5][..]));
        assert!(zeroed(isize::MAX as usize).is_none() && zeroed(0).is_none());
    }

    #[test]
    fn descriptors() {
        let file = File::open("/dev/null").unwrap();
        assert!(is_open(file.as_raw_fd()) && read_only(file.as_raw_fd()) && !write_only(file.as_raw_fd()));
        assert!(file_of(file.as_raw_fd()).is_ok() && file_of(-1).is_err());
    }

    #[test]
    fn the_user() {
        let found = account().map(|account| account.name);
        let told = std::process::Command::new("id").arg("-un").output().unwrap();
        let told = told.status.success().then(|| OsString::from_vec(told.stdout.trim_ascii_end().to_vec()));
        assert_eq!(found, told);
    }
}
