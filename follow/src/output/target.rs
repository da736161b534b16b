//! What the lines are written to: standard output, or a file that is opened by its name, locked and, after a kill, cut back to what counts.
use crate::failure::tell;
use crate::ffi;
use crate::progress;
use crate::state::{folder_of, FileId, State};
use std::fs::{self, File, OpenOptions};
use std::io::{self, ErrorKind, IsTerminal, Read, Seek, SeekFrom, Write};
use std::os::unix::fs::{FileTypeExt, OpenOptionsExt};
use std::path::{Path, PathBuf};
use std::time::Duration;

/// Where the lines go.
pub struct Target {
    file: File,
    /// None is standard output.
    pub path: Option<PathBuf>,
    pub id: FileId,
    regular: bool,
    // The status line may stand there.
    terminal: bool,
    /// Of a regular file that was opened by its name: how long it is, up to where it has whole transactions, and up to where these are done.
    pub len: u64,
    pub whole: u64,
    pub done: u64,
}

impl Target {
    /// A regular file is locked: two programs that write it would leave broken lines.
    pub fn open(path: Option<&Path>) -> Result<Target, String> {
        let cannot = |e: io::Error| match path {
            Some(path) => format!("cannot open {}: {e}", path.display()),
            None => format!("cannot write to standard output: {e}"),
        };
        let file = match path {
            Some(path) if path.metadata().is_ok_and(|about| about.file_type().is_fifo()) => open_pipe(path).map_err(cannot)?,
            Some(path) => OpenOptions::new().append(true).create(true).mode(0o600).open(path).map_err(cannot)?,
            None => ffi::standard_output().map_err(cannot)?,
        };
        let about = file.metadata().map_err(cannot)?;
        let (len, regular, id) = (about.len(), about.is_file(), FileId::of(&about));
        if let Some(path) = path.filter(|_| regular) {
            lock(&file, path)?;
        }
        let terminal = file.is_terminal();
        Ok(Target { file, path: path.map(Path::to_path_buf), id, regular, terminal, len, whole: len, done: len })
    }

    /// Whether it is a regular file.
    pub fn is_regular(&self) -> bool {
        self.regular
    }

    /// Whether it is the file of this name now.
    pub fn is_at(&self, path: &Path) -> bool {
        self.regular && path.metadata().is_ok_and(|about| FileId::of(&about) == self.id)
    }

    pub fn name(&self) -> String {
        self.path.as_ref().map_or("standard output".to_string(), |path| path.display().to_string())
    }

    pub fn sync(&self) -> io::Result<()> {
        self.file.sync_all()
    }

    /// Up to where the file has whole transactions, where somebody else may have shortened it.
    pub fn whole_now(&self) -> io::Result<u64> {
        Ok(self.file.metadata()?.len().saturating_sub(self.len - self.whole).min(self.whole))
    }

    /// Writes all, and counts what is written. A pipe that another program has made non-blocking is tried again.
    pub fn write(&mut self, mut bytes: &[u8]) -> io::Result<()> {
        if self.terminal {
            progress::clear();
        }
        while !bytes.is_empty() {
            match self.file.write(bytes) {
                Ok(0) => return Err(ErrorKind::WriteZero.into()),
                Ok(n) => {
                    self.len += n as u64;
                    bytes = bytes.get(n..).unwrap_or_default();
                }
                Err(e) if e.kind() == ErrorKind::Interrupted => {}
                Err(e) if e.kind() == ErrorKind::WouldBlock => std::thread::sleep(Duration::from_millis(5)),
                Err(e) => return Err(e),
            }
        }
        Ok(())
    }

    /// A file without a state may end within a line, which stays one of its own.
    pub fn end_line(&mut self) -> io::Result<()> {
        if self.regular && self.path.as_deref().is_some_and(ends_within_a_line) {
            self.write(b"\n")?;
            (self.whole, self.done) = (self.len, self.len);
        }
        Ok(())
    }

    /// Leaves whole lines, and of these what is done: all else comes again. A file that others write, too, is left as it is.
    pub fn cut_back(&mut self) {
        let ours = self.path.is_some() && self.regular && self.file.metadata().is_ok_and(|about| about.len() == self.len);
        if ours && self.len > self.done && cut(&self.file, self.done).is_ok() {
            self.len = self.done;
        }
    }
}

fn lock(file: &File, path: &Path) -> Result<(), String> {
    match ffi::lock(file) {
        Ok(true) => Ok(()),
        Ok(false) => Err(format!("{} is written by another follow: name another file, or end that one", path.display())),
        Err(e) => Err(format!("cannot lock {}: {e}", path.display())),
    }
}

fn cut(file: &File, len: u64) -> io::Result<()> {
    file.set_len(len)?;
    file.sync_all()
}

/// Cuts a file back to what its state says: what a program that was killed wrote behind that comes again. A file that was renamed since, and not
/// opened anew, is looked for in its folder.
pub fn recover(target: &mut Target, state: &State, verbose: bool) -> Result<(), String> {
    let Some(path) = target.path.clone() else { return Ok(()) };
    let (moved, file, path, len) = match find(&path, state.file) {
        _ if target.id == state.file => (false, target.file.try_clone(), path, target.len),
        Some((moved, len)) => (true, OpenOptions::new().append(true).open(&moved), moved, len),
        None => {
            let position = state.position;
            tell(format_args!("{} is not the file of its state; changes after {position} that the former one may hold come again", path.display()));
            return Ok(());
        }
    };
    let cannot = |e: io::Error| format!("cannot cut {} back: {e}", path.display());
    if len <= state.len {
        return Ok(());
    }
    let file = file.map_err(cannot)?;
    if moved {
        lock(&file, &path)?;
    } else {
        (target.len, target.whole, target.done) = (state.len, state.len, state.len);
    }
    cut(&file, state.len).map_err(cannot)?;
    if verbose {
        tell(format_args!("{} is cut back by {} bytes, which come again", path.display(), len - state.len));
    }
    Ok(())
}

// A file of the folder that the path is in, by what it is, and its length.
fn find(path: &Path, id: FileId) -> Option<(PathBuf, u64)> {
    let entries = fs::read_dir(folder_of(path)).ok()?;
    let same = |entry: fs::DirEntry| entry.metadata().ok().filter(|about| FileId::of(about) == id).map(|about| (entry.path(), about.len()));
    entries.filter_map(Result::ok).find_map(same)
}

// A pipe that nobody reads yet is waited for, and a stop ends the wait.
fn open_pipe(path: &Path) -> io::Result<File> {
    loop {
        match OpenOptions::new().write(true).custom_flags(libc::O_NONBLOCK).open(path) {
            Err(e) if e.raw_os_error() == Some(libc::ENXIO) && !ffi::stop_requested() => std::thread::sleep(Duration::from_millis(50)),
            opened => return opened.and_then(ffi::blocking),
        }
    }
}

// A program that was killed may have left a part of a line. What cannot be read is taken for whole.
fn ends_within_a_line(path: &Path) -> bool {
    let mut last = [b'\n'];
    let read = File::open(path).and_then(|mut file| {
        file.seek(SeekFrom::End(-1))?;
        file.read_exact(&mut last)
    });
    read.is_ok() && last != [b'\n']
}
