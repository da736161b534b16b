//! What stands beside an output file: which server and slot its lines came from, and up to where they are whole.
use rufflesquash::Lsn;
use std::fmt;
use std::fs::{self, File, OpenOptions};
use std::io::{self, ErrorKind, Read, Write};
use std::os::unix::fs::{MetadataExt, OpenOptionsExt};
use std::path::{Path, PathBuf};
use std::time::Duration;

/// No state is longer; what is longer is none.
const LONGEST: u64 = 4096;

/// Where changes come from. Positions of one origin say nothing of another's log.
#[derive(Clone, Debug, PartialEq)]
pub struct Origin {
    /// The server's system identifier.
    pub system: u64,
    pub timeline: u32,
    pub slot: String,
}

/// A file, whatever its name is.
#[derive(Clone, Copy, Debug, Default, PartialEq)]
pub struct FileId {
    pub device: u64,
    pub inode: u64,
}

impl FileId {
    pub fn of(about: &fs::Metadata) -> FileId {
        FileId { device: about.dev(), inode: about.ino() }
    }
}

/// The first `len` bytes of the file hold every change of the origin up to the position, each transaction whole.
#[derive(Clone, Debug, PartialEq)]
pub struct State {
    pub origin: Origin,
    pub position: Lsn,
    /// The last position in it that can be acknowledged.
    pub printed: Lsn,
    pub file: FileId,
    pub len: u64,
}

/// The name of a file's state.
pub fn path_of(file: &Path) -> PathBuf {
    let mut name = file.as_os_str().to_os_string();
    name.push(".state");
    name.into()
}

impl State {
    /// None where there is no such file.
    pub fn read(path: &Path) -> Result<Option<State>, String> {
        let mut text = String::new();
        match File::open(path).and_then(|file| file.take(LONGEST).read_to_string(&mut text)) {
            Ok(_) => {}
            Err(e) if e.kind() == ErrorKind::NotFound => return Ok(None),
            Err(e) if e.kind() != ErrorKind::InvalidData => return Err(format!("cannot read {}: {e}", path.display())),
            Err(_) => text.clear(),
        }
        let damaged = || {
            let advice = "without it nothing says which changes the file has: move both away, and see what the tables have since";
            format!("{} is not what follow wrote; {advice}", path.display())
        };
        State::parse(&text).map(Some).ok_or_else(damaged)
    }

    /// From what `Display` writes, and nothing else.
    pub fn parse(text: &str) -> Option<State> {
        let mut lines = text.strip_prefix("follow 1\n")?.strip_suffix("end\n")?.lines();
        let mut value = |name: &str| lines.next()?.strip_prefix(name)?.strip_prefix(' ');
        let (system, timeline, slot) = (value("system")?.parse().ok()?, value("timeline")?.parse().ok()?, value("slot")?.to_string());
        let position = Lsn::parse(value("position")?.as_bytes()).ok()?;
        let printed = Lsn::parse(value("printed")?.as_bytes()).ok()?;
        let file = FileId { device: value("device")?.parse().ok()?, inode: value("inode")?.parse().ok()? };
        let len = value("length")?.parse().ok()?;
        let state = State { origin: Origin { system, timeline, slot }, position, printed, file, len };
        (state.to_string() == text).then_some(state)
    }

    /// Another one in its place, whole or not at all; with `sync` so that it outlives a crash of the system.
    pub fn write(&self, path: &Path, sync: bool) -> io::Result<()> {
        let mut name = path.as_os_str().to_os_string();
        name.push(".new");
        let new = PathBuf::from(name);
        let mut file = OpenOptions::new().write(true).create(true).truncate(true).mode(0o600).open(&new)?;
        file.write_all(self.to_string().as_bytes())?;
        if sync {
            file.sync_all()?;
        }
        fs::rename(&new, path)?;
        if sync {
            File::open(folder_of(path))?.sync_all()?;
        }
        Ok(())
    }
}

/// The folder that a file is in.
pub fn folder_of(path: &Path) -> &Path {
    path.parent().filter(|folder| !folder.as_os_str().is_empty()).unwrap_or(Path::new("."))
}

impl fmt::Display for State {
    fn fmt(&self, f: &mut fmt::Formatter<'_>) -> fmt::Result {
        let State { origin, position, printed, file, len } = self;
        writeln!(f, "follow 1\nsystem {}\ntimeline {}\nslot {}", origin.system, origin.timeline, origin.slot)?;
        writeln!(f, "position {position}\nprinted {printed}")?;
        writeln!(f, "device {}\ninode {}\nlength {len}\nend", file.device, file.inode)
    }
}

/// What a server says of itself and of the slot before a stream.
#[derive(Clone, Debug, PartialEq)]
pub struct Standing {
    pub origin: Origin,
    /// The end of its log.
    pub end: Lsn,
    /// Up to where the slot is confirmed.
    pub confirmed: Lsn,
    /// After how long without a status the server ends a stream; none where it never does.
    pub timeout: Option<Duration>,
}

impl Standing {
    /// Why changes may be missing after a position of another time, where they may. A slot that stands below it is none: after a crash PostgreSQL
    /// forgets what was confirmed last.
    pub fn gap(&self, before: &Origin, done: Lsn) -> Option<String> {
        let Standing { origin, end, confirmed, .. } = self;
        if origin.slot != before.slot {
            Some(format!("what is done is of slot {}, and this is slot {}", before.slot, origin.slot))
        } else if origin.system != before.system {
            Some(format!("this is another server: its system identifier is {}, and was {}", origin.system, before.system))
        } else if origin.timeline != before.timeline {
            let how = "a standby was promoted, or the server was restored";
            Some(format!("the server is on timeline {}, and was on {}: {how}", origin.timeline, before.timeline))
        } else if *end < done {
            Some(format!("the server's log ends at {end}, before {done}, which is done: it was restored from an older copy"))
        } else if *confirmed > done {
            Some(format!("slot {} is confirmed up to {confirmed}, beyond {done}: it was made anew, or somebody else used it", origin.slot))
        } else {
            None
        }
    }
}

#[cfg(test)]
mod tests {
    use super::*;

    fn state() -> State {
        let origin = Origin { system: 7_431_234_567_890_123_456, timeline: 3, slot: "s_1".into() };
        State { origin, position: Lsn(0x16_B374_D848), printed: Lsn(0x10), file: FileId { device: 2049, inode: 77 }, len: 1 << 40 }
    }

    #[test]
    fn a_state_is_read_as_it_was_written() {
        let folder = std::env::temp_dir().join(format!("follow_state_{}", std::process::id()));
        let _ = fs::remove_dir_all(&folder);
        fs::create_dir(&folder).unwrap();
        let path = path_of(&folder.join("f"));
        assert_eq!((State::read(&path), path.ends_with("f.state")), (Ok(None), true));
        for (len, sync) in [(5, true), (1 << 40, false)] {
            let state = State { len, ..state() };
            state.write(&path, sync).unwrap();
            assert_eq!(State::read(&path), Ok(Some(state)));
        }
        assert_eq!(fs::metadata(&path).unwrap().mode() & 0o777, 0o600);
        for damaged in ["", "follow 1\n", "\u{0}", &state().to_string()[1..], &(state().to_string() + "\n"), &"x".repeat(100_000)] {
            fs::write(&path, damaged).unwrap();
            assert!(State::read(&path).unwrap_err().contains("is not what follow wrote"), "{damaged}");
        }
        fs::write(&path, b"\xFF").unwrap();
        assert!(State::read(&path).unwrap_err().contains("is not what follow wrote"));
        fs::remove_dir_all(folder).unwrap();
    }

    // No part of a state is another one.
    #[test]
    fn a_state_that_is_cut_or_changed() {
        let text = state().to_string();
        for at in 0..text.len() {
            assert_eq!(State::parse(&text[..at]), None, "{at}");
            for other in ["\n", "x", " ", "-", "+", "0"] {
                let changed = format!("{}{other}{}", &text[..at], &text[at + 1..]);
                assert!(State::parse(&changed).is_none_or(|state| state.to_string() == changed), "{changed}");
            }
        }
    }

    #[test]
    fn gaps() {
        let before = state().origin;
        let standing = |origin: &Origin, end, confirmed| Standing { origin: origin.clone(), end: Lsn(end), confirmed: Lsn(confirmed), timeout: None };
        let gap = |standing: Standing| standing.gap(&before, Lsn(100)).unwrap_or_default();
        // The same place, or a slot that is behind.
        assert_eq!(gap(standing(&before, 100, 100)), "");
        assert_eq!(gap(standing(&before, 200, 0)), "");
        assert!(gap(standing(&before, 99, 50)).contains("log ends at 0/63, before 0/64"));
        assert!(gap(standing(&before, 200, 101)).contains("confirmed up to 0/65, beyond 0/64"));
        assert!(gap(standing(&Origin { system: 1, ..before.clone() }, 200, 0)).contains("another server"));
        assert!(gap(standing(&Origin { timeline: 4, ..before.clone() }, 200, 0)).contains("timeline 4, and was on 3"));
        assert!(gap(standing(&Origin { slot: "t".into(), ..before.clone() }, 200, 0)).contains("of slot s_1, and this is slot t"));
    }
}
