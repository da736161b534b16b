//! The options, named as pg_recvlogical names them.
use crate::conninfo::Given;
use crate::failure::{Failure, USAGE};
use crate::startup::Ask;
use rufflesquash::{Lsn, Run};
use std::ffi::{OsStr, OsString};
use std::fmt;
use std::os::fd::RawFd;
use std::os::unix::ffi::OsStrExt;
use std::path::PathBuf;
use std::time::Duration;

pub const HELP: &str = "\
follow prints what a logical replication slot of PostgreSQL hands on, an event a line.

Usage: follow --slot NAME --publication NAME [OPTION]...

Connection:
  -d, --dbname CONNSTR         database, or a connection string or URI, as psql takes it
  -h, --host HOST              host, or folder of the Unix socket
  -p, --port PORT              port
  -U, --username NAME          user
  -w, --no-password            never ask for a password
  -W, --password               ask for a password before connecting
      --scram-iterations N-M   how many iterations of SCRAM-SHA-256 a server may ask for (default: 4096-10000000)
                               what is not given comes from PGHOST, PGPORT, PGUSER, PGDATABASE, PGPASSWORD and libpq's
                               other variables, ~/.pgpass and the service file, else as for psql
Action (without one: --start):
      --create-slot            create the slot; with --start follow it then
      --if-not-exists          with --create-slot: no error where the slot is there already
      --start                  follow the slot
      --accept-gap             go on where changes may be missing, since the server or the slot is another one or was
                               made anew; prints a gap
      --drop-slot              drop the slot
What to follow:
  -S, --slot NAME              replication slot; it must be one of the plugin pgoutput
      --publication NAME       publication; may be given several times
  -o, --option NAME[=VALUE]    option of the plugin pgoutput, as publication_names, binary, messages
  -P, --plugin NAME            the plugin; pgoutput alone is known
      --file TABLE=FILE        the file, 0 to 3, that a table belongs to: each commit then tells which files it touched;
                               TABLE is schema.table or the table's OID; may be given up to 64 times
  -I, --startpos LSN           begin at this position where the slot stands before it
  -E, --endpos LSN             end after the event that reaches this position
Output:
  -f, --output-file FILE       append to this file; - is standard output; SIGHUP opens it again. FILE.state stands beside
                               it, so that each commit is in the file once, whole, whatever was killed
  -F, --fsync-interval SECS    time between two syncs of an output that is a regular file (default: 10; 0: none);
                               what is not synced is not confirmed
      --format FORMAT          plain or json (default: plain)
      --json                   the same as --format json
      --raw                    with JSON: all data, also as pgoutput wrote them, in hexadecimal digits
      --keepalives             print the server's keepalives, too
      --progress               a status line on standard error, where that is a terminal
Confirming:
      --ack[=FD]               read lines POSITION or FILE POSITION from standard input, or from descriptor FD, and
                               confirm these alone; without it all is confirmed that is written
      --ack-idle               with --ack: where all that was printed is acknowledged, the server's log behind it that
                               has nothing to print is confirmed, too
  -s, --status-interval SECS   time between two confirmations (default: 10; 0: only where the server asks)
How:
      --max-message-size BYTES longest message that is taken (default: 1073741824)
      --server-timeout SECS    after how long a server that says nothing is given up (default: 60; 0: never)
  -n, --no-loop                end with the connection instead of connecting again
  -v, --verbose                tell of connections and confirmations on standard error, and counters at the end
  -?, --help                   print this
  -V, --version                print the version

Ctrl-C stops: what was printed is confirmed first. A second Ctrl-C ends at once. SIGUSR1 prints a page on standard
error, also while the server is waited for, and following goes on:

  POSITION               0/19A3570     what would be confirmed now
  SENT                   0/19A3570     what was confirmed last; a hyphen before the first time
  SERVER                 0/19A3570     how far the server is
  EVENTS                         5     handed on, keepalives among them
  STALLS                         0     how often a full pipe had to be waited for
  STATE                    WAITING     of the stream

Exit status: 0 stopped, --endpos reached, or with --no-loop the server ended the stream; 1 connection or server error,
or output that cannot be written; 2 bad options; 3 to 25 the refusal of that number.
";

/// What the command line asks for.
#[derive(Clone, Debug, PartialEq)]
pub struct Options {
    pub given: Given,
    pub ask: Ask,
    pub create_slot: bool,
    pub if_not_exists: bool,
    pub start: bool,
    pub drop_slot: bool,
    pub accept_gap: bool,
    pub slot: String,
    pub publications: Vec<String>,
    /// Whether values are asked for in binary format.
    pub binary: bool,
    /// Other options of the plugin, which go to the server as they are.
    pub plugin_options: Vec<(String, Option<String>)>,
    pub files: Vec<FileOf>,
    pub startpos: Lsn,
    pub endpos: Option<Lsn>,
    /// None is standard output.
    pub output: Option<PathBuf>,
    /// None where nothing is synced.
    pub fsync_interval: Option<Duration>,
    pub format: Format,
    pub raw: bool,
    pub keepalives: bool,
    pub progress: bool,
    /// The descriptor that acknowledgements come from.
    pub ack: Option<RawFd>,
    /// Whether a keepalive that is not printed counts once all that was printed is acknowledged.
    pub ack_idle: bool,
    pub status_interval: Duration,
    pub max_message_size: usize,
    pub no_loop: bool,
    pub verbose: bool,
}

/// How an event is printed.
#[derive(Clone, Copy, Debug, PartialEq)]
pub enum Format {
    Plain,
    Json,
}

/// A table, as the user names it, and its file.
#[derive(Clone, Debug, PartialEq)]
pub struct FileOf {
    /// An OID, or a schema and a table with a dot between them.
    pub table: String,
    pub file: u64,
}

impl fmt::Display for FileOf {
    fn fmt(&self, f: &mut fmt::Formatter<'_>) -> fmt::Result {
        write!(f, "--file {}={}", self.table, self.file)
    }
}

/// How many tables can be given a file.
const MOST_FILES: usize = 64;

/// What is to be done.
#[derive(Debug, PartialEq)]
pub enum Wanted {
    Follow(Box<Options>),
    Help,
    Version,
}

fn usage(line: String) -> Failure {
    Failure::new(USAGE, line + " (--help lists the options)")
}

impl Options {
    fn defaults() -> Options {
        Options {
            given: Given { server_timeout: Some(Duration::from_secs(60)), ..Given::default() },
            ask: Ask::WhenNeeded,
            create_slot: false,
            if_not_exists: false,
            start: false,
            drop_slot: false,
            accept_gap: false,
            slot: String::new(),
            publications: Vec::new(),
            binary: false,
            plugin_options: Vec::new(),
            files: Vec::new(),
            startpos: Lsn(0),
            endpos: None,
            output: None,
            fsync_interval: Some(Duration::from_secs(10)),
            format: Format::Plain,
            raw: false,
            keepalives: false,
            progress: false,
            ack: None,
            ack_idle: false,
            status_interval: Duration::from_secs(10),
            max_message_size: 1_073_741_824,
            no_loop: false,
            verbose: false,
        }
    }

    // An option without a value; false where there is none of this name.
    fn flag(&mut self, name: &str) -> bool {
        let field = match name {
            "--create-slot" => &mut self.create_slot,
            "--if-not-exists" => &mut self.if_not_exists,
            "--start" => &mut self.start,
            "--drop-slot" => &mut self.drop_slot,
            "--accept-gap" => &mut self.accept_gap,
            "--raw" => &mut self.raw,
            "--keepalives" => &mut self.keepalives,
            "--ack-idle" => &mut self.ack_idle,
            "--progress" => &mut self.progress,
            "--no-loop" | "-n" => &mut self.no_loop,
            "--verbose" | "-v" => &mut self.verbose,
            "--json" => {
                self.format = Format::Json;
                return true;
            }
            "--no-password" | "-w" => {
                self.ask = Ask::Never;
                return true;
            }
            "--password" | "-W" => {
                self.ask = Ask::First;
                return true;
            }
            _ => return false,
        };
        *field = true;
        true
    }

    // An option with a value. The name is judged before the value is asked for.
    fn value(&mut self, name: &str, value: impl FnOnce() -> Option<OsString>) -> Result<(), Failure> {
        let given = || value().ok_or_else(|| usage(format!("{name} needs a value")));
        if matches!(name, "--output-file" | "-f") {
            // A file's name need not be text.
            let file = given()?;
            self.output = (file != "-").then(|| file.into());
            return Ok(());
        }
        let value = || given()?.into_string().map_err(|_| usage(format!("the value of {name} is no UTF-8 text")));
        match name {
            "--dbname" | "-d" => self.given.dbname = Some(value()?),
            "--host" | "-h" => self.given.host = Some(value()?),
            "--port" | "-p" => self.given.port = Some(value()?),
            "--username" | "-U" => self.given.username = Some(value()?),
            "--scram-iterations" => self.given.scram_iterations = Some(iterations(name, &value()?)?),
            "--slot" | "-S" => self.slot = value()?,
            "--publication" => self.publications.push(value()?),
            "--option" | "-o" => self.plugin_option(name, &value()?)?,
            "--plugin" | "-P" => plugin(name, &value()?)?,
            "--file" => self.files.push(file_of(name, &value()?)?),
            "--startpos" | "-I" => self.startpos = position(name, &value()?)?,
            "--endpos" | "-E" => self.endpos = Some(position(name, &value()?)?),
            "--fsync-interval" | "-F" => self.fsync_interval = interval(name, &value()?)?,
            "--format" => self.format = format(name, &value()?)?,
            "--status-interval" | "-s" => self.status_interval = interval(name, &value()?)?.unwrap_or(LONGEST_INTERVAL),
            "--server-timeout" => self.given.server_timeout = interval(name, &value()?)?,
            "--max-message-size" => self.max_message_size = size(name, &value()?)?,
            _ => return Err(usage(format!("there is no option {name}"))),
        }
        Ok(())
    }

    // An option of the plugin. What the library reads is the protocol's first version, without streamed or prepared transactions.
    fn plugin_option(&mut self, name: &str, text: &str) -> Result<(), Failure> {
        let (option, value) = match text.split_once('=') {
            Some((option, value)) => (option, Some(value)),
            None => (text, None),
        };
        let wrong = |what: &str| Err(usage(format!("{name} {text}: {what}")));
        match (option, value.map(truth)) {
            ("", _) => wrong("give the name of an option of pgoutput, as in -o binary=true"),
            ("proto_version", _) if value == Some("1") => Ok(()),
            ("proto_version", _) => wrong("version 1 of the protocol is spoken alone"),
            ("streaming" | "two_phase", Some(Some(false))) => Ok(()),
            ("streaming" | "two_phase", _) => wrong("transactions are followed when they are committed; leave it out"),
            ("binary", None) => set(&mut self.binary, true),
            ("binary", Some(Some(on))) => set(&mut self.binary, on),
            ("publication_names", _) => self.publication_names(name, value.unwrap_or("")),
            _ => {
                self.plugin_options.push((option.to_string(), value.map(String::from)));
                Ok(())
            }
        }
    }

    // Names with commas between, as the server takes them: in quotation marks as they stand, else in small letters.
    fn publication_names(&mut self, name: &str, text: &str) -> Result<(), Failure> {
        let names = identifiers(text).filter(|names| !names.is_empty());
        let names = names.ok_or_else(|| usage(format!("{name} publication_names={text}: give names with commas between them")))?;
        self.publications.extend(names);
        Ok(())
    }

    fn complete(mut self) -> Result<Options, Failure> {
        let wrong = |line: &str| Err(usage(line.into()));
        if self.slot.is_empty() {
            return wrong("name the slot with --slot");
        }
        let plain = |c: char| c.is_ascii_lowercase() || c.is_ascii_digit() || c == '_';
        if !self.slot.chars().all(plain) || self.slot.len() > 63 {
            return wrong(&format!("--slot {}: a slot's name has at most 63 lower-case letters, digits and underscores", self.slot));
        }
        if self.drop_slot && (self.create_slot || self.start) {
            return wrong("--drop-slot stands alone, without --create-slot and --start");
        }
        self.start |= !self.create_slot && !self.drop_slot;
        if self.start && self.publications.is_empty() {
            return wrong("name a publication with --publication");
        }
        if self.files.len() > MOST_FILES {
            return wrong(&format!("{} tables have a --file; at most {MOST_FILES} can", self.files.len()));
        }
        if self.ack_idle && self.ack.is_none() {
            return wrong("--ack-idle needs --ack");
        }
        if self.if_not_exists && !self.create_slot {
            return wrong("--if-not-exists needs --create-slot");
        }
        if !self.start && (self.endpos.is_some() || self.startpos != Lsn(0) || self.ack.is_some() || self.output.is_some()) {
            return wrong("--startpos, --endpos, --ack and --output-file need --start");
        }
        Ok(self)
    }
}

/// The longest interval that a run takes.
const LONGEST_INTERVAL: Duration = Duration::from_secs(86_400);

fn set(field: &mut bool, value: bool) -> Result<(), Failure> {
    *field = value;
    Ok(())
}

// A truth value as the server reads it.
fn truth(text: &str) -> Option<bool> {
    match text.to_ascii_lowercase().as_str() {
        "true" | "on" | "yes" | "1" | "t" | "y" => Some(true),
        "false" | "off" | "no" | "0" | "f" | "n" => Some(false),
        _ => None,
    }
}

// None where the list is not one.
fn identifiers(text: &str) -> Option<Vec<String>> {
    let mut names = Vec::new();
    let mut rest = text.trim();
    loop {
        let name;
        if let Some(quoted) = rest.strip_prefix('"') {
            let mut end = quoted.find('"')?;
            while quoted[end + 1..].starts_with('"') {
                end = end + 2 + quoted[end + 2..].find('"')?;
            }
            name = quoted[..end].replace("\"\"", "\"");
            rest = quoted[end + 1..].trim_start();
        } else {
            let end = rest.find(',').unwrap_or(rest.len());
            name = rest[..end].trim().to_lowercase();
            rest = &rest[end..];
        }
        if name.is_empty() {
            return None;
        }
        names.push(name);
        match rest.strip_prefix(',') {
            Some(more) => rest = more.trim_start(),
            None => return rest.is_empty().then_some(names),
        }
    }
}

fn plugin(name: &str, text: &str) -> Result<(), Failure> {
    if text == "pgoutput" {
        return Ok(());
    }
    Err(usage(format!("{name} {text}: pgoutput is the only plugin that is read here")))
}

fn format(name: &str, text: &str) -> Result<Format, Failure> {
    match text {
        "plain" => Ok(Format::Plain),
        "json" => Ok(Format::Json),
        _ => Err(usage(format!("{name} {text}: a format is plain or json"))),
    }
}

// What stands before the last equals sign is the table, as the catalog spells it.
fn file_of(name: &str, text: &str) -> Result<FileOf, Failure> {
    let wrong = |what: &str| usage(format!("{name} {text}: {what}, as in --file public.greetings=0"));
    let (table, file) = text.rsplit_once('=').ok_or_else(|| wrong("give a table and its file (an output file is -f FILE)"))?;
    let is_oid = table.parse::<u32>().is_ok() && table.bytes().all(|b| b.is_ascii_digit());
    if !is_oid && !table.contains('.') {
        return Err(wrong("a table is an OID or schema.table"));
    }
    match file.parse() {
        Ok(number) if number < Run::FILES && file.len() == 1 => Ok(FileOf { table: table.to_string(), file: number }),
        _ => Err(wrong("a file is a number from 0 to 3")),
    }
}

fn position(name: &str, text: &str) -> Result<Lsn, Failure> {
    let bad = |r| usage(format!("{name} {text:?} is no position: {r}; one looks like 16/B374D848, two hexadecimal numbers of 1 to 8 digits"));
    Lsn::parse(text.as_bytes()).map_err(bad)
}

// None for 0.
fn interval(name: &str, text: &str) -> Result<Option<Duration>, Failure> {
    match text.parse::<f64>() {
        Ok(0.0) => Ok(None),
        Ok(n) if (0.001..=86_400.0).contains(&n) => Ok(Some(Duration::from_secs_f64(n))),
        _ => Err(usage(format!("{name} {text}: give seconds from 0.001 to 86400, or 0"))),
    }
}

// The least and the most.
fn iterations(name: &str, text: &str) -> Result<(u32, u32), Failure> {
    let range = text.split_once('-').and_then(|(least, most)| Some((least.parse().ok()?, most.parse().ok()?)));
    let wrong = || usage(format!("{name} {text}: give the least and the most, as 4096-10000000"));
    range.filter(|(least, most)| (1..=*most).contains(least)).ok_or_else(wrong)
}

fn size(name: &str, text: &str) -> Result<usize, Failure> {
    match text.parse() {
        Ok(n) if (1024..=1_073_741_824).contains(&n) => Ok(n),
        _ => Err(usage(format!("{name} {text}: give bytes from 1024 to 1073741824"))),
    }
}

// `--name=value` and `-xvalue` give the name and the value, others the name. A name is text, a value may be any bytes.
fn split(argument: &OsStr) -> Result<(String, Option<OsString>), Failure> {
    let bytes = argument.as_bytes();
    let at = if bytes.starts_with(b"--") { bytes.iter().position(|b| *b == b'=') } else { Some(2).filter(|at| *at < bytes.len()) };
    let (name, value) = match at {
        Some(at) if bytes[at] == b'=' && bytes.starts_with(b"--") => (&bytes[..at], Some(&bytes[at + 1..])),
        Some(at) => (&bytes[..at], Some(&bytes[at..])),
        None => (bytes, None),
    };
    let name = std::str::from_utf8(name).map_err(|_| usage(format!("{} is no option", argument.to_string_lossy())))?;
    Ok((name.to_string(), value.map(|value| OsStr::from_bytes(value).to_os_string())))
}

// A descriptor that is open, where one is named.
fn descriptor(value: Option<OsString>) -> Result<RawFd, Failure> {
    let Some(text) = value else { return Ok(0) };
    match text.to_str().and_then(|text| text.parse().ok()) {
        Some(fd @ (0 | 3..)) if crate::ffi::is_open(fd) => Ok(fd),
        _ => Err(usage(format!("--ack={}: give the number of a descriptor that is open to read, as in --ack=3 3< FIFO", text.to_string_lossy()))),
    }
}

/// Reads the command line, without the program's name.
pub fn parse(arguments: impl IntoIterator<Item = OsString>) -> Result<Wanted, Failure> {
    let mut options = Options::defaults();
    let mut arguments = arguments.into_iter();
    while let Some(argument) = arguments.next() {
        if !argument.as_bytes().starts_with(b"-") || argument == "-" || argument == "--" {
            return Err(usage(format!("{} is no option; a database is named with -d", argument.to_string_lossy())));
        }
        let (name, value) = split(&argument)?;
        match (name.as_str(), &value) {
            ("--help" | "-?", None) => return Ok(Wanted::Help),
            ("--version" | "-V", None) => return Ok(Wanted::Version),
            ("--ack", _) => {
                options.ack = Some(descriptor(value)?);
                continue;
            }
            _ => {}
        }
        if options.flag(&name) {
            if value.is_some() {
                return Err(usage(format!("{name} takes no value")));
            }
            continue;
        }
        options.value(&name, || value.or_else(|| arguments.next()))?;
    }
    Ok(Wanted::Follow(Box::new(options.complete()?)))
}

#[cfg(test)]
mod tests {
    use super::*;

    fn line(text: &str) -> Result<Wanted, Failure> {
        parse(text.split_whitespace().map(OsString::from))
    }

    fn options(text: &str) -> Options {
        match line(text) {
            Ok(Wanted::Follow(options)) => *options,
            other => panic!("{other:?}"),
        }
    }

    #[test]
    fn names_as_in_pg_recvlogical() {
        let short = options("-d db -h ::1 -p 5433 -U me -S s1 --publication p -I 1/2 -E 3/4 -s 2");
        let long =
            options("--dbname=db --host=::1 --port=5433 --username=me --slot=s1 --publication=p --startpos=1/2 --endpos=3/4 --status-interval=2");
        assert_eq!(short, long);
        assert_eq!(options("-ddb -h::1 -p5433 -Ume -Ss1 --publication p -I1/2 -E3/4 -s2"), short);
        assert_eq!((short.startpos, short.endpos), (Lsn(1 << 32 | 2), Some(Lsn(3 << 32 | 4))));
        assert_eq!(options("-U me -S s --publication a --publication b").publications, ["a", "b"]);
    }

    #[test]
    fn files_of_tables() {
        let of = |table: &str, file| FileOf { table: table.to_string(), file };
        assert_eq!(options("-U me -S s --publication p --file 16384=0 --file=a=b.c=3").files, [of("16384", 0), of("a=b.c", 3)]);
        let list = |n: usize| "-U me -S s --publication p".to_string() + &" --file a.b=1".repeat(n);
        assert_eq!(options(&list(64)).files.len(), 64);
        assert!(line(&list(65)).unwrap_err().line.contains("at most 64"));
    }

    #[test]
    fn bad_options_get_one_line() {
        for (text, part) in [
            ("-U me --publication p", "--slot"),
            ("-U me -S s", "--publication"),
            ("-S S --publication p", "lower-case"),
            ("-S s --publication p --if-not-exists", "--create-slot"),
            ("-S s --endpos 12", "16/B374D848"),
            ("-S s --startpos 100000000/0", "16/B374D848"),
            ("-S s --startpos +1/2", "before the slash is not 1 to 8"),
            ("-S s --endpos 0/123456789", "after the slash is not 1 to 8"),
            ("-S s --file public.t=4", "a file is a number from 0 to 3"),
            ("-S s --file public.t=-1", "a file is a number from 0 to 3"),
            ("-S s --file public.t", "a table and its file"),
            ("-S s --file t=1", "schema.table"),
            ("-S s --file 4294967296=1", "schema.table"),
            ("-S s --file +1=1", "schema.table"),
            ("-S s -s 0.0001", "0.001"),
            ("-S s -F -1", "0.001"),
            ("-S s --format xml", "plain or json"),
            ("-S s -P wal2json", "pgoutput is the only plugin"),
            ("-S s -o proto_version=2", "version 1"),
            ("-S s -o streaming", "when they are committed"),
            ("-S s -o publication_names=a,,b", "commas between"),
            ("-S s --drop-slot --start", "stands alone"),
            ("-S s --publication p --ack-idle", "needs --ack"),
            ("-S s --create-slot -E 0/1", "need --start"),
            ("--ack=1", "a descriptor that is open"),
            ("--ack=77777", "a descriptor that is open"),
            ("-S s --max-message-size x", "1024"),
            ("-S s --scram-iterations 4096", "give the least and the most"),
            ("-S s --scram-iterations 0-5", "give the least and the most"),
            ("-S s --scram-iterations 6-5", "give the least and the most"),
            ("--slot", "needs a value"),
            ("--nonsense", "no option --nonsense"),
            ("--json=1", "takes no value"),
            ("word", "word is no option"),
        ] {
            let failure = line(text).unwrap_err();
            assert_eq!(failure.status, USAGE, "{text}");
            assert!(failure.line.contains(part) && !failure.line.contains('\n'), "{text}: {failure}");
        }
    }

    #[test]
    fn help_and_version() {
        assert_eq!(line("--help").unwrap(), Wanted::Help);
        assert_eq!(line("-V").unwrap(), Wanted::Version);
    }
}
