//! Compares, commit by commit, what `follow --json` printed with what the database holds.
//!
//! check [--first PRINTED LSN] PRINTED PEEKED [TABLE=DUMP]...: PRINTED has the lines of follow; PEEKED the messages of a second slot, read from
//! the server by SQL, one in hexadecimal digits a line; a DUMP the table as COPY writes it, by id. With --first there are two lists of lines: the
//! first was broken off when LSN was confirmed, so what was committed up to LSN must stand in the first, and all else in the second.
use std::collections::{BTreeMap, BTreeSet};
use std::{env, fs, process};

/// A transaction: its number, where it was committed, and its changes as the plugin wrote them.
#[derive(Debug, Default, PartialEq)]
struct Commit {
    xid: u32,
    lsn: u64,
    end: u64,
    changes: Vec<Vec<u8>>,
}

#[derive(Default)]
struct Stream {
    commits: Vec<Commit>,
    // Messages outside transactions, by position: after a cut they may come again.
    messages: BTreeMap<u64, Vec<u8>>,
    relations: BTreeMap<u32, String>,
    open: Option<Commit>,
    broken_off: u64,
}

impl Stream {
    fn begin(&mut self, xid: u32) {
        self.broken_off += u64::from(self.open.is_some());
        self.open = Some(Commit { xid, ..Commit::default() });
    }

    fn commit(&mut self, lsn: u64, end: u64) {
        let open = self.open.take().unwrap_or_else(|| fail("a commit without its begin"));
        self.commits.push(Commit { lsn, end, ..open });
    }

    fn change(&mut self, data: Vec<u8>) {
        if data[0] == b'R' {
            let mut reader = Reader { data: &data[1..] };
            let oid = reader.u32();
            reader.text();
            self.relations.insert(oid, reader.text());
            return;
        }
        match &mut self.open {
            Some(open) => open.changes.push(data),
            None => fail("a change outside a transaction"),
        }
    }

    fn message(&mut self, transactional: bool, lsn: u64, bytes: Vec<u8>) {
        match &mut self.open {
            Some(open) if transactional => open.changes.push(bytes),
            _ if transactional => fail("a transactional message outside a transaction"),
            _ => {
                self.messages.insert(lsn, bytes);
            }
        }
    }
}

struct Reader<'a> {
    data: &'a [u8],
}

impl<'a> Reader<'a> {
    fn take(&mut self, n: usize) -> &'a [u8] {
        let (front, rest) = self.data.split_at(n);
        self.data = rest;
        front
    }

    fn u8(&mut self) -> u8 {
        self.take(1)[0]
    }

    fn u16(&mut self) -> u16 {
        u16::from_be_bytes(self.take(2).try_into().expect("two bytes"))
    }

    fn u32(&mut self) -> u32 {
        u32::from_be_bytes(self.take(4).try_into().expect("four bytes"))
    }

    fn u64(&mut self) -> u64 {
        u64::from_be_bytes(self.take(8).try_into().expect("eight bytes"))
    }

    fn text(&mut self) -> String {
        let n = self.data.iter().position(|b| *b == 0).expect("a text has its end");
        let text = String::from_utf8(self.take(n).to_vec()).expect("UTF-8");
        self.u8();
        text
    }

    // Columns as texts; none where a value is null, the old one where it is unchanged.
    fn tuple(&mut self, old: Option<&Vec<String>>) -> Vec<String> {
        let count = self.u16() as usize;
        (0..count)
            .map(|column| match self.u8() {
                b'n' => "\\N".to_string(),
                b'u' => old.map_or(String::new(), |old| old[column].clone()),
                _ => {
                    let n = self.u32() as usize;
                    String::from_utf8(self.take(n).to_vec()).expect("UTF-8")
                }
            })
            .collect()
    }
}

fn fail(line: &str) -> ! {
    eprintln!("check: {line}");
    process::exit(1)
}

fn unhex(text: &str) -> Vec<u8> {
    (0..text.len() / 2).map(|i| u8::from_str_radix(&text[2 * i..2 * i + 2], 16).expect("hexadecimal digits")).collect()
}

// A field of a line of ours: a text without escapes, or a number.
fn field<'a>(line: &'a str, name: &str) -> &'a str {
    let key = format!("\"{name}\":");
    let at = line.find(&key).unwrap_or_else(|| fail(&format!("no {name} in {line}"))) + key.len();
    let rest = line[at..].trim_start_matches('"');
    &rest[..rest.find(['"', ',', '}']).expect("an end")]
}

fn position(line: &str, name: &str) -> u64 {
    parsed(field(line, name))
}

fn parsed(text: &str) -> u64 {
    let (high, low) = text.split_once('/').expect("a slash");
    let part = |text| u64::from_str_radix(text, 16).expect("hexadecimal digits");
    part(high) << 32 | part(low)
}

fn message_bytes(prefix: &str, content: &[u8]) -> Vec<u8> {
    [b"M", prefix.as_bytes(), b"\0", content].concat()
}

// Reads lines on from those before. A line that was broken off has no end.
fn printed(mut stream: Stream, text: &str) -> Stream {
    for line in text[..text.rfind('\n').map_or(0, |end| end + 1)].lines() {
        match field(line, "event") {
            "begin" => stream.begin(field(line, "xid").parse().expect("a number")),
            "commit" => stream.commit(position(line, "lsn"), position(line, "end_lsn")),
            "data" => stream.change(unhex(field(line, "data"))),
            "message" => {
                let bytes = message_bytes(field(line, "prefix"), &unhex(field(line, "content")));
                stream.message(field(line, "transactional") == "true", position(line, "lsn"), bytes);
            }
            "resumed" => {
                stream.broken_off += u64::from(stream.open.take().is_some());
            }
            _ => {}
        }
    }
    stream
}

fn peeked(text: &str) -> Stream {
    let mut stream = Stream::default();
    for data in text.lines().map(unhex) {
        let mut reader = Reader { data: &data[1..] };
        match data[0] {
            b'B' => {
                reader.take(16);
                stream.begin(reader.u32());
            }
            b'C' => {
                reader.u8();
                let lsn = reader.u64();
                stream.commit(lsn, reader.u64());
            }
            b'M' => {
                let (transactional, lsn, prefix) = (reader.u8() & 1 == 1, reader.u64(), reader.text());
                let n = reader.u32() as usize;
                stream.message(transactional, lsn, message_bytes(&prefix, reader.take(n)));
            }
            _ => stream.change(data),
        }
    }
    stream
}

type Tables = BTreeMap<String, BTreeMap<i64, Vec<String>>>;

// Makes a change in copies of the tables. Every table has its number `id` in front.
fn apply(tables: &mut Tables, relations: &BTreeMap<u32, String>, change: &[u8]) {
    let mut reader = Reader { data: &change[1..] };
    match change[0] {
        b'M' => {}
        b'T' => {
            let count = reader.u32();
            reader.u8();
            for _ in 0..count {
                let name = relations[&reader.u32()].clone();
                tables.entry(name).or_default().clear();
            }
        }
        kind => {
            let name = relations[&reader.u32()].clone();
            // The letter of the tuple.
            reader.u8();
            change_row(tables.entry(name).or_default(), kind, reader);
        }
    }
}

// The workload leaves keys as they are, so that an update has one tuple.
fn change_row(table: &mut BTreeMap<i64, Vec<String>>, kind: u8, mut reader: Reader) {
    let tuple = reader.data;
    let row = reader.tuple(None);
    let id = row[0].parse().expect("a number");
    let old = table.remove(&id);
    match (kind, old) {
        (b'I', None) => {
            table.insert(id, row);
        }
        (b'U', Some(old)) => {
            let row = Reader { data: tuple }.tuple(Some(&old));
            table.insert(id, row);
        }
        (b'D', Some(_)) => {}
        _ => fail("an inserted row was there already, or a changed one was not there"),
    }
}

fn compare_commits(ours: &Stream, theirs: &Stream) {
    for (a, b) in ours.commits.iter().zip(&theirs.commits) {
        if a != b {
            let line = format!("transactions differ: {} with {} changes, in the database {} with {}", a.xid, a.changes.len(), b.xid, b.changes.len());
            fail(&line);
        }
    }
    if ours.commits.len() != theirs.commits.len() {
        fail(&format!("{} commits, in the database {}", ours.commits.len(), theirs.commits.len()));
    }
    if ours.messages != theirs.messages {
        fail(&format!("{} messages, in the database {}", ours.messages.len(), theirs.messages.len()));
    }
    if ours.commits.windows(2).any(|pair| pair[0].end >= pair[1].end) {
        fail("a commit was printed twice");
    }
}

fn compare_table(tables: &Tables, name: &str, dump: &str) {
    let empty = BTreeMap::new();
    let ours: Vec<String> = tables.get(name).unwrap_or(&empty).values().map(|row| row.join("\t")).collect();
    let theirs: Vec<&str> = dump.lines().collect();
    if ours != theirs {
        fail(&format!("table {name}: {} rows, in the database {}, or other values", ours.len(), theirs.len()));
    }
}

fn main() {
    let mut arguments: Vec<String> = env::args().collect();
    let read = |path: &str| fs::read_to_string(path).unwrap_or_else(|e| fail(&format!("{path}: {e}")));
    let mut before = Stream::default();
    if arguments[1] == "--first" {
        let confirmed = parsed(&arguments[3]);
        before = printed(before, &read(&arguments[2]));
        before.broken_off += u64::from(before.open.take().is_some());
        before.commits.retain(|commit| commit.end <= confirmed);
        println!("{} commits stand in the first list and are confirmed", before.commits.len());
        arguments.drain(1..4);
    }
    let (ours, theirs) = (printed(before, &read(&arguments[1])), peeked(&read(&arguments[2])));
    compare_commits(&ours, &theirs);
    let mut tables = Tables::new();
    for change in ours.commits.iter().flat_map(|commit| &commit.changes) {
        apply(&mut tables, &ours.relations, change);
    }
    for argument in &arguments[3..] {
        let (name, path) = argument.split_once('=').expect("TABLE=DUMP");
        compare_table(&tables, name, &read(path));
    }
    let changes: usize = ours.commits.iter().map(|commit| commit.changes.len()).sum();
    let kinds: BTreeSet<char> = ours.commits.iter().flat_map(|c| &c.changes).map(|c| c[0] as char).collect();
    println!(
        "{} commits with {changes} changes of kinds {kinds:?}, {} messages outside transactions, {} tables: all equal; {} transactions were broken off and sent again",
        ours.commits.len(),
        ours.messages.len(),
        arguments.len() - 3,
        ours.broken_off
    );
}
