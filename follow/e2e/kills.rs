//! kills FOLLOW CONSUMER PORT LOG KILLS SEED all|files: runs `follow --ack` with its consumer while a workload writes, and kills the one, the other or
//! both at random moments, KILLS times; both start again each time. Held at every start and in between: the server's confirmed position is never beyond
//! what the consumer has acknowledged, and what comes again lies beyond the confirmed position. At the end every transaction of the workload stands in
//! the consumer's file, whole.
mod draw;
mod fail;
mod plain;

use draw::Draw;
use fail::fail;
use plain::Plain;
use std::collections::{BTreeMap, BTreeSet};
use std::process::{Child, Command, ExitStatus, Stdio};
use std::sync::atomic::{AtomicBool, Ordering::SeqCst};
use std::sync::Arc;
use std::thread::{self, JoinHandle};
use std::time::{Duration, Instant};
use std::{env, fs};

const FILES: usize = 4;
const TABLES: [&str; FILES] = ["english", "deutsch", "\"ελληνικά\"", "\"日本語\""];

fn position(text: &str) -> u64 {
    let (high, low) = text.split_once('/').unwrap_or_else(|| fail(&format!("no position: {text:?}")));
    let part = |text| u64::from_str_radix(text, 16).unwrap_or_else(|_| fail(&format!("no position: {text:?}")));
    part(high) << 32 | part(low)
}

/// What the consumer's file says so far.
#[derive(Default)]
struct Kept {
    read: usize,
    // The ends under which a transaction came, and how many rows it had.
    ends: BTreeMap<u64, Vec<u64>>,
    rows: BTreeMap<u64, u64>,
    // The largest acknowledgement of each file, which is what counts, and the last two since the last start.
    acknowledged: [u64; FILES],
    since: [[u64; 2]; FILES],
    twice: u64,
    acks: u64,
}

impl Kept {
    // Reads on. What came since the last time lies beyond where the stream began.
    fn read(&mut self, path: &str, mut from: u64) {
        let text = fs::read_to_string(path).unwrap_or_default();
        let text = &text[..text.rfind('\n').map_or(0, |end| end + 1)];
        for line in text[self.read..].lines() {
            let words: Vec<&str> = line.split(' ').collect();
            match words[0] {
                "tx" => self.transaction(number(words[1]), number(words[2]), position(words[3]), from),
                "ack" => self.ack(words[1], position(words[2])),
                "resumed" => from = position(words[1]).max(from),
                _ => fail(&format!("the consumer's file has {line:?}")),
            }
        }
        self.read = text.len();
    }

    fn transaction(&mut self, number: u64, rows: u64, end: u64, from: u64) {
        if end <= from {
            fail(&format!("transaction {number} came again although {from:X} was confirmed"));
        }
        let ends = self.ends.entry(number).or_default();
        self.twice += u64::from(!ends.is_empty());
        if ends.iter().any(|other| *other != end) || *self.rows.entry(number).or_insert(rows) != rows {
            fail(&format!("transaction {number} came in two forms"));
        }
        ends.push(end);
    }

    fn ack(&mut self, file: &str, end: u64) {
        self.acks += 1;
        let files = if file == "*" { 0..FILES } else { number(file) as usize..number(file) as usize + 1 };
        for file in files {
            self.acknowledged[file] = self.acknowledged[file].max(end);
            self.since[file] = [end, self.since[file][0]];
        }
    }

    /// Nothing beyond it was acknowledged for all files.
    fn most(&self) -> u64 {
        self.acknowledged.into_iter().min().unwrap_or(0)
    }

    /// What was acknowledged since the last start: all of it, or without each file's last line, which a kill may have cut off.
    fn since(&self, but: usize) -> u64 {
        self.since.iter().map(|last| last[but]).min().unwrap_or(0)
    }
}

fn number(text: &str) -> u64 {
    text.parse().unwrap_or_else(|_| fail(&format!("no number: {text:?}")))
}

/// The two processes.
struct Pair {
    follow: Child,
    consumer: Child,
}

struct Kills {
    follow: String,
    consumer: String,
    port: String,
    log: String,
    mode: String,
    admin: Plain,
    draw: Draw,
    kept: Kept,
    // Where the slot stood at first, and at the last start.
    first: u64,
    from: u64,
    samples: u64,
}

impl Kills {
    fn new([follow, consumer, port, log, mode]: [String; 5], number: u16, seed: u64) -> Kills {
        let mut admin = Plain::connect(number, "postgres", false);
        admin.query("SELECT pg_create_logical_replication_slot('acked', 'pgoutput')");
        let (draw, kept) = (Draw::new(seed), Kept::default());
        let mut kills = Kills { follow, consumer, port, log, mode, admin, draw, kept, first: 0, from: 0, samples: 0 };
        kills.first = kills.slot().1;
        kills
    }

    fn slot(&mut self) -> (bool, u64) {
        let rows = self.admin.texts("SELECT active, confirmed_flush_lsn FROM pg_replication_slots WHERE slot_name = 'acked'");
        let row = rows.first().unwrap_or_else(|| fail("there is no slot"));
        (row[0] == "t", position(&row[1]))
    }

    // The position is asked for first: what it confirms was acknowledged before, and stands in the file by now.
    fn sample(&mut self) -> bool {
        let (active, confirmed) = self.slot();
        self.kept.read(&self.log, self.from);
        self.samples += 1;
        if confirmed > self.kept.most().max(self.first) {
            fail(&format!("{confirmed:X} is confirmed, {:X} acknowledged", self.kept.most()));
        }
        active
    }

    fn start(&mut self) -> Pair {
        let until = Instant::now() + Duration::from_secs(10);
        while self.sample() {
            if Instant::now() > until {
                fail("the slot stays in use");
            }
            thread::sleep(Duration::from_millis(5));
        }
        self.from = self.slot().1;
        self.kept.since = Default::default();
        let mut follow = Command::new(&self.follow);
        follow.args(["-h", "127.0.0.1", "-p", &self.port, "-U", "postgres", "-d", "postgres", "-S", "acked", "--publication", "Four Languages"]);
        follow.args(["--json", "-s", "0.02", "--ack", "-w"]);
        if self.mode == "files" {
            follow.args(["--file", "public.english=0", "--file", "public.deutsch=1", "--file", "public.ελληνικά=2", "--file", "public.日本語=3"]);
        }
        let errors = fs::OpenOptions::new().create(true).append(true).open(format!("{}.err", self.log)).expect("a file for lines");
        let mut follow = follow.stdin(Stdio::piped()).stdout(Stdio::piped()).stderr(errors).spawn().expect("follow");
        let (lines, acks) = (follow.stdout.take().expect("a pipe"), follow.stdin.take().expect("a pipe"));
        let seed = self.draw.below(1 << 40).to_string();
        let consumer = Command::new(&self.consumer).args([&self.log, &seed, &self.mode]).stdin(lines).stdout(acks).spawn().expect("consumer");
        Pair { follow, consumer }
    }

    // One start and one kill; answers which was killed.
    fn round(&mut self) -> &'static str {
        let mut pair = self.start();
        // From a moment within the startup to a quarter of a second; short ones are as likely as long ones.
        let size = 11 + self.draw.below(8);
        let until = Instant::now() + Duration::from_micros(self.draw.below(1 << size));
        while Instant::now() < until {
            self.sample();
            thread::sleep(Duration::from_millis(4).min(until.saturating_duration_since(Instant::now())));
        }
        let killed = match self.draw.below(8) {
            0..=1 => both(&mut pair),
            2..=3 => {
                kill(&mut pair.follow);
                "follow"
            }
            4..=5 => {
                kill(&mut pair.consumer);
                "consumer"
            }
            6 => {
                signal(&pair.follow, "-INT");
                "stop"
            }
            _ => {
                self.admin.query("SELECT pg_terminate_backend(active_pid) FROM pg_replication_slots WHERE slot_name = 'acked' AND active");
                thread::sleep(Duration::from_millis(self.draw.below(150)));
                both(&mut pair);
                "connection"
            }
        };
        let follow = ended(&mut pair.follow, "follow");
        ended(&mut pair.consumer, "consumer");
        self.judge(killed, follow);
        killed
    }

    // Who was stopped or lost its consumer has read all that was acknowledged, and has confirmed it.
    fn judge(&mut self, killed: &str, follow: ExitStatus) {
        self.sample();
        let (_, confirmed) = self.slot();
        let least = match (killed, follow.code()) {
            ("stop", Some(0)) => self.kept.since(0),
            ("consumer", Some(0 | 1)) => self.kept.since(1),
            // Before the program has taken it over a signal ends it as the system does.
            ("stop", None) => 0,
            ("stop" | "consumer", code) => fail(&format!("{killed}: follow ended with {code:?}")),
            _ => 0,
        };
        if confirmed < least {
            fail(&format!("{killed}: {least:X} was acknowledged, {confirmed:X} confirmed"));
        }
    }
}

fn kill(child: &mut Child) {
    child.kill().expect("a child that runs or has ended");
}

fn both(pair: &mut Pair) -> &'static str {
    kill(&mut pair.follow);
    kill(&mut pair.consumer);
    "both"
}

fn signal(child: &Child, signal: &str) {
    let _ = Command::new("kill").args([signal, &child.id().to_string()]).status();
}

fn ended(child: &mut Child, name: &str) -> ExitStatus {
    let until = Instant::now() + Duration::from_secs(10);
    loop {
        if let Some(status) = child.try_wait().expect("a child") {
            return status;
        }
        if Instant::now() > until {
            fail(&format!("{name} does not end"));
        }
        thread::sleep(Duration::from_millis(2));
    }
}

// Transactions of 1 to 40 rows in one to three tables, about 400 a second, each with its number in every row.
fn workload(port: u16, seed: u64, stop: Arc<AtomicBool>) -> JoinHandle<BTreeMap<u64, u64>> {
    thread::spawn(move || {
        let (mut plain, mut draw, mut written) = (Plain::connect(port, "postgres", false), Draw::new(seed), BTreeMap::new());
        while !stop.load(SeqCst) {
            let number = written.len() as u64;
            let mut rows = 0;
            let mut sql = String::from("BEGIN;");
            for _ in 0..1 + draw.below(3) {
                let n = 1 + draw.below(14);
                let table = TABLES[draw.below(FILES as u64) as usize];
                sql += &format!("INSERT INTO {table} (n, words) SELECT {number}, repeat('größer ', i) FROM generate_series(1, {n}) i;");
                rows += n;
            }
            plain.query(&(sql + "COMMIT"));
            written.insert(number, rows);
            thread::sleep(Duration::from_millis(2));
        }
        written
    })
}

fn main() {
    let arguments: Vec<String> = env::args().collect();
    let text = |at: usize| arguments.get(at).unwrap_or_else(|| fail("FOLLOW CONSUMER PORT LOG KILLS SEED all|files")).clone();
    let (port, count, seed) = (number(&text(3)) as u16, number(&text(5)), number(&text(6)));
    let mut kills = Kills::new([1, 2, 3, 4, 7].map(text), port, seed);
    let stop = Arc::new(AtomicBool::new(false));
    let writing = workload(port, seed ^ 7, stop.clone());
    let mut met: BTreeMap<&str, u64> = BTreeMap::new();
    for _ in 0..count {
        *met.entry(kills.round()).or_default() += 1;
    }
    stop.store(true, SeqCst);
    let written = writing.join().unwrap_or_else(|_| fail("the workload failed"));
    last_round(&mut kills, &written);
    compare(&kills, &written);
    let Kept { twice, acks, .. } = kills.kept;
    println!(
        "{count} kills {met:?}, {} transactions, {acks} acknowledgements, {} looks at the slot: none lost, {twice} came again, all beyond what was confirmed",
        written.len(),
        kills.samples
    );
}

// With nothing to kill all comes, and is acknowledged and confirmed.
fn last_round(kills: &mut Kills, written: &BTreeMap<u64, u64>) {
    let pair = kills.start();
    let until = Instant::now() + Duration::from_secs(20);
    while kills.kept.ends.len() < written.len() {
        if Instant::now() > until {
            fail(&format!("{} of {} transactions came", kills.kept.ends.len(), written.len()));
        }
        kills.sample();
        thread::sleep(Duration::from_millis(10));
    }
    signal(&pair.follow, "-INT");
    let Pair { mut follow, mut consumer } = pair;
    let status = ended(&mut follow, "follow");
    ended(&mut consumer, "consumer");
    kills.judge("stop", status);
}

fn compare(kills: &Kills, written: &BTreeMap<u64, u64>) {
    if kills.kept.rows != *written {
        let came: BTreeSet<(&u64, &u64)> = kills.kept.rows.iter().collect();
        let missing: Vec<_> = written.iter().filter(|pair| !came.contains(pair)).take(5).collect();
        fail(&format!("{} transactions written, {} came; missing or not whole: {missing:?}", written.len(), kills.kept.rows.len()));
    }
}
