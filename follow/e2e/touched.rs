//! touched: prints transactions over the tables of touched.sql, drawn from a fixed seed, each of which says in a message which files it touches.
//!
//! touched PRINTED: holds the files that `follow --json` printed with each commit against these messages.
mod fail;

use fail::fail;
use std::collections::BTreeSet;
use std::{env, fs};

/// Each table and its file; the last one has none.
const TABLES: [(&str, Option<u64>); 6] =
    [("english", Some(0)), ("deutsch", Some(1)), ("\"ελληνικά\"", Some(2)), ("\"日本語\"", Some(3)), ("\"v.2\".polski", Some(1)), ("ledger", None)];
const TRANSACTIONS: usize = 600;

/// Marsaglia's xorshift.
struct Draw(u64);

impl Draw {
    fn below(&mut self, n: usize) -> usize {
        self.0 ^= self.0 << 13;
        self.0 ^= self.0 >> 7;
        self.0 ^= self.0 << 17;
        ((self.0 >> 16) % n as u64) as usize
    }
}

/// What is true if the transaction is committed now: how many rows each table has, and which files were touched.
#[derive(Clone, Default)]
struct State {
    rows: [usize; TABLES.len()],
    files: BTreeSet<u64>,
}

struct Maker {
    draw: Draw,
    state: State,
    sql: String,
}

impl Maker {
    fn touch(&mut self, table: usize) {
        self.state.files.extend(TABLES[table].1);
    }

    // A change or two of rows, or of none.
    fn change(&mut self) {
        let table = self.draw.below(TABLES.len());
        let name = TABLES[table].0;
        let last = format!("WHERE id = (SELECT max(id) FROM {name})");
        match self.draw.below(8) {
            0..=2 => {
                self.sql += &format!("INSERT INTO {name} (n) VALUES (1), (2);\n");
                self.state.rows[table] += 2;
                self.touch(table);
            }
            kind @ 3..=5 => {
                let delete = kind == 5;
                self.sql += &if delete { format!("DELETE FROM {name} {last};\n") } else { format!("UPDATE {name} SET n = n + 1 {last};\n") };
                if self.state.rows[table] > 0 {
                    self.state.rows[table] -= usize::from(delete);
                    self.touch(table);
                }
            }
            6 => self.truncate(table),
            _ => self.sql += &format!("UPDATE {name} SET n = 0 WHERE id < 0; INSERT INTO unpublished (n) VALUES (3);\n"),
        }
    }

    // A Truncate touches an empty table, too.
    fn truncate(&mut self, first: usize) {
        let mut tables = BTreeSet::from([first]);
        for _ in 0..self.draw.below(3) {
            tables.insert(self.draw.below(TABLES.len()));
        }
        let names: Vec<&str> = tables.iter().map(|table| TABLES[*table].0).collect();
        self.sql += &format!("TRUNCATE {}, unpublished;\n", names.join(", "));
        for table in tables {
            self.state.rows[table] = 0;
            self.touch(table);
        }
    }

    // Changes, with savepoints that are rolled back or released, one within the other.
    fn changes(&mut self, depth: usize) {
        for _ in 0..self.draw.below(4) {
            if depth < 3 && self.draw.below(3) == 0 {
                let before = self.state.clone();
                self.sql += &format!("SAVEPOINT s{depth};\n");
                self.changes(depth + 1);
                if self.draw.below(3) > 0 {
                    self.sql += &format!("ROLLBACK TO s{depth};\n");
                    self.state = before;
                } else {
                    self.sql += &format!("RELEASE s{depth};\n");
                }
            } else {
                self.change();
            }
        }
    }

    fn transaction(&mut self, number: usize) {
        self.state.files.clear();
        self.sql += "BEGIN;\n";
        self.changes(0);
        let files: Vec<String> = self.state.files.iter().map(|file| file.to_string()).collect();
        self.sql += &format!("SELECT pg_logical_emit_message(true, 'files', '{number} [{}]');\nCOMMIT;\n", files.join(","));
    }

    // One that is rolled back leaves nothing.
    fn rolled_back(&mut self) {
        let before = self.state.clone();
        self.sql += "BEGIN;\n";
        self.changes(0);
        self.sql += "ROLLBACK;\n";
        self.state = before;
    }
}

fn transactions() -> String {
    let mut maker = Maker { draw: Draw(0x746F_7563_6865_6431), state: State::default(), sql: String::new() };
    for number in 0..TRANSACTIONS {
        if maker.draw.below(10) == 0 {
            maker.rolled_back();
        }
        maker.transaction(number);
    }
    maker.sql
}

// What stands between two parts of a line.
fn between<'a>(line: &'a str, before: &str, after: &str) -> &'a str {
    let rest = line.split_once(before).unwrap_or_else(|| fail(&format!("no {before} in {line}"))).1;
    rest.split_once(after).unwrap_or_else(|| fail(&format!("no {after} in {line}"))).0
}

fn unhex(digits: &str) -> String {
    let byte = |i| u8::from_str_radix(&digits[2 * i..2 * i + 2], 16).expect("hexadecimal digits");
    String::from_utf8((0..digits.len() / 2).map(byte).collect()).expect("UTF-8")
}

fn compare(printed: &str) {
    let (mut said, mut count, mut met) = (None, 0, BTreeSet::new());
    for line in printed.lines() {
        if line.contains("\"event\":\"message\"") && line.contains("\"prefix\":\"files\"") {
            said = Some(unhex(between(line, "\"content\":\"", "\"")));
        } else if line.contains("\"event\":\"commit\"") {
            let told = format!("{count} [{}]", between(line, "\"files\":[", "]"));
            if said.as_ref() != Some(&told) {
                fail(&format!("the transaction says {said:?}, its commit {told:?}"));
            }
            met.insert(between(line, "\"files\":[", "]").to_string());
            (said, count) = (None, count + 1);
        }
    }
    if count != TRANSACTIONS || met.len() != 16 {
        fail(&format!("{count} of {TRANSACTIONS} transactions, {} of 16 sets of files", met.len()));
    }
    println!("{count} commits tell the files that they touched, of each of the {} sets", met.len());
}

fn main() {
    match env::args().nth(1) {
        Some(printed) => compare(&fs::read_to_string(printed).expect("what follow printed")),
        None => print!("{}", transactions()),
    }
}
