//! matched PRINTED LAST: holds the rows that `follow --json` printed against what the catalog was at each of them, as messages in the stream tell it
//! (matched.sql). The rows' values are compared with their data, and the rows that were inserted have the numbers 1 to LAST.
mod fail;
mod json;

use fail::fail;
use json::Json;
use std::collections::{BTreeMap, BTreeSet};
use std::{env, fs};

/// A column: its name, its type, and whether it belongs to the key.
type Column = (String, i64, bool);

#[derive(Clone, Debug, PartialEq)]
struct Table {
    schema: String,
    name: String,
    columns: Vec<Column>,
}

/// A value as a line of `follow` has it, without its column.
#[derive(Clone, Debug, PartialEq)]
enum Value {
    Null,
    Unchanged,
    Text(String),
}

#[derive(Default)]
struct Judge {
    catalog: BTreeMap<i64, Table>,
    // How many rows and descriptions had names.
    met: BTreeMap<&'static str, usize>,
    inserted: BTreeSet<i64>,
    unchanged: usize,
}

fn unhex(digits: &str) -> String {
    String::from_utf8(Json::Text(digits.to_string()).bytes()).expect("UTF-8")
}

fn number(text: &str) -> i64 {
    text.parse().unwrap_or_else(|_| fail(&format!("no number: {text}")))
}

// A line of the message: see matched.sql.
fn table(line: &str) -> (i64, Table) {
    let mut words = line.split(' ');
    let mut word = || words.next().unwrap_or_else(|| fail(&format!("a short line: {line}")));
    let (id, schema, name) = (number(word()), unhex(word()), unhex(word()));
    let column = |word: &str| {
        let parts: Vec<&str> = word.split(':').collect();
        (unhex(parts[0]), number(parts[1]), parts[2] == "1")
    };
    (id, Table { schema, name, columns: words.map(column).collect() })
}

fn column(json: &Json) -> Column {
    (json.get("name").text().to_string(), json.get("typeoid").number(), json.find("key") == Some(&Json::True))
}

fn value(json: &Json) -> Value {
    match (json.find("value"), json.find("unchanged")) {
        (Some(Json::Null), None) => Value::Null,
        (Some(Json::Text(text)), None) => Value::Text(text.clone()),
        (None, Some(Json::True)) => Value::Unchanged,
        _ => fail(&format!("no value: {json:?}")),
    }
}

fn take<'a>(data: &mut &'a [u8], n: usize) -> &'a [u8] {
    let (front, rest) = data.split_at(n);
    *data = rest;
    front
}

// The values of a tuple, read from the data by hand.
fn tuple(data: &mut &[u8]) -> Vec<Value> {
    let count = u16::from_be_bytes(take(data, 2).try_into().expect("two bytes"));
    let one = |_| match take(data, 1) {
        b"n" => Value::Null,
        b"u" => Value::Unchanged,
        b"t" => {
            let length = u32::from_be_bytes(take(data, 4).try_into().expect("four bytes"));
            Value::Text(String::from_utf8(take(data, length as usize).to_vec()).expect("UTF-8"))
        }
        letter => fail(&format!("a column of letter {letter:?}")),
    };
    (0..count).map(one).collect()
}

// The tuples of a row by their letters.
fn tuples(data: &[u8]) -> BTreeMap<char, Vec<Value>> {
    let mut rest = &data[5..];
    let mut tuples = BTreeMap::new();
    while !rest.is_empty() {
        let letter = take(&mut rest, 1)[0] as char;
        tuples.insert(letter, tuple(&mut rest));
    }
    tuples
}

impl Judge {
    fn take(&mut self, line: &Json) {
        match line.get("event").text() {
            "message" if line.get("prefix").text() == "catalog" => {
                let told = String::from_utf8(line.get("content").bytes()).expect("UTF-8");
                self.catalog = told.lines().map(table).collect();
            }
            "data" => match line.get("kind").text() {
                "relation" => self.relation(line),
                "truncate" => line.get("tables").list().iter().for_each(|table| drop(self.table(table))),
                "insert" | "update" | "delete" => self.row(line),
                other => fail(&format!("data of kind {other}")),
            },
            _ => {}
        }
    }

    // The table that a line names by its number and its names.
    fn table(&self, line: &Json) -> (i64, Table) {
        let id = line.get("relation").number();
        let table = self.catalog.get(&id).unwrap_or_else(|| fail(&format!("the catalog has no relation {id}")));
        if (line.get("schema").text(), line.get("table").text()) != (&table.schema, &table.name) {
            fail(&format!("relation {id} is {table:?}, not as in {line:?}"));
        }
        (id, table.clone())
    }

    // Nothing is without names.
    fn told(&mut self, kind: &'static str, line: &Json) {
        if line.find("refusal").is_some() {
            fail(&format!("refused: {line:?}"));
        }
        *self.met.entry(kind).or_default() += 1;
    }

    fn relation(&mut self, line: &Json) {
        let (id, table) = self.table(line);
        let columns: Vec<Column> = line.get("columns").list().iter().map(column).collect();
        if columns != table.columns {
            fail(&format!("relation {id} is {table:?}, not as in {line:?}"));
        }
        self.told("relation", line);
    }

    fn row(&mut self, line: &Json) {
        let (_, table) = self.table(line);
        let data = line.get("data").bytes();
        let tuples = tuples(&data);
        self.told("row", line);
        self.unchanged += tuples.values().flatten().filter(|value| **value == Value::Unchanged).count();
        self.side(line, "columns", tuples.get(&'N'), &table.columns, false);
        self.side(line, "identity", tuples.get(&'O'), &table.columns, false);
        self.side(line, "identity", tuples.get(&'K'), &table.columns, true);
        let of = [('K', "key"), ('O', "row")].iter().find(|(letter, _)| tuples.contains_key(letter)).map(|(_, name)| *name);
        if line.find("identity_of").map(Json::text) != of {
            fail(&format!("identity_of is not {of:?} of {line:?}"));
        }
        if line.get("kind").text() == "insert" {
            let Some(Value::Text(text)) = tuples[&'N'].first() else { fail("a row has its number in front") };
            if !self.inserted.insert(number(text)) {
                fail(&format!("row {text} was printed twice"));
            }
        }
    }

    // One tuple with its names; of a key the columns that belong to it.
    fn side(&self, line: &Json, name: &str, values: Option<&Vec<Value>>, columns: &[Column], key: bool) {
        let Some(values) = values else { return };
        let printed = line.get(name).list();
        let keeps = |at: &usize| !key || columns[*at].2;
        let places: Vec<usize> = (0..values.len()).filter(keeps).collect();
        let right = |(at, cell): (&usize, &Json)| column(cell) == columns[*at] && value(cell) == values[*at];
        if values.len() != columns.len() || printed.len() != places.len() || !places.iter().zip(printed).all(right) {
            fail(&format!("{name} of {line:?} is not {values:?} of {columns:?}"));
        }
    }
}

fn main() {
    let arguments: Vec<String> = env::args().collect();
    let mut judge = Judge::default();
    for line in fs::read_to_string(&arguments[1]).expect("what follow printed").lines() {
        judge.take(&json::read(line));
    }
    let last = number(&arguments[2]);
    if judge.inserted != (1..=last).collect() {
        fail(&format!("{} of {last} rows were printed", judge.inserted.len()));
    }
    let told = judge.met.iter().map(|(kind, n)| format!("{n} {kind}s with names"));
    println!("{}, {} unchanged values", told.collect::<Vec<_>>().join(", "), judge.unchanged);
}
