//! rows PORT DATABASE SCRIPT text|binary: runs the paragraphs of a script of SQL, one after the other; after each it makes the changes that come from
//! the stream in copies of the tables, and holds these and what Relation and Type messages say against what the database answers.
mod fail;
mod plain;
mod stream;

use fail::fail;
use plain::Plain;
use rufflesquash::rows::{Column, Description, Old, Relation, Row, Tuple};
use rufflesquash::Event;
use std::collections::{BTreeMap, BTreeSet};
use std::{env, fs};
use stream::Stream;

/// A value: null, or whether it came in binary format, and its bytes.
type Value = Option<(bool, Vec<u8>)>;

#[derive(Clone, Debug, PartialEq)]
struct Described {
    name: String,
    key: bool,
    type_oid: u32,
    modifier: i32,
}

/// A table as the stream describes it, with its rows in no order.
#[derive(Debug, Default)]
struct Table {
    name: (String, String),
    identity: u8,
    columns: Vec<Described>,
    rows: Vec<Vec<Value>>,
}

/// What was met, so that a script that leaves something out is seen.
#[derive(Default)]
struct Met {
    rows: usize,
    kinds: BTreeSet<&'static str>,
    identities: BTreeSet<char>,
    options: BTreeSet<u8>,
    most_columns: usize,
    most_truncated: usize,
}

#[derive(Default)]
struct Copies {
    tables: BTreeMap<u32, Table>,
    types: BTreeMap<u32, (String, String)>,
    origins: BTreeSet<(u64, String)>,
    met: Met,
}

fn text(bytes: &[u8]) -> String {
    String::from_utf8(bytes.to_vec()).expect("UTF-8")
}

// An unchanged value is not sent.
fn value(column: Column) -> Value {
    match column {
        Column::Null | Column::Unchanged => None,
        Column::Text(bytes) => Some((false, bytes.to_vec())),
        Column::Binary(bytes) => Some((true, bytes.to_vec())),
        Column::Refused(refusal) => fail(&refusal.to_string()),
    }
}

// The values of a tuple; an unchanged one is that of the row before.
fn values(tuple: Tuple, before: Option<&[Value]>) -> Vec<Value> {
    let one = |(place, column): (usize, Column)| match (column, before) {
        (Column::Unchanged, Some(before)) => before[place].clone(),
        (Column::Unchanged, None) => fail("an unchanged value without a row before it"),
        (column, _) => value(column),
    };
    tuple.columns().enumerate().map(one).collect()
}

impl Met {
    fn column(&mut self, column: &Column) {
        self.kinds.insert(match column {
            Column::Null => "null",
            Column::Unchanged => "unchanged",
            Column::Text(_) => "text",
            Column::Binary(_) => "binary",
            Column::Refused(_) => "refused",
        });
    }
}

impl Table {
    // The place of the one row that a tuple means: all of it where it is an old row, else its key.
    fn find(&self, tuple: &[Value], whole: bool) -> usize {
        let same = |row: &&Vec<Value>| {
            let mut columns = self.columns.iter().zip(row.iter().zip(tuple));
            row.len() == tuple.len() && columns.all(|(column, (a, b))| a == b || !(whole || column.key))
        };
        match self.rows.iter().filter(same).count() {
            0 => fail(&format!("{:?}: no row is {tuple:?}", self.name)),
            n if n > 1 && !whole => fail(&format!("{:?}: {n} rows have the key of {tuple:?}", self.name)),
            _ => self.rows.iter().position(|row| same(&row)).expect("it was counted"),
        }
    }
}

impl Copies {
    fn take(&mut self, event: Event) {
        let row = event.row().unwrap_or_else(|refusal| fail(&format!("refusal {} of {event:?}", refusal.number())));
        let Some(row) = row else { return };
        self.met.rows += 1;
        row.columns().for_each(|column| self.met.column(&column));
        self.met.most_columns = self.met.most_columns.max(row.columns().len());
        match row {
            Row::Relation(relation) => self.describe(relation),
            Row::Type { id, namespace, name } => {
                self.types.insert(id, (text(namespace), text(name)));
            }
            Row::Origin { lsn, name } => {
                self.origins.insert((lsn.0, text(name)));
            }
            Row::Insert { relation, new } => {
                self.table(relation, new).rows.push(values(new, None));
            }
            Row::Update { relation, old, new } => self.update(relation, old, new),
            Row::Delete { relation, old } => {
                let at = self.old(relation, old);
                self.table(relation, old.tuple()).rows.remove(at);
            }
            Row::Truncate { relations, options } => {
                self.met.options.insert(options);
                self.met.most_truncated = self.met.most_truncated.max(relations.len());
                relations.iter().for_each(|id| self.tables.get_mut(&id).expect("a relation is described first").rows.clear());
            }
            other => fail(&format!("a row that this test does not know: {other:?}")),
        }
    }

    // A later description has the former one's rows: the script changes columns only where no row that is there gets another value.
    fn describe(&mut self, relation: Relation) {
        let described = |d: Description| Described { name: text(d.name), key: d.is_key(), type_oid: d.type_oid, modifier: d.type_modifier };
        self.met.identities.insert(relation.replica_identity as char);
        let table = self.tables.entry(relation.id).or_default();
        table.name = (text(relation.namespace), text(relation.name));
        table.identity = relation.replica_identity;
        table.columns = relation.columns.iter().map(described).collect();
    }

    fn table(&mut self, id: u32, tuple: Tuple) -> &mut Table {
        match self.tables.get_mut(&id) {
            Some(table) if table.columns.len() == tuple.len() => table,
            _ => fail(&format!("relation {id} is not described with {} columns", tuple.len())),
        }
    }

    // The place of the row that an old tuple means. A key has nulls in place of all other columns.
    fn old(&mut self, id: u32, old: Old) -> usize {
        self.met.kinds.insert(if matches!(old, Old::Key(_)) { "old key" } else { "old row" });
        let values = values(old.tuple(), None);
        let table = self.table(id, old.tuple());
        if matches!(old, Old::Key(_)) && table.columns.iter().zip(&values).any(|(column, value)| column.key != value.is_some()) {
            fail(&format!("{:?}: a key is {values:?}", table.name));
        }
        table.find(&values, matches!(old, Old::Row(_)))
    }

    fn update(&mut self, id: u32, old: Option<Old>, new: Tuple) {
        let at = match old {
            Some(old) => self.old(id, old),
            // The key is what it was, and no column of a key is kept outside its row here.
            None => {
                self.met.kinds.insert("no old");
                let key: Vec<Value> = new.columns().map(value).collect();
                self.table(id, new).find(&key, false)
            }
        };
        let row = &mut self.table(id, new).rows[at];
        *row = values(new, Some(row));
    }
}

/// A table as the catalog has it, and how its rows are asked for.
struct Catalogued {
    id: u32,
    name: (String, String),
    identity: u8,
    columns: Vec<Described>,
    // Whether a column's type can be sent in binary format.
    sent: Vec<bool>,
}

const TABLES: &str = "SELECT c.oid, n.nspname, c.relname, c.relreplident FROM pg_class c JOIN pg_namespace n ON n.oid = relnamespace \
    WHERE c.oid IN (SELECT (pg_get_publication_tables('rows')).relid) ORDER BY c.oid";
const COLUMNS: &str =
    "SELECT a.attname, c.relreplident = 'f' OR coalesce(a.attnum = ANY (i.indkey), false), a.atttypid, a.atttypmod, t.typsend <> 0 \
    FROM pg_attribute a JOIN pg_class c ON c.oid = a.attrelid JOIN pg_type t ON t.oid = a.atttypid LEFT JOIN pg_index i ON i.indrelid = c.oid \
    AND (c.relreplident = 'd' AND i.indisprimary OR c.relreplident = 'i' AND i.indisreplident) \
    WHERE a.attnum > 0 AND NOT a.attisdropped AND a.attgenerated = '' AND c.oid = ";
// A domain is named by the type below it.
const TYPES: &str = "SELECT t.oid, n.nspname, coalesce(b.typname, t.typname) FROM pg_type t LEFT JOIN pg_type b ON b.oid = t.typbasetype \
    JOIN pg_namespace n ON n.oid = coalesce(b.typnamespace, t.typnamespace) WHERE t.typname IN ('mood', 'short') ORDER BY t.oid";

// The plugin leaves the name of the catalog's own schema empty.
fn schema(name: &str) -> String {
    if name == "pg_catalog" { "" } else { name }.to_string()
}

fn catalogued(server: &mut Plain) -> Vec<Catalogued> {
    let tables = server.texts(TABLES);
    let number = |text: &str| text.parse::<i64>().expect("a number");
    let table = |row: Vec<String>| {
        let columns = server.texts(&format!("{COLUMNS}{} ORDER BY a.attnum", row[0]));
        let described =
            |c: &Vec<String>| Described { name: c[0].clone(), key: c[1] == "t", type_oid: number(&c[2]) as u32, modifier: number(&c[3]) as i32 };
        Catalogued {
            id: number(&row[0]) as u32,
            name: (schema(&row[1]), row[2].clone()),
            identity: row[3].as_bytes()[0],
            columns: columns.iter().map(described).collect(),
            sent: columns.iter().map(|c| c[4] == "t").collect(),
        }
    };
    tables.into_iter().map(table).collect()
}

fn shown(value: &Value) -> String {
    match value {
        None => "null".to_string(),
        Some((binary, bytes)) => format!("{} \"{}\"", if *binary { "binary" } else { "text" }, bytes.escape_ascii()),
    }
}

fn quoted(name: &str) -> String {
    format!("\"{}\"", name.replace('"', "\"\""))
}

impl Catalogued {
    // A cursor answers in binary format; a type that has none is asked for as text.
    fn rows(&self, server: &mut Plain, binary: bool) -> Vec<Vec<Value>> {
        let column = |(c, sent): (&Described, &bool)| if binary && !sent { quoted(&c.name) + "::text" } else { quoted(&c.name) };
        let list: Vec<String> = self.columns.iter().zip(&self.sent).map(column).collect();
        let select = format!("SELECT {} FROM {}.{}", list.join(", "), quoted(&self.name.0), quoted(&self.name.1));
        let rows = match binary {
            true => server.query(&format!("BEGIN; DECLARE rows BINARY CURSOR FOR {select}; FETCH ALL FROM rows; COMMIT")),
            false => server.query(&select),
        };
        let value = |(value, sent): (Option<Vec<u8>>, &bool)| value.map(|bytes| (binary && *sent, bytes));
        rows.into_iter().map(|row| row.into_iter().zip(&self.sent).map(value).collect()).collect()
    }

    // The first difference between a copy and what the database answers.
    fn difference(&self, copy: Option<&Table>, mut rows: Vec<Vec<Value>>) -> Option<String> {
        let Some(copy) = copy else {
            return (!rows.is_empty()).then(|| format!("{:?} has {} rows, and the stream never named it", self.name, rows.len()));
        };
        if (&copy.name, copy.identity, &copy.columns) != (&self.name, self.identity, &self.columns) {
            return Some(format!("the stream describes {copy:?}, the catalog {:?} {:?} {:?}", self.name, self.identity as char, self.columns));
        }
        let mut ours = copy.rows.clone();
        ours.sort();
        rows.sort();
        if ours.len() != rows.len() {
            return Some(format!("{:?}: {} rows, in the database {}", self.name, ours.len(), rows.len()));
        }
        let (a, b) = ours.iter().zip(&rows).find(|(a, b)| a != b)?;
        let (column, (a, b)) = self.columns.iter().zip(a.iter().zip(b)).find(|(_, (a, b))| a != b)?;
        Some(format!("{:?}, column {:?}: the stream has {}, the database {}", self.name, column.name, shown(a), shown(b)))
    }
}

// Table by table. A paragraph that changes a table's description ends with a row of it, so that the stream has told it.
fn compare(server: &mut Plain, copy: &Copies, binary: bool) {
    for table in catalogued(server) {
        let rows = table.rows(server, binary);
        let ours = copy.tables.get(&table.id);
        if let Some(line) = table.difference(ours, rows) {
            fail(&line);
        }
    }
}

// A comparison that finds nothing wrong is worth something only where it finds what is wrong.
fn wrong_values_are_seen(server: &mut Plain, copy: &mut Copies, binary: bool) {
    for table in catalogued(server) {
        let rows = table.rows(server, binary);
        let Some(ours) = copy.tables.get_mut(&table.id).filter(|ours| !ours.rows.is_empty() && !ours.columns.is_empty()) else { continue };
        let last = ours.columns.len() - 1;
        let right = ours.rows[0][last].clone();
        for wrong in [Some((binary, b"wrong".to_vec())), Some((!binary, right.clone().map_or(vec![], |v| v.1))), None] {
            if wrong != right {
                ours.rows[0][last] = wrong;
                assert!(table.difference(Some(ours), rows.clone()).is_some(), "a wrong value of {:?} is not seen", table.name);
            }
        }
        ours.rows[0][last] = right;
        ours.columns[last].key = !ours.columns[last].key;
        assert!(table.difference(Some(ours), rows).is_some(), "a wrong key of {:?} is not seen", table.name);
    }
}

// What a script must have shown.
fn check_met(copy: &Copies, server: &mut Plain, database: &str, binary: bool) {
    let mut kinds = BTreeSet::from(["null", "unchanged", "text", "old key", "old row", "no old"]);
    if binary {
        kinds.insert("binary");
    }
    let met = &copy.met;
    assert_eq!(met.kinds, kinds, "columns and old tuples of each kind");
    assert_eq!(met.identities, BTreeSet::from(['d', 'f', 'i', 'n']), "each replica identity");
    assert_eq!(met.options, BTreeSet::from([0, 1, 2, 3]), "a Truncate of each kind");
    assert_eq!((met.most_columns, met.most_truncated), (1000, 3), "the widest row and the longest Truncate");
    assert_eq!(copy.origins, BTreeSet::from([(0xAB_0000_00CD, database.to_string())]), "the origin");
    let number = |text: &str| text.parse::<u32>().expect("a number");
    let types = server.texts(TYPES).into_iter().map(|t| (number(&t[0]), (schema(&t[1]), t[2].clone()))).collect();
    assert_eq!(copy.types, types, "types of the database's own");
}

fn main() {
    let arguments: Vec<String> = env::args().collect();
    let (port, database) = (arguments[1].parse().expect("a port"), &arguments[2]);
    let script = fs::read_to_string(&arguments[3]).expect("a script");
    let binary = arguments[4] == "binary";
    let mut steps = script.split("\n\n");
    let mut server = Plain::connect(port, database, false);
    server.query(steps.next().expect("a paragraph"));
    let mut stream = Stream::open(port, database, "rows", binary);
    let mut copy = Copies::default();
    let mut count = 0;
    for step in steps {
        count += 1;
        server.query(step);
        server.query(&format!("SELECT pg_logical_emit_message(true, 'step', '{count}')"));
        stream.until(|event| {
            copy.take(event);
            matches!(event, Event::Message { content, .. } if content == count.to_string().as_bytes())
        });
        compare(&mut server, &copy, binary);
    }
    check_met(&copy, &mut server, database, binary);
    wrong_values_are_seen(&mut server, &mut copy, binary);
    println!("{}: {} messages with rows in {count} steps, all equal to what the database answers", arguments[4], copy.met.rows);
}
