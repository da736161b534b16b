//! Rows as they are printed: with the names of their relation's columns, which the stream describes before them.
use crate::json::{Members, Text};
use rufflesquash::rows::{Column, Description, Old, Relation, Row, Tuple};
use rufflesquash::Refusal;
use std::collections::BTreeMap;
use std::fmt::Write;

/// So many bytes of descriptions are kept. A server that describes more relations without end would else take all memory.
const MOST: usize = 64 * 1024 * 1024;

/// What the stream has described so far, each relation as it was described last.
#[derive(Default)]
pub struct Relations {
    tables: Tables,
    bytes: usize,
}

type Tables = BTreeMap<u32, Table>;

/// What is printed again with each row of a relation.
struct Table {
    json: Prepared,
    plain: Prepared,
    columns: Vec<Cell>,
}

/// A part of a line, and the marks in it.
#[derive(Default)]
struct Prepared {
    text: Text,
    marks: usize,
}

/// What stands before the value of a column.
struct Cell {
    json: Prepared,
    plain: Prepared,
    key: bool,
}

/// What stands before a value without its column, and behind the other members of one with it.
const VALUE: &[u8] = b"\"value\":\"";
const BY_PLACE: &[u8] = b",{\"value\":\"";

/// What data say.
pub struct Change<'a> {
    row: Option<Row<'a>>,
    bytes: usize,
    /// Why columns have no names (30), or why the data cannot be read (26, 27).
    refusal: Option<u8>,
    tables: &'a Tables,
}

// The plugin leaves out the name of the catalog's own schema.
fn schema(namespace: &[u8]) -> &[u8] {
    if namespace.is_empty() {
        b"pg_catalog"
    } else {
        namespace
    }
}

impl Table {
    fn new(relation: &Relation) -> Table {
        let mut text = Text::default();
        let mut members = Members::new(&mut text);
        members.value("relation", relation.id);
        members.text("schema", schema(relation.namespace));
        members.text("table", relation.name);
        let marks = members.marks;
        let json = Prepared { text, marks };
        let mut plain = Prepared::default();
        plain.marks = names(&mut plain.text, schema(relation.namespace), relation.name);
        Table { json, plain, columns: relation.columns.iter().map(Cell::new).collect() }
    }

    // With what the memory's own management takes, about.
    fn bytes(&self) -> usize {
        let of = |json: &Prepared, plain: &Prepared| json.text.capacity() + plain.text.capacity() + 64;
        let cell = |cell: &Cell| of(&cell.json, &cell.plain) + std::mem::size_of::<Cell>();
        of(&self.json, &self.plain) + std::mem::size_of::<Table>() + self.columns.iter().map(cell).sum::<usize>()
    }
}

impl Cell {
    fn new(column: Description) -> Cell {
        let mut text = Text::default();
        text.raw(b",{");
        let mut members = Members::new(&mut text);
        members.text("name", column.name);
        members.value("typeoid", column.type_oid);
        if column.is_key() {
            members.value("key", true);
        }
        let marks = members.marks;
        text.raw(b",");
        text.raw(VALUE);
        let json = Prepared { text, marks };
        let mut plain = Prepared::default();
        plain.text.raw(b" ");
        plain.marks = name(&mut plain.text, column.name);
        plain.text.raw(b"=");
        Cell { json, plain, key: column.is_key() }
    }
}

impl Relations {
    /// What data say; a description is kept. None where there are more of these than can be.
    pub fn change<'a>(&'a mut self, data: &'a [u8]) -> Option<Change<'a>> {
        let (row, refusal) = match Row::parse(data) {
            Ok(row) => (row, None),
            Err(refusal) => (None, Some(refusal)),
        };
        if let Some(Row::Relation(relation)) = &row {
            let table = Table::new(relation);
            self.bytes += table.bytes();
            self.bytes -= self.tables.insert(relation.id, table).map_or(0, |former| former.bytes());
            if self.bytes > MOST {
                return None;
            }
        }
        let refusal = refusal.or_else(|| row.as_ref().and_then(|row| self.unnamed(row))).map(|refusal| refusal.number());
        Some(Change { row, bytes: data.len(), refusal, tables: &self.tables })
    }

    // A row whose relation was not described, or with another number of columns, has no names.
    fn unnamed(&self, row: &Row) -> Option<Refusal> {
        let fits = |relation: &u32, tuple: Tuple| self.tables.get(relation).is_some_and(|table| table.columns.len() == tuple.len());
        let named = match row {
            Row::Insert { relation, new } => fits(relation, *new),
            Row::Update { relation, old, new } => fits(relation, *new) && old.is_none_or(|old| fits(relation, old.tuple())),
            Row::Delete { relation, old } => fits(relation, old.tuple()),
            _ => true,
        };
        (!named).then_some(Refusal::RowUnmatched)
    }
}

impl Change<'_> {
    /// The members of a JSON object. Whether they say all that the data hold.
    pub fn json(&self, out: &mut Text) -> bool {
        match self.row {
            Some(Row::Insert { relation, new }) => self.row_json(out, relation, Some(new), None),
            Some(Row::Update { relation, old, new }) => self.row_json(out, relation, Some(new), old),
            Some(Row::Delete { relation, old }) => self.row_json(out, relation, None, Some(old)),
            _ => return self.other_json(Members::new(out)),
        }
        true
    }

    fn row_json(&self, out: &mut Text, relation: u32, new: Option<Tuple>, old: Option<Old>) {
        let table = self.tables.get(&relation);
        match table {
            Some(table) => out.raw(table.json.text.as_bytes()),
            None => {
                out.raw(b"\"relation\":");
                out.number(relation.into());
            }
        }
        if let Some(number) = self.refusal {
            out.raw(b",\"refusal\":");
            out.number(number.into());
        }
        let columns = table.filter(|_| self.refusal.is_none()).map(|table| &table.columns[..]);
        if let Some(new) = new {
            out.raw(b",\"columns\":[");
            cells_json(out, new, columns, false);
            out.raw(b"]");
        }
        if let Some(old) = old {
            out.raw(b",\"identity\":[");
            cells_json(out, old.tuple(), columns, matches!(old, Old::Key(_)));
            out.raw(if matches!(old, Old::Key(_)) { &b"],\"identity_of\":\"key\""[..] } else { b"],\"identity_of\":\"row\"" });
        }
        marks_json(out, table.map_or(0, |table| table.json.marks));
    }

    fn other_json(&self, mut members: Members) -> bool {
        match self.row {
            Some(Row::Relation(relation)) => self.table_json(&mut members, relation.id),
            Some(Row::Type { id, namespace, name }) => {
                members.value("typeoid", id);
                members.text("schema", schema(namespace));
                members.text("type", name);
            }
            Some(Row::Origin { lsn, name }) => {
                members.text("origin", name);
                members.value("origin_lsn", format_args!("\"{lsn}\""));
            }
            Some(Row::Truncate { relations, options }) => {
                members.list("tables", relations, |members, id| self.table_json(members, id));
                members.value("cascade", options & 1 != 0);
                members.value("restart_identity", options & 2 != 0);
            }
            _ => {}
        }
        if let Some(number) = self.refusal {
            members.value("refusal", number);
        }
        if let Some(Row::Relation(relation)) = self.row {
            members.text("replica_identity", &[relation.replica_identity]);
            members.list("columns", relation.columns, described);
        }
        members.end();
        self.row.is_some()
    }

    // A relation by its identifier, with its schema's and its own name where they were told.
    fn table_json(&self, members: &mut Members, id: u32) {
        match self.tables.get(&id) {
            Some(Table { json, .. }) => members.prepared(json.text.as_bytes(), json.marks),
            None => members.value("relation", id),
        }
    }

    /// What a line for people has after the kind, with a space before each word.
    pub fn text(&self, out: &mut Text) {
        let mut marks = self.text_head(out);
        if let Some(number) = self.refusal {
            word(out, format_args!("refused {number}"));
        }
        marks += match self.row {
            Some(Row::Relation(relation)) => relation.columns.iter().map(|column| spaced_name(out, column.name)).sum(),
            Some(Row::Insert { relation, new }) => self.tuple_text(out, relation, new, false),
            Some(Row::Update { relation, old: None, new }) => self.tuple_text(out, relation, new, false),
            Some(Row::Update { relation, old: Some(old), new }) => {
                out.raw(b" old");
                let marks = self.tuple_text(out, relation, old.tuple(), matches!(old, Old::Key(_)));
                out.raw(b" new");
                marks + self.tuple_text(out, relation, new, false)
            }
            Some(Row::Delete { relation, old }) => self.tuple_text(out, relation, old.tuple(), matches!(old, Old::Key(_))),
            _ => 0,
        };
        if marks > 0 {
            word(out, format_args!("marks {marks}"));
        }
    }

    fn text_head(&self, out: &mut Text) -> usize {
        match self.row {
            Some(Row::Relation(relation)) => {
                word(out, relation.id);
                self.table_text(out, relation.id)
            }
            Some(Row::Insert { relation, .. } | Row::Update { relation, .. } | Row::Delete { relation, .. }) => self.table_text(out, relation),
            Some(Row::Type { id, namespace, name }) => {
                word(out, id);
                names(out, schema(namespace), name)
            }
            Some(Row::Origin { lsn, name }) => {
                out.raw(b" ");
                let marks = out.quoted(name);
                word(out, lsn);
                marks
            }
            Some(Row::Truncate { relations, options }) => {
                let marks = relations.iter().map(|id| self.table_text(out, id)).sum();
                out.raw(["", " cascade", " restart identity", " cascade restart identity"][usize::from(options & 3)].as_bytes());
                marks
            }
            _ => {
                word(out, format_args!("{} bytes", self.bytes));
                0
            }
        }
    }

    fn table_text(&self, out: &mut Text, id: u32) -> usize {
        let Some(Table { plain, .. }) = self.tables.get(&id) else {
            word(out, format_args!("relation {id}"));
            return 0;
        };
        out.raw(plain.text.as_bytes());
        plain.marks
    }

    fn tuple_text(&self, out: &mut Text, relation: u32, tuple: Tuple, key: bool) -> usize {
        let columns = self.tables.get(&relation).filter(|_| self.refusal.is_none()).map(|table| &table.columns[..]);
        let mut marks = 0;
        for (at, value) in tuple.columns().enumerate() {
            let column = columns.and_then(|columns| columns.get(at));
            if left_out(column, value, key) {
                continue;
            }
            out.raw(column.map_or(b" ", |column| column.plain.text.as_bytes()));
            marks += column.map_or(0, |column| column.plain.marks);
            match value {
                Column::Null => out.raw(b"null"),
                Column::Unchanged => out.raw(b"unchanged"),
                Column::Text(text) => marks += out.quoted(text),
                Column::Binary(bytes) => {
                    out.raw(b"0x");
                    out.hex(bytes);
                }
                Column::Refused(refusal) => {
                    out.raw(b"refused ");
                    out.number(refusal.number().into());
                }
            }
        }
        marks
    }
}

// A key's other columns are sent as nulls that mean nothing.
fn left_out(column: Option<&Cell>, value: Column, key: bool) -> bool {
    key && value == Column::Null && column.is_some_and(|column| !column.key)
}

fn cells_json(out: &mut Text, tuple: Tuple, columns: Option<&[Cell]>, key: bool) {
    // The first has no comma before it.
    let mut from = 1;
    for (at, value) in tuple.columns().enumerate() {
        let column = columns.and_then(|columns| columns.get(at));
        if left_out(column, value, key) {
            continue;
        }
        let (head, marks) = column.map_or((BY_PLACE, 0), |column| (column.json.text.as_bytes(), column.json.marks));
        cell_json(out, head.get(from..).unwrap_or_default(), value, marks);
        from = 0;
    }
}

#[inline]
fn cell_json(out: &mut Text, head: &[u8], value: Column, mut marks: usize) {
    let without = |end: usize| &head[..head.len().saturating_sub(end)];
    match value {
        Column::Text(text) => {
            out.raw(head);
            marks += out.escaped(text);
            out.raw(b"\"");
        }
        Column::Null => {
            out.raw(without(1));
            out.raw(b"null");
        }
        Column::Unchanged => {
            out.raw(without(VALUE.len()));
            out.raw(b"\"unchanged\":true");
        }
        Column::Binary(bytes) => {
            out.raw(without(VALUE.len()));
            out.raw(b"\"binary\":\"");
            out.hex(bytes);
            out.raw(b"\"");
        }
        Column::Refused(refusal) => {
            out.raw(without(VALUE.len()));
            out.raw(b"\"refusal\":");
            out.number(refusal.number().into());
        }
    }
    marks_json(out, marks);
    out.raw(b"}");
}

fn marks_json(out: &mut Text, marks: usize) {
    if marks > 0 {
        out.raw(b",\"marks\":");
        out.number(marks as u64);
    }
}

fn described(members: &mut Members, column: Description) {
    members.text("name", column.name);
    members.value("typeoid", column.type_oid);
    members.value("typmod", column.type_modifier);
    if column.is_key() {
        members.value("key", true);
    }
}

fn word(out: &mut Text, word: impl std::fmt::Display) {
    // A text takes all.
    let _ = write!(out, " {word}");
}

// Bare where it is a word, else in quotation marks. Answers its marks.
fn name(out: &mut Text, name: &[u8]) -> usize {
    match std::str::from_utf8(name) {
        Ok(text) if !text.is_empty() && text.chars().all(|c| c.is_alphanumeric() || c == '_') => {
            out.raw(name);
            0
        }
        _ => out.quoted(name),
    }
}

fn spaced_name(out: &mut Text, text: &[u8]) -> usize {
    out.raw(b" ");
    name(out, text)
}

fn names(out: &mut Text, schema: &[u8], table: &[u8]) -> usize {
    let marks = spaced_name(out, schema);
    out.raw(b".");
    marks + name(out, table)
}

#[cfg(test)]
mod tests {
    use super::*;

    const RELATION: &[u8] = b"R\0\0\0\x07public\0words\0d\0\x02\x01id\0\0\0\0\x17\xFF\xFF\xFF\xFF\0a b\0\0\0\0\x19\0\0\0\x08";

    fn json(relations: &mut Relations, data: &[u8]) -> String {
        let mut out = Text::default();
        relations.change(data).unwrap().json(&mut out);
        String::from_utf8(out.as_bytes().to_vec()).unwrap()
    }

    fn text(relations: &mut Relations, data: &[u8]) -> String {
        let mut out = Text::default();
        relations.change(data).unwrap().text(&mut out);
        String::from_utf8_lossy(&out.as_bytes()[1..]).into_owned()
    }

    #[test]
    fn rows_with_names() {
        let mut all = Relations::default();
        let head = r#""relation":7,"schema":"public","table":"words""#;
        let id = |value: &str| format!(r#"{{"name":"id","typeoid":23,"key":true,{value}}}"#);
        let words = |value: &str| format!(r#"{{"name":"a b","typeoid":25,{value}}}"#);
        let described = format!(
            r#"{head},"replica_identity":"d","columns":[{},{}]"#,
            r#"{"name":"id","typeoid":23,"typmod":-1,"key":true}"#, r#"{"name":"a b","typeoid":25,"typmod":8}"#
        );
        assert_eq!(json(&mut all, RELATION), described);
        assert_eq!(text(&mut all, RELATION), "7 public.words id \"a b\"");
        let insert = b"I\0\0\0\x07N\0\x02t\0\0\0\x011t\0\0\0\x03x\xFF\n";
        let (one, lossy) = (id(r#""value":"1""#), words("\"value\":\"x\u{fffd}\\n\",\"marks\":1"));
        assert_eq!(json(&mut all, insert), format!(r#"{head},"columns":[{one},{lossy}]"#));
        assert_eq!(text(&mut all, insert), "public.words id=\"1\" \"a b\"=\"x\u{fffd}\\n\" marks 1");
        // Of a key its other columns are left out, and of a binary value the digits are printed.
        let update = b"U\0\0\0\x07K\0\x02t\0\0\0\x011nN\0\x02b\0\0\0\x02\x01\xFEu";
        let (new, unchanged) = (id(r#""binary":"01fe""#), words(r#""unchanged":true"#));
        assert_eq!(json(&mut all, update), format!(r#"{head},"columns":[{new},{unchanged}],"identity":[{one}],"identity_of":"key""#));
        assert_eq!(text(&mut all, update), "public.words old id=\"1\" new id=0x01fe \"a b\"=unchanged");
        let delete = b"D\0\0\0\x07O\0\x02t\0\0\0\x011n";
        assert_eq!(json(&mut all, delete), format!(r#"{head},"identity":[{one},{}],"identity_of":"row""#, words(r#""value":null"#)));
        assert_eq!(text(&mut all, delete), "public.words id=\"1\" \"a b\"=null");
    }

    // README's example, but for what stands before it on the line.
    #[test]
    fn greetings() {
        let mut all = Relations::default();
        all.change(b"R\0\0\x40\x01public\0greetings\0d\0\x02\x01id\0\0\0\0\x17\xFF\xFF\xFF\xFF\0words\0\0\0\0\x19\xFF\xFF\xFF\xFF");
        let printed = json(&mut all, b"I\0\0\x40\x01N\0\x02t\0\0\0\x011t\0\0\0\x09Guten Tag");
        assert!(include_str!("../../README.md").contains(&format!("`{printed}`")), "{printed}");
    }

    #[test]
    fn what_is_no_row() {
        let mut all = Relations::default();
        all.change(RELATION);
        let truncate = b"T\0\0\0\x02\x03\0\0\0\x07\0\0\0\x08";
        let tables = r#""tables":[{"relation":7,"schema":"public","table":"words"},{"relation":8}],"cascade":true,"restart_identity":true"#;
        assert_eq!(json(&mut all, truncate), tables);
        assert_eq!(text(&mut all, truncate), "public.words relation 8 cascade restart identity");
        assert_eq!(json(&mut all, b"Y\0\0\0\x09\0mood\0"), r#""typeoid":9,"schema":"pg_catalog","type":"mood""#);
        assert_eq!(text(&mut all, b"Y\0\0\0\x09\0mood\0"), "9 pg_catalog.mood");
        assert_eq!(json(&mut all, b"O\0\0\0\x01\0\0\0\x02node a\0"), r#""origin":"node a","origin_lsn":"1/2""#);
        assert_eq!(text(&mut all, b"O\0\0\0\x01\0\0\0\x02node a\0"), "\"node a\" 1/2");
        for (data, number) in [(&b"I\0\0\0\x07N\0\x02n"[..], 26), (b"I\0\0\0\x07X", 27), (b"S", 27), (b"", 26)] {
            assert_eq!(json(&mut all, data), format!(r#""refusal":{number}"#));
            assert_eq!(text(&mut all, data), format!("{} bytes refused {number}", data.len()));
        }
    }

    #[test]
    fn rows_without_names() {
        let mut all = Relations::default();
        // Never described, and described with another count.
        let two = b"I\0\0\0\x07N\0\x02t\0\0\0\x011n";
        assert_eq!(json(&mut all, two), r#""relation":7,"refusal":30,"columns":[{"value":"1"},{"value":null}]"#);
        assert_eq!(text(&mut all, two), "relation 7 refused 30 \"1\" null");
        all.change(RELATION);
        let one = b"U\0\0\0\x07K\0\x01t\0\0\0\x011N\0\x01u";
        let head = r#""relation":7,"schema":"public","table":"words""#;
        let identity = r#""identity":[{"value":"1"}],"identity_of":"key""#;
        assert_eq!(json(&mut all, one), format!(r#"{head},"refusal":30,"columns":[{{"unchanged":true}}],{identity}"#));
        assert_eq!(text(&mut all, one), "public.words refused 30 old \"1\" new unchanged");
        assert_eq!(text(&mut all, two), "public.words id=\"1\" \"a b\"=null");
    }

    // With that many columns, whose names have that many bytes.
    fn described(id: u32, columns: u16, name: usize) -> Vec<u8> {
        let column = [&[0][..], &vec![b'n'; name], b"\0\0\0\0\x19\xFF\xFF\xFF\xFF"].concat();
        [b"R", &id.to_be_bytes()[..], b"s\0t\0d", &columns.to_be_bytes(), &column.repeat(columns.into())].concat()
    }

    #[test]
    fn many_relations_and_columns_have_names() {
        let mut all = Relations::default();
        for id in 0..2000 {
            all.change(&described(id, 3, 5)).unwrap();
        }
        all.change(&described(77, 1600, 200)).unwrap();
        let row = |id: u32, columns: u16| [b"I", &id.to_be_bytes()[..], b"N", &columns.to_be_bytes(), &b"n".repeat(columns.into())].concat();
        assert_eq!(text(&mut all, &row(1999, 3)), "s.t nnnnn=null nnnnn=null nnnnn=null");
        let wide = json(&mut all, &row(77, 1600));
        assert_eq!((wide.matches(&"n".repeat(200)).count(), wide.contains("refusal")), (1600, false));
    }

    #[test]
    fn descriptions_without_end() {
        let mut all = Relations::default();
        // One that is described again takes the place of the former.
        assert!((0..100).all(|_| all.change(&described(7, 1600, 63)).is_some()));
        let kept = (0..1_000_000).take_while(|id| all.change(&described(*id, 1600, 63)).is_some()).count();
        assert!((50..200).contains(&kept), "{kept}");
    }
}
