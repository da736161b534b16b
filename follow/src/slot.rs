//! The queries before and after a stream: slots, publications, and the tables that have a file.
use crate::conninfo::Conninfo;
use crate::failure::{sqlstate, tell, who, Failure, FAILED, LOST, ONE_AT_A_TIME};
use crate::options::Options;
use crate::startup::{Answers, Talk};
use crate::state::{Origin, Standing};
use rufflesquash::Lsn;
use std::time::Duration;

/// After so long the user is told what is waited for.
const PATIENCE: Duration = Duration::from_secs(2);

/// What the server tells of a slot.
#[derive(Debug, PartialEq)]
struct Slot {
    /// Whether it is a logical one.
    logical: bool,
    plugin: String,
    /// Empty where it is that of the connection.
    other_database: String,
    /// Of the server's process that uses it; empty where none does.
    pid: String,
    /// Whether the server has what it stands at no more.
    lost: bool,
    /// Up to where it is confirmed.
    confirmed: Lsn,
    /// Whether prepared transactions are sent before they are committed.
    two_phase: bool,
    /// After how long without a status the server ends a stream; none where it never does.
    timeout: Option<Duration>,
}

impl Slot {
    // From the column that `SLOT` asks for.
    fn of(row: &[u8]) -> Option<Slot> {
        let text = String::from_utf8_lossy(row);
        let parts: Vec<&str> = text.splitn(8, '\n').collect();
        let [kind, pid, status, confirmed, two_phase, timeout, plugin, other_database] = parts[..] else { return None };
        Some(Slot {
            logical: kind == "logical",
            plugin: plugin.to_string(),
            other_database: other_database.to_string(),
            pid: pid.to_string(),
            lost: status == "lost",
            confirmed: Lsn::parse(confirmed.as_bytes()).unwrap_or_default(),
            two_phase: two_phase == "true",
            timeout: timeout.parse().ok().filter(|millis| *millis > 0).map(Duration::from_millis),
        })
    }

    // Whether it can be followed here at all.
    fn check(&self, slot: &str) -> Result<(), Failure> {
        let Slot { plugin, other_database, .. } = self;
        let line = if !self.logical {
            format!("slot {slot} is a physical one; name another, or make one with --create-slot")
        } else if plugin != "pgoutput" {
            format!("slot {slot} is one of the plugin {plugin}; follow reads pgoutput: name another, or make one with --create-slot")
        } else if !other_database.is_empty() {
            format!("slot {slot} is one of the database {other_database}; connect to that with --dbname, or name another slot")
        } else if self.two_phase {
            format!(
                "slot {slot} was made with two_phase, and follow would confirm prepared transactions before they are committed: \
                 name another, or make one with --create-slot"
            )
        } else if self.lost {
            format!("slot {slot} was invalidated by the server: {LOST}")
        } else {
            return Ok(());
        };
        Err(Failure::new(FAILED, line))
    }
}

impl Talk<'_> {
    /// Makes the slot; where it may be there already, that is no error if it can be followed.
    pub fn create_slot(&mut self, options: &Options) -> Result<(), Failure> {
        let text = format!("CREATE_REPLICATION_SLOT {} LOGICAL pgoutput NOEXPORT_SNAPSHOT", options.slot);
        let waits = "the end of transactions that are open now: SELECT pid, xact_start, query FROM pg_stat_activity WHERE backend_xid IS NOT NULL";
        match self.slow_query(&text, waits)? {
            Ok(_) => Ok(()),
            Err(error) if options.if_not_exists && sqlstate(&error) == b"42710" => self.slot(&options.slot)?.check(&options.slot),
            Err(error) => Err(Failure::server(&error)),
        }
    }

    /// Drops the slot.
    pub fn drop_slot(&mut self, options: &Options) -> Result<(), Failure> {
        self.query(&format!("DROP_REPLICATION_SLOT {}", options.slot))?.map(drop).map_err(|error| Failure::server(&error))
    }

    /// Where the server and the slot stand, where the slot is there, of this plugin and database, and free: a stream that begins would tell some of it
    /// only, and in other words.
    pub fn standing(&mut self, options: &Options) -> Result<Standing, Failure> {
        let (name, slot) = (&options.slot, self.slot(&options.slot)?);
        slot.check(name)?;
        if !slot.pid.is_empty() {
            let line = format!("slot {name} is in use by the connection with PID {} on the server; {ONE_AT_A_TIME}; {}", slot.pid, who(&slot.pid));
            return Err(Failure { again: true, there: true, ..Failure::new(FAILED, line) });
        }
        let rows = self.query_columns("IDENTIFY_SYSTEM", 3)?.map_err(|error| Failure::server(&error))?;
        let text = |at: usize| rows.first().and_then(|row| row.get(at)).and_then(|value| std::str::from_utf8(value).ok());
        let strange = || Failure::new(FAILED, "the server's answer to IDENTIFY_SYSTEM is not what the protocol says: is this a PostgreSQL server?");
        let system = text(0).and_then(|text| text.parse().ok()).ok_or_else(strange)?;
        let timeline = text(1).and_then(|text| text.parse().ok()).ok_or_else(strange)?;
        let end = text(2).and_then(|text| Lsn::parse(text.as_bytes()).ok()).ok_or_else(strange)?;
        Ok(Standing { origin: Origin { system, timeline, slot: name.clone() }, end, confirmed: slot.confirmed, timeout: slot.timeout })
    }

    // The server may have to wait for others, without a limit of time. After a while the user is told what is waited for.
    fn slow_query(&mut self, text: &str, waits: &str) -> Result<Answers<Vec<u8>>, Failure> {
        self.send_query(text)?;
        if self.silent_for(PATIENCE) {
            tell(format_args!("waiting for {waits}; Ctrl-C ends this"));
        }
        let timeout = self.timeout.take();
        let answers = self.answers();
        self.timeout = timeout;
        answers
    }

    fn slot(&mut self, name: &str) -> Result<Slot, Failure> {
        let rows = self.query(&format!("{SLOT} WHERE slot_name = {}", literal(name)))?.map_err(|error| Failure::server(&error))?;
        let missing = || Failure::new(FAILED, format!("the server has no replication slot {name}; --create-slot makes it"));
        rows.first().and_then(|row| Slot::of(row)).ok_or_else(missing)
    }

    /// Moves the slot to a position that is done, where no stream can confirm it.
    pub fn advance_slot(&mut self, slot: &str, position: Lsn) -> Result<(), Failure> {
        // One that stands further already stays.
        let text = format!(
            "SELECT pg_catalog.pg_replication_slot_advance(slot_name, greatest('{position}', confirmed_flush_lsn)) \
             FROM pg_catalog.pg_replication_slots WHERE slot_name = {}",
            literal(slot)
        );
        self.slow_query(&text, "the server to confirm what was printed")?.map(drop).map_err(|error| Failure::server(&error))
    }

    /// Begins the stream with the plugin's options that the library does not write.
    pub fn start_replication(&mut self, options: &Options, from: Lsn) -> Result<(), Failure> {
        self.send_query(&start_query(options, from))?;
        loop {
            let message = self.answer()?;
            match message.tag {
                b'W' => return Ok(()),
                b'E' => {
                    let wrong_option = matches!(sqlstate(message.payload), b"XX000" | b"42601" | b"22023" | b"0A000");
                    let failure = Failure::server(message.payload);
                    let advice = if wrong_option { "; look at what is given with --option" } else { "" };
                    return Err(Failure { line: failure.line + advice, ..failure });
                }
                b'Z' => return Err(Failure::new(FAILED, "the server began no stream: is this a PostgreSQL server?")),
                // Notices.
                _ => {}
            }
        }
    }

    /// Whether each publication is there: the stream itself would tell it only with the first change.
    pub fn check_publications(&mut self, options: &Options, conninfo: &Conninfo) -> Result<(), Failure> {
        let rows = self.query("SELECT pubname FROM pg_catalog.pg_publication")?.map_err(|error| Failure::server(&error))?;
        let missing = |name: &&String| !rows.iter().any(|row| row == name.as_bytes());
        match options.publications.iter().find(missing) {
            None => Ok(()),
            Some(name) => {
                let line = format!("the database {} has no publication {name}; make it with CREATE PUBLICATION, or name another", conninfo.dbname);
                Err(Failure::new(FAILED, line))
            }
        }
    }

    /// The relation identifiers of the tables that have a file. Each must be one that is followed, since no other could ever touch its file.
    pub fn files(&mut self, options: &Options) -> Result<Vec<(u32, u64)>, Failure> {
        let names: Vec<String> = options.publications.iter().map(|name| literal(name)).collect();
        let rows = self.query(&format!("{PUBLISHED} ({})", names.join(", ")))?.map_err(|error| Failure::server(&error))?;
        let tables: Vec<(u32, &str)> = rows.iter().filter_map(|row| published(row)).collect();
        let mut list: Vec<(u32, u64)> = Vec::new();
        for given in &options.files {
            let same = |(id, name): &&(u32, &str)| given.table == *name || given.table == id.to_string();
            let wrong = match *tables.iter().filter(same).collect::<Vec<_>>() {
                [(id, name)] if list.iter().any(|(other, _)| id == other) => format!("{name} (OID {id}) has its file already"),
                [(id, _)] => {
                    list.push((*id, given.file));
                    continue;
                }
                [] => "no publication that is followed has such a table; give schema.table as the catalog spells it, or an OID".to_string(),
                [..] => "several tables are spelled so; give the table's OID".to_string(),
            };
            return Err(Failure::new(FAILED, format!("{given}: {wrong}")));
        }
        Ok(list)
    }
}

/// A slot in one column: lines with its kind, the PID of who uses it, its state, up to where it is confirmed, whether it is one of two phases, the
/// server's timeout in milliseconds, its plugin, and its database where that is not the connection's. Older servers have no column `two_phase`.
const SLOT: &str = "SELECT pg_catalog.concat_ws(E'\\n', slot_type, coalesce(active_pid::text, ''), coalesce(wal_status, ''), \
    coalesce(confirmed_flush_lsn::text, ''), coalesce(pg_catalog.jsonb_object_field_text(pg_catalog.to_jsonb(s), 'two_phase'), ''), \
    coalesce((SELECT setting FROM pg_catalog.pg_settings WHERE name = 'wal_sender_timeout'), ''), coalesce(plugin, ''), \
    CASE WHEN database <> pg_catalog.current_database() THEN database ELSE '' END) FROM pg_catalog.pg_replication_slots s";

/// The tables of publications: an OID, a space, a schema, a dot and a table in one column.
// By a function of the catalog's: an operator that somebody made for these types would be called instead of the catalog's own.
const PUBLISHED: &str = "SELECT DISTINCT pg_catalog.concat(c.oid, ' ', n.nspname, '.', c.relname) FROM pg_catalog.pg_publication_tables t \
    JOIN pg_catalog.pg_namespace n ON n.nspname = t.schemaname JOIN pg_catalog.pg_class c ON c.relnamespace = n.oid AND c.relname = t.tablename \
    WHERE t.pubname IN";

fn published(row: &[u8]) -> Option<(u32, &str)> {
    let (id, name) = std::str::from_utf8(row).ok()?.split_once(' ')?;
    Some((id.parse().ok()?, name))
}

// A text as SQL takes it.
fn literal(text: &str) -> String {
    format!("E'{}'", text.replace('\\', "\\\\").replace('\'', "''"))
}

// The command with the user's own options. A replication command knows no escapes in a text but the doubled quotation mark.
fn start_query(options: &Options, from: Lsn) -> String {
    let quoted = |text: &str| format!("'{}'", text.replace('\'', "''"));
    let names: Vec<String> = options.publications.iter().map(|name| identifier(name)).collect();
    let mut list = vec!["proto_version '1'".to_string(), format!("publication_names {}", quoted(&names.join(",")))];
    if !options.plugin_options.iter().any(|(name, _)| name == "messages") {
        list.push("messages 'true'".to_string());
    }
    if options.binary {
        list.push("binary 'true'".to_string());
    }
    for (name, value) in &options.plugin_options {
        list.push(match value {
            Some(value) => format!("{} {}", identifier(name), quoted(value)),
            None => identifier(name),
        });
    }
    format!("START_REPLICATION SLOT {} LOGICAL {from} ({})", options.slot, list.join(", "))
}

/// A name as SQL takes it for an identifier: the server folds and splits names that are not quoted.
pub fn identifier(name: &str) -> String {
    format!("\"{}\"", name.replace('"', "\"\""))
}
