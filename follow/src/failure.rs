//! Why following ended, in one line, and what the program does then.
use crate::progress;
use rufflesquash::{error_field, ErrorField, Kind, Refusal};
use std::fmt;
use std::io::{self, Write};

/// Exit status of a failed connection or of a server's error.
pub const FAILED: u8 = 1;
/// Exit status of bad options.
pub const USAGE: u8 = 2;

/// A line on standard error; where that cannot be written the program goes on without it.
pub fn tell(line: fmt::Arguments) {
    progress::clear();
    let _ = writeln!(io::stderr(), "follow: {line}");
}

/// Characters that a terminal acts on, or by which a line reads otherwise than it is: controls, separators of lines, and controls of direction.
pub fn is_unsafe(c: char) -> bool {
    c.is_control() || matches!(c, '\u{61c}' | '\u{200e}' | '\u{200f}' | '\u{2028}'..='\u{202e}' | '\u{2066}'..='\u{2069}')
}

/// One line that names what happened and what to do; a cut is tried again.
#[derive(Debug)]
pub struct Failure {
    pub status: u8,
    pub line: String,
    pub again: bool,
    /// Whether the server's own error ended the stream: it takes no status any more.
    pub server: bool,
    /// Whether the server is there and says that it cannot yet: then the first connection is tried again, too.
    pub there: bool,
}

impl Failure {
    pub fn new(status: u8, line: impl Into<String>) -> Failure {
        Failure { status, line: line.into(), again: false, server: false, there: false }
    }

    pub fn cut(line: impl Into<String>) -> Failure {
        Failure { status: FAILED, line: line.into(), again: true, server: false, there: false }
    }

    /// A refusal of the run; the exit status is its number.
    pub fn refused(refusal: Refusal, limit: usize) -> Failure {
        let number = refusal.number();
        let line = match refusal {
            Refusal::EofInHeader => return Failure::cut(format!("the server closed the connection (refusal {number})")),
            Refusal::EofInPayload => return Failure::cut(format!("the server closed the connection within a message (refusal {number})")),
            Refusal::MessageTooLarge => {
                let advice = "nothing is lost: follow again with a larger --max-message-size";
                format!("the server sent a message of more than {limit} bytes (refusal {number}); {advice}")
            }
            Refusal::InputTooLong => {
                format!("the names of the slot and the publications have more than 1,048,576 bytes (refusal {number}); name fewer publications")
            }
            Refusal::ServerError => format!("the server sent an error that cannot be read (refusal {number}); its log has the text"),
            _ if refusal.kind() == Kind::Protocol => {
                let advice = "is this a PostgreSQL server, and does nothing on the way change what it sends?";
                format!("the server's bytes are not what PostgreSQL's protocol says (refusal {number}: {refusal}); {advice}")
            }
            Refusal::Unknown => {
                format!("the library's answer is not known (refusal {number}); build the archive and follow anew, from the same sources")
            }
            _ => format!("follow has used the library wrongly (refusal {number}: {refusal}); this is an error of follow, please report it"),
        };
        Failure::new(number, line)
    }

    /// An error that the server sent: its text, what to do, and whether it may go away by itself.
    pub fn server(payload: &[u8]) -> Failure {
        let (state, text) = (sqlstate(payload), server_text(payload));
        let advice = advice(state, &text).or_else(|| field(payload, ErrorField::Hint).map(|hint| format!("; {hint}"))).unwrap_or_default();
        let detail = if state == b"55000" { field(payload, ErrorField::Detail) } else { None };
        let detail = detail.map(|detail| format!(": {detail}")).unwrap_or_default();
        // Shutting down, crashed, starting up, ended by an administrator; the slot or the last connection is still that of one of ours that is gone.
        let again = matches!(state, b"57P01" | b"57P02" | b"57P03" | b"57P05" | b"57014" | b"55006" | b"53300");
        let there = matches!(state, b"57P03" | b"55006");
        Failure { again, there, ..Failure::new(FAILED, format!("the server says: {text}{detail}{advice}")) }
    }

    /// An error of the server that ends the stream of a slot. One that is lost cannot be moved either.
    pub fn in_stream(payload: &[u8], slot: &str) -> Failure {
        let (state, text) = (sqlstate(payload), server_text(payload));
        if state != b"42704" || text.contains("replication slot") {
            return Failure { server: !matches!(state, b"55000" | b"58P01"), ..Failure::server(payload) };
        }
        let line = format!(
            "the server says: {text}: it was dropped, or made only after the change that comes next, and the server looks at the catalog as of that \
             change. So to make it alone does not help: first CREATE PUBLICATION where it is not there, then skip to now with \
             SELECT pg_replication_slot_advance('{slot}', pg_current_wal_lsn()), or with --drop-slot and then --create-slot; both skip all changes up to \
             then that were not printed"
        );
        Failure { server: true, ..Failure::new(FAILED, line) }
    }
}

impl fmt::Display for Failure {
    fn fmt(&self, f: &mut fmt::Formatter<'_>) -> fmt::Result {
        // One line, whatever the server's text holds.
        f.write_str(&self.line.replace(is_unsafe, " "))
    }
}

/// A slot whose changes the server has no more.
pub const LOST: &str =
    "the server no longer has the changes that the slot stands at. --drop-slot and then --create-slot make it anew; what was changed \
    between its last confirmation and then is not in any stream, so read the tables themselves";

// What to do about an error by its SQLSTATE; where one stands for several errors, by the server's text, and for a text in another language for all.
fn advice(state: &[u8], text: &str) -> Option<String> {
    let has = |words: &[&str]| words.iter().any(|word| text.contains(word));
    let advice = match state {
        b"57P03" => "it takes connections again when that is done",
        b"55006" => return Some(in_use(text)),
        b"42704" if has(&["replication slot"]) => "--create-slot makes it, and SELECT slot_name FROM pg_replication_slots lists those that are there",
        b"42704" if has(&["publication"]) => "make it with CREATE PUBLICATION, or name another",
        b"42704" => "--create-slot makes a slot, CREATE PUBLICATION a publication",
        b"42710" => "follow it without --create-slot, or add --if-not-exists",
        b"28P01" => "is the password right? -W asks for another",
        b"28000" => return refused_user(&has),
        b"3D000" => "name another database with --dbname; psql -l lists those that are there",
        b"55000" => return wrong_state(&has),
        b"53300" if has(&["max_wal_senders"]) => {
            "raise max_wal_senders and restart the server, or end another stream: SELECT * FROM pg_stat_replication"
        }
        b"53300" => "raise max_connections and restart the server, or end other connections: SELECT * FROM pg_stat_activity",
        b"53400" => {
            "raise max_replication_slots and restart the server, or drop a slot that nobody uses: SELECT slot_name, active FROM pg_replication_slots"
        }
        b"42501" if has(&["output plugin", "output_plugin_libraries"]) => return None,
        b"42501" => "the user needs the REPLICATION attribute: ALTER ROLE name REPLICATION",
        b"0A000" if has(&["recovery", "standby"]) => "a standby of this version has no logical decoding: follow the primary server",
        b"08P01" => "is there a connection pooler before the server? Replication needs a connection to the server itself",
        b"58P01" if has(&["WAL segment"]) => LOST,
        b"53100" | b"53200" | b"58030" => "the server's log tells more; follow again when that is mended",
        _ => return None,
    };
    Some(format!("; {advice}"))
}

// The slot is in use; the text ends with the PID of the server's process.
fn in_use(text: &str) -> String {
    let message = text.split(" (SQLSTATE").next().unwrap_or_default();
    let pid = message.trim_end_matches(|c: char| !c.is_ascii_digit()).rsplit(|c: char| !c.is_ascii_digit()).next().unwrap_or_default();
    match pid {
        "" => format!("; {ONE_AT_A_TIME}; SELECT active_pid FROM pg_replication_slots tells its PID on the server"),
        pid => format!("; {ONE_AT_A_TIME}; {}", who(pid)),
    }
}

/// Why a slot that is in use cannot be followed.
pub const ONE_AT_A_TIME: &str = "a slot is followed by one connection at a time: end the other, or name another slot";

/// How to find out whose connection a PID of the server is.
pub fn who(pid: &str) -> String {
    format!("SELECT * FROM pg_stat_activity WHERE pid = {pid} tells whose it is")
}

// 28000: the server does not take the user, or has no line for the connection.
fn refused_user(has: &dyn Fn(&[&str]) -> bool) -> Option<String> {
    let advice = if has(&["pg_hba.conf"]) {
        "add a line for it to the server's pg_hba.conf and reload the server (one for the database replication does not count here), or connect from \
         another host, as another user, to another database or with another sslmode"
    } else if has(&["channel binding"]) {
        "something between here and the server opens TLS with a certificate of its own; where that is meant to be so, set channel_binding=disable"
    } else if has(&["certificate"]) {
        "give a client certificate with sslcert and sslkey"
    } else {
        "name another user with --username, or look at the server's pg_hba.conf"
    };
    Some(format!("; {advice}"))
}

// 55000: what the server or the slot is not ready for.
fn wrong_state(has: &dyn Fn(&[&str]) -> bool) -> Option<String> {
    let advice = if has(&["wal_level"]) {
        "set wal_level = logical in the server's postgresql.conf and restart the server"
    } else if has(&["not created in this database"]) {
        "name its database with --dbname: SELECT slot_name, database FROM pg_replication_slots"
    } else if has(&["no longer get changes", "cannot read from logical", "cannot be advanced"]) {
        LOST
    } else {
        "is wal_level = logical on the server, and is the slot one of the plugin pgoutput in this database? SELECT * FROM pg_replication_slots tells"
    };
    Some(format!("; {advice}"))
}

/// So many bytes of a server's text are shown.
const LONGEST_TEXT: usize = 2_000;

// At a character.
fn shortened(mut text: String) -> String {
    if text.len() > LONGEST_TEXT {
        let end = (0..=LONGEST_TEXT).rev().find(|at| text.is_char_boundary(*at)).unwrap_or(0);
        let left = text.len() - end;
        text.truncate(end);
        text += &format!(" .. ({left} bytes more, which the server's log has)");
    }
    text
}

// With the marks that were put in, where there are any.
fn server_text(payload: &[u8]) -> String {
    let mut text = vec![0; payload.len() * 3 + 64];
    match rufflesquash::error_text(payload, &mut text) {
        Ok(shown) => {
            let text = shortened(String::from_utf8_lossy(&text[..shown.bytes]).into_owned());
            if shown.marks == 0 {
                text
            } else {
                format!("{text}, marks {}", shown.marks)
            }
        }
        Err(refusal) => format!("an error whose text cannot be shown: {refusal}"),
    }
}

// A field of the server's error as text without its full stop, where it has one.
fn field(payload: &[u8], field: ErrorField) -> Option<String> {
    let text = String::from_utf8_lossy(error_field(payload, field)?).trim_end_matches('.').to_string();
    (!text.is_empty()).then(|| shortened(text))
}

/// The SQLSTATE of an ErrorResponse's payload, or nothing.
pub fn sqlstate(payload: &[u8]) -> &[u8] {
    error_field(payload, ErrorField::Code).unwrap_or(b"")
}

#[cfg(test)]
mod tests {
    use super::*;

    #[test]
    fn marks_of_a_servers_text() {
        let line = |payload: &[u8]| Failure::server(payload).line;
        assert_eq!(line(b"Mno slot\0CXX000\0D\xFF\0\0"), "the server says: no slot (SQLSTATE XX000)");
        assert_eq!(line(b"Ma\xFF\xFF\0C\xFF\0D\xFF\0\0"), "the server says: a\u{fffd}\u{fffd} (SQLSTATE \u{fffd}), marks 3");
        assert_eq!(line("M\u{fffd}\0\0".as_bytes()), "the server says: \u{fffd}");
    }

    #[test]
    fn a_long_text_of_a_server_is_cut() {
        let long = |letter: &str, n: usize| letter.repeat(n);
        let line = |text: &str| Failure::server(format!("M{text}\0H{text}\0CXX000\0\0").as_bytes()).to_string();
        let shown = line(&long("ä", 200_000));
        assert!(shown.len() < 5_000 && shown.matches("bytes more, which the server's log has").count() == 2, "{}", shown.len());
        assert!(line(&long("x", 1_900)).contains(&long("x", 1_900)));
        // Nothing that a terminal acts on, and nothing that turns a line around.
        assert_eq!(line("a\u{9b}b\u{202e}c\u{2028}d\u{2066}e\u{61c}f"), "the server says: a b c d e f (SQLSTATE XX000); a b c d e f");
    }

    #[test]
    fn every_refusal_in_words_with_its_number() {
        for number in (1..=35).chain([255]) {
            let refusal = Refusal::from_number(number).unwrap_or(Refusal::Unknown);
            let failure = Failure::refused(refusal, 2000);
            let (status, numbered) = (failure.status, failure.line.contains(&format!("(refusal {number}")));
            assert_eq!((numbered, failure.again), (true, refusal.is_transient()), "{failure}");
            assert_eq!(status, if failure.again { FAILED } else { number as u8 }, "{failure}");
        }
        let line = |refusal| Failure::refused(refusal, 2000).line;
        assert_eq!(line(Refusal::EofInHeader), "the server closed the connection (refusal 8)");
        assert!(line(Refusal::MessageTooLarge).starts_with("the server sent a message of more than 2000 bytes (refusal 7); nothing is lost"));
        assert!(line(Refusal::XLogDataTooShort).contains("PostgreSQL's protocol says (refusal 11: an XLogData message is too short)"));
        assert!(line(Refusal::CacheFull).contains("PostgreSQL's protocol"));
        assert!(line(Refusal::MomentOutOfOrder).contains("this is an error of follow"));
    }

    #[test]
    fn texts_in_another_language_and_on_several_lines() {
        let line = |state: &str, text: &str| Failure::server(format!("C{state}\0M{text}\0Dmore.\0Htry\0\0").as_bytes()).to_string();
        assert!(line("55006", "Slot »s1« ist aktiv für PID 77").ends_with("WHERE pid = 77 tells whose it is"));
        assert!(line("55006", "in use").ends_with("SELECT active_pid FROM pg_replication_slots tells its PID on the server"));
        assert!(line("42704", "»p« existiert nicht").ends_with("--create-slot makes a slot, CREATE PUBLICATION a publication"));
        assert!(line("55000", "passt nicht").contains("(SQLSTATE 55000): more; is wal_level = logical"));
        // What is not known here has the server's own hint, and what it holds stays on one line.
        assert_eq!(line("XX000", "a\nb\x1b[1m"), "the server says: a b [1m (SQLSTATE XX000); try");
        assert!(Failure::in_stream("C42704\0M»p« existiert nicht\0\0".as_bytes(), "s").line.contains("pg_replication_slot_advance('s'"));
        assert!(Failure::in_stream(b"C57P01\0Mends\0\0", "s").again);
    }
}
