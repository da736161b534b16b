//! An event as a line, for people or as JSON.
use crate::json::Text;
use crate::options::{Format, Options};
use crate::rows::Relations;
use rufflesquash::{Event, Files, Lsn};

const TOO_MANY: &str = "the server describes more relations than 64 MB hold; follow fewer tables, with a publication of their own";
const UNKNOWN: &str = "the library hands on an event that follow cannot print";

/// Writes the lines of one stream after the other.
pub struct Lines {
    json: bool,
    raw: bool,
    keepalives: bool,
    relations: Relations,
    // Commits are of another time than the messages of a server that is behind.
    commit_dates: Dates,
    server_dates: Dates,
}

impl Lines {
    pub fn new(options: &Options) -> Lines {
        let (json, raw, keepalives) = (options.format == Format::Json, options.raw, options.keepalives);
        Lines { json, raw, keepalives, relations: Relations::default(), commit_dates: Dates::default(), server_dates: Dates::default() }
    }

    /// Adds an event's line; what data describe is kept. Why it cannot be printed, where it cannot: then nothing from it on may be confirmed.
    #[inline]
    pub fn event(&mut self, out: &mut Text, event: &Event, files: Option<Files>) -> Result<(), &'static str> {
        match (event, self.json) {
            (Event::KeepAlive { .. }, _) if !self.keepalives => return Ok(()),
            (Event::XLogData { wal_start, wal_end, server_time_micros, data }, true) => {
                self.data_json(out, [*wal_start, *wal_end], *server_time_micros, data).ok_or(TOO_MANY)?
            }
            (Event::XLogData { wal_start, data, .. }, false) => self.data_text(out, *wal_start, data).ok_or(TOO_MANY)?,
            (event, true) => self.boundary_json(out, event, files).ok_or(UNKNOWN)?,
            (event, false) => self.event_text(out, event, files).ok_or(UNKNOWN)?,
        }
        out.raw(b"\n");
        Ok(())
    }

    /// The stream begins again from here after a cut: a transaction without its commit is sent again whole, and the server describes each relation
    /// anew.
    pub fn resumed(&mut self, out: &mut Text, from: Lsn) {
        self.relations = Relations::default();
        self.at(out, ["{\"event\":\"resumed\",\"from\":\"", "resumed from "], from);
        out.raw(b"\n");
    }

    /// What was changed after a position and before another is not in the stream, for this reason.
    pub fn gap(&mut self, out: &mut Text, done: Lsn, from: Lsn, reason: &str) {
        let [first, second, third, end] = match self.json {
            true => ["{\"event\":\"gap\",\"done\":\"", "\",\"from\":\"", "\",\"reason\":", "}\n"],
            false => ["gap done ", " from ", " ", "\n"],
        };
        member(out, first.as_bytes(), done);
        member(out, second.as_bytes(), from);
        out.raw(third.as_bytes());
        out.quoted(reason.as_bytes());
        out.raw(end.as_bytes());
    }

    /// The stream ends here.
    pub fn stopped(&mut self, out: &mut Text, reached: Lsn) {
        self.at(out, ["{\"event\":\"stopped\",\"reached\":\"", "stopped at "], reached);
        out.raw(b"\n");
    }

    fn at(&self, out: &mut Text, [json, plain]: [&str; 2], position: Lsn) {
        out.raw(if self.json { json } else { plain }.as_bytes());
        out.position(position);
        out.raw(if self.json { "\"}" } else { "" }.as_bytes());
    }

    // None where more relations are described than can be kept.
    fn data_json(&mut self, out: &mut Text, [start, end]: [Lsn; 2], time: i64, data: &[u8]) -> Option<()> {
        out.raw(kind(data).1.as_bytes());
        out.position(start);
        out.raw(b"\",\"wal_end\":\"");
        out.position(end);
        out.raw(b"\",\"time\":\"");
        self.server_dates.write(out, time);
        out.raw(b"\",");
        let before = out.len();
        let all = self.relations.change(data)?.json(out);
        if self.raw || !all {
            let next = out.len() > before;
            out.raw(if next { ",\"data\":\"" } else { "\"data\":\"" }.as_bytes());
            out.hex(data);
            out.raw(b"\"");
        }
        out.raw(b"}");
        Some(())
    }

    fn data_text(&mut self, out: &mut Text, start: Lsn, data: &[u8]) -> Option<()> {
        member(out, b"data ", start);
        out.raw(b" ");
        out.raw(kind(data).0.as_bytes());
        self.relations.change(data)?.text(out);
        Some(())
    }

    // All events but data.
    fn boundary_json(&mut self, out: &mut Text, event: &Event, files: Option<Files>) -> Option<()> {
        match event {
            Event::KeepAlive { wal_end, server_time_micros, reply_requested } => {
                member(out, b"{\"event\":\"keepalive\",\"wal_end\":\"", *wal_end);
                out.raw(b"\",\"time\":\"");
                self.server_dates.write(out, *server_time_micros);
                out.raw(if *reply_requested { "\",\"reply\":true}" } else { "\",\"reply\":false}" }.as_bytes());
            }
            Event::Begin { final_lsn, commit_time_micros, xid } => {
                member(out, b"{\"event\":\"begin\",\"final_lsn\":\"", *final_lsn);
                out.raw(b"\",\"time\":\"");
                self.commit_dates.write(out, *commit_time_micros);
                out.raw(b"\",\"xid\":");
                out.number((*xid).into());
                out.raw(b"}");
            }
            Event::Commit { lsn, end_lsn, commit_time_micros } => {
                member(out, b"{\"event\":\"commit\",\"lsn\":\"", *lsn);
                member(out, b"\",\"end_lsn\":\"", *end_lsn);
                out.raw(b"\",\"time\":\"");
                self.commit_dates.write(out, *commit_time_micros);
                out.raw(b"\"");
                if let Some(files) = files {
                    out.raw(b",\"files\":[");
                    listed(out, files);
                    out.raw(b"]");
                }
                out.raw(b"}");
            }
            Event::Message { transactional, lsn, prefix, content } => message_json(out, *transactional, *lsn, prefix, content),
            Event::StoppedAt { reached } => self.at(out, ["{\"event\":\"stopped\",\"reached\":\"", ""], *reached),
            _ => return None,
        }
        Some(())
    }

    fn event_text(&mut self, out: &mut Text, event: &Event, files: Option<Files>) -> Option<()> {
        match event {
            Event::KeepAlive { wal_end, server_time_micros, .. } => {
                member(out, b"keepalive ", *wal_end);
                out.raw(b" at ");
                self.server_dates.write(out, *server_time_micros);
            }
            Event::Begin { final_lsn, commit_time_micros, xid } => {
                out.raw(b"begin ");
                out.number((*xid).into());
                member(out, b" final ", *final_lsn);
                out.raw(b" at ");
                self.commit_dates.write(out, *commit_time_micros);
            }
            Event::Commit { lsn, end_lsn, commit_time_micros } => {
                member(out, b"commit ", *lsn);
                member(out, b" end ", *end_lsn);
                out.raw(b" at ");
                self.commit_dates.write(out, *commit_time_micros);
                if let Some(files) = files {
                    out.raw(if files.is_empty() { " files -" } else { " files " }.as_bytes());
                    listed(out, files);
                }
            }
            Event::Message { transactional, lsn, prefix, content } => message_text(out, *transactional, *lsn, prefix, content),
            Event::StoppedAt { reached } => self.at(out, ["", "stopped at "], *reached),
            _ => return None,
        }
        Some(())
    }
}

fn member(out: &mut Text, before: &[u8], position: Lsn) {
    out.raw(before);
    out.position(position);
}

fn message_json(out: &mut Text, transactional: bool, lsn: Lsn, prefix: &[u8], content: &[u8]) {
    out.raw(
        if transactional { "{\"event\":\"message\",\"transactional\":true" } else { "{\"event\":\"message\",\"transactional\":false" }.as_bytes(),
    );
    member(out, b",\"lsn\":\"", lsn);
    out.raw(b"\",\"prefix\":");
    let marks = out.quoted(prefix);
    out.raw(b",\"marks\":");
    out.number(marks as u64);
    out.raw(b",\"content\":\"");
    out.hex(content);
    out.raw(b"\"}");
}

fn message_text(out: &mut Text, transactional: bool, lsn: Lsn, prefix: &[u8], content: &[u8]) {
    member(out, b"message ", lsn);
    out.raw(if transactional { " transactional " } else { " immediate " }.as_bytes());
    let marks = out.quoted(prefix);
    out.raw(b" ");
    let marks = marks + out.quoted(content);
    if marks > 0 {
        out.raw(b" marks ");
        out.number(marks as u64);
    }
}

// The numbers of files with commas between.
fn listed(out: &mut Text, files: Files) {
    for (at, file) in files.iter().enumerate() {
        out.raw(if at > 0 { "," } else { "" }.as_bytes());
        out.number(file);
    }
}

macro_rules! kinds {
    ($data:expr, $($letter:literal $name:literal)*; $other:literal) => {
        match $data.first() {
            $(Some($letter) => ($name, concat!("{\"event\":\"data\",\"kind\":\"", $name, "\",\"wal_start\":\"")),)*
            _ => ($other, concat!("{\"event\":\"data\",\"kind\":\"", $other, "\",\"wal_start\":\"")),
        }
    };
}

// The name of a message of pgoutput by its first byte, and how its line begins.
#[rustfmt::skip]
fn kind(data: &[u8]) -> (&'static str, &'static str) {
    kinds!(data, b'R' "relation" b'Y' "type" b'O' "origin" b'I' "insert" b'U' "update" b'D' "delete" b'T' "truncate"; "other")
}

/// Microseconds from 2000-01-01 as dates. What goes before the fraction is the same for all of a second.
#[derive(Default)]
struct Dates {
    second: i64,
    text: String,
}

impl Dates {
    #[inline]
    fn write(&mut self, out: &mut Text, micros: i64) {
        let (second, mut fraction) = (micros.div_euclid(1_000_000), micros.rem_euclid(1_000_000));
        if second != self.second || self.text.is_empty() {
            (self.second, self.text) = (second, date(second));
        }
        out.raw(self.text.as_bytes());
        let mut digits = *b".000000Z";
        for digit in digits[1..7].iter_mut().rev() {
            *digit = b'0' + (fraction % 10) as u8;
            fraction /= 10;
        }
        out.raw(&digits);
    }
}

// Seconds from 2000-01-01 as a date of the Gregorian calendar, UTC.
fn date(seconds: i64) -> String {
    let (days, rest) = (seconds.div_euclid(86_400), seconds.rem_euclid(86_400));
    // Days from 0000-03-01, in eras of 400 years; years begin in March, so that a leap day is a year's last.
    let days = days + 730_425;
    let (era, day) = (days.div_euclid(146_097), days.rem_euclid(146_097));
    let year = (day - day / 1_460 + day / 36_524 - day / 146_096) / 365;
    let day = day - (365 * year + year / 4 - year / 100);
    let month = (5 * day + 2) / 153;
    let day = day - (153 * month + 2) / 5 + 1;
    let (month, next) = if month < 10 { (month + 3, 0) } else { (month - 9, 1) };
    let (hour, minute, second) = (rest / 3600, rest / 60 % 60, rest % 60);
    format!("{:04}-{month:02}-{day:02}T{hour:02}:{minute:02}:{second:02}", year + era * 400 + next)
}

#[cfg(test)]
mod tests {
    use super::*;
    use rufflesquash::Touched;

    const ZERO: &str = "2000-01-01T00:00:00.000000Z";

    // A line with its options, without its end.
    fn line(json: bool, raw: bool, event: &Event, files: Option<Files>) -> String {
        let mut lines =
            Lines { json, raw, keepalives: true, relations: Relations::default(), commit_dates: Dates::default(), server_dates: Dates::default() };
        let mut out = Text::default();
        lines.event(&mut out, event, files).unwrap();
        String::from_utf8(out.as_bytes().to_vec()).unwrap().strip_suffix('\n').unwrap().to_string()
    }

    fn text(event: Event) -> String {
        line(false, false, &event, None)
    }

    fn json(event: Event) -> String {
        line(true, false, &event, None)
    }

    #[test]
    fn dates() {
        let mut dates = Dates::default();
        let mut date = |micros| {
            let mut out = Text::default();
            dates.write(&mut out, micros);
            String::from_utf8(out.as_bytes().to_vec()).unwrap()
        };
        assert_eq!(date(0), ZERO);
        assert_eq!(date(-1), "1999-12-31T23:59:59.999999Z");
        assert_eq!(date(5_097_600_000_001), "2000-02-29T00:00:00.000001Z");
        assert_eq!(date(5_097_600_123_456), "2000-02-29T00:00:00.123456Z");
        assert_eq!(date(757_382_400_000_000), "2024-01-01T00:00:00.000000Z");
        assert_eq!(date(762_479_999_000_000), "2024-02-28T23:59:59.000000Z");
        assert!(date(i64::MIN).len() > 20 && date(i64::MAX).len() > 20);
    }

    #[test]
    fn lines() {
        let commit = Event::Commit { lsn: Lsn(16), end_lsn: Lsn(1 << 32), commit_time_micros: 0 };
        assert_eq!(text(commit), format!("commit 0/10 end 1/0 at {ZERO}"));
        assert_eq!(json(commit), format!(r#"{{"event":"commit","lsn":"0/10","end_lsn":"1/0","time":"{ZERO}"}}"#));
        let begin = Event::Begin { final_lsn: Lsn(16), commit_time_micros: 0, xid: 7 };
        assert_eq!(text(begin), format!("begin 7 final 0/10 at {ZERO}"));
        assert_eq!(json(begin), format!(r#"{{"event":"begin","final_lsn":"0/10","time":"{ZERO}","xid":7}}"#));
        let keepalive = Event::KeepAlive { wal_end: Lsn(16), server_time_micros: 0, reply_requested: true };
        assert_eq!(text(keepalive), format!("keepalive 0/10 at {ZERO}"));
        assert_eq!(json(keepalive), format!(r#"{{"event":"keepalive","wal_end":"0/10","time":"{ZERO}","reply":true}}"#));
        assert_eq!(text(Event::StoppedAt { reached: Lsn(16) }), "stopped at 0/10");
        assert_eq!(json(Event::StoppedAt { reached: Lsn(16) }), r#"{"event":"stopped","reached":"0/10"}"#);
    }

    #[test]
    fn messages() {
        let message = Event::Message { transactional: true, lsn: Lsn(1), prefix: b"a\"\n\x01\xff", content: b"\x00\xfe" };
        assert_eq!(
            json(message),
            "{\"event\":\"message\",\"transactional\":true,\"lsn\":\"0/1\",\"prefix\":\"a\\\"\\n\\u0001\u{fffd}\",\"marks\":1,\"content\":\"00fe\"}"
        );
        // The content is shown on this line alone.
        assert_eq!(text(message), "message 0/1 transactional \"a\\\"\\n\\u0001\u{fffd}\" \"\\u0000\u{fffd}\" marks 2");
        // U+FFFD of the text's own is no mark.
        let own = Event::Message { transactional: false, lsn: Lsn(1), prefix: "\u{fffd}".as_bytes(), content: b"" };
        assert_eq!(text(own), "message 0/1 immediate \"\u{fffd}\" \"\"");
        assert!(json(own).contains("\"marks\":0"));
    }

    #[test]
    fn data_are_digits_where_they_are_asked_for_or_cannot_be_read() {
        let event = |data| Event::XLogData { wal_start: Lsn(16), wal_end: Lsn(17), server_time_micros: 0, data };
        let head = |kind: &str| format!(r#"{{"event":"data","kind":"{kind}","wal_start":"0/10","wal_end":"0/11","time":"{ZERO}","#);
        let row = event(b"I\0\0\0\x07N\0\0");
        let said = head("insert") + r#""relation":7,"refusal":30,"columns":[]"#;
        assert_eq!(json(row), format!("{said}}}"));
        assert_eq!(line(true, true, &row, None), format!(r#"{said},"data":"49000000074e0000"}}"#));
        assert_eq!(json(event(b"I\0")), head("insert") + r#""refusal":26,"data":"4900"}"#);
        assert_eq!(json(event(b"Sx")), head("other") + r#""refusal":27,"data":"5378"}"#);
        // A message that is none of rows.
        let begin = json(event(b"B\0\0\0\0\0\0\0\x10\0\0\0\0\0\0\0\0\0\0\0\x01"));
        assert_eq!(begin, head("other") + r#""data":"420000000000000010000000000000000000000001"}"#);
        assert_eq!(text(row), "data 0/10 insert relation 7 refused 30");
        assert_eq!(text(event(b"Sx")), "data 0/10 other 2 bytes refused 27");
    }

    #[test]
    fn files_of_a_commit() {
        let mut touched = Touched::new(&[(7, 3), (8, 1)]).unwrap();
        let commit = Event::Commit { lsn: Lsn(16), end_lsn: Lsn(32), commit_time_micros: 0 };
        let insert = |data| Event::XLogData { wal_start: Lsn(0), wal_end: Lsn(0), server_time_micros: 0, data };
        let none = touched.files();
        touched.event(&insert(b"I\0\0\0\x07N\0\0"));
        let both = touched.event(&insert(b"I\0\0\0\x08N\0\0"));
        assert_eq!(line(false, false, &commit, Some(none)), format!("commit 0/10 end 0/20 at {ZERO} files -"));
        assert_eq!(line(false, false, &commit, Some(both)), format!("commit 0/10 end 0/20 at {ZERO} files 1,3"));
        assert!(line(true, false, &commit, Some(none)).ends_with(r#"00Z","files":[]}"#));
        assert!(line(true, false, &commit, Some(both)).ends_with(r#"00Z","files":[1,3]}"#));
    }
}
