//! Connection strings of keywords and values: `host=localhost port=5432`.
use super::params::Params;
use super::wrong;
use crate::failure::Failure;

/// C's isspace in the C locale.
pub fn is_space(c: char) -> bool {
    matches!(c, ' ' | '\t' | '\n' | '\x0b' | '\x0c' | '\r')
}

pub fn parse(text: &str, params: &mut Params) -> Result<(), Failure> {
    let mut rest = text.trim_start_matches(is_space);
    while !rest.is_empty() {
        let (keyword, after) = rest.split_at(rest.find(|c| c == '=' || is_space(c)).unwrap_or(rest.len()));
        let Some(after) = after.trim_start_matches(is_space).strip_prefix('=') else {
            return Err(wrong(format!("missing \"=\" after {keyword:?} in the connection string; a value with spaces stands in single quotes")));
        };
        let Some((value, after)) = value(after.trim_start_matches(is_space)) else {
            let line = format!("the quoted value of {keyword:?} in the connection string does not end; a quote in it is written \\'");
            return Err(wrong(line));
        };
        if !params.store(keyword, value) {
            return Err(wrong(format!(
                "invalid connection option {keyword:?} in the connection string; it takes libpq's, as host, port, dbname, user"
            )));
        }
        rest = after.trim_start_matches(is_space);
    }
    Ok(())
}

// A value and what comes after it; none where a quote is not closed. A backslash stands before a character that is meant as it is.
fn value(text: &str) -> Option<(String, &str)> {
    let quoted = text.starts_with('\'');
    let mut value = String::new();
    let mut chars = text.strip_prefix('\'').unwrap_or(text).chars();
    while let Some(c) = chars.next() {
        match c {
            '\\' => value.extend(chars.next()),
            '\'' if quoted => return Some((value, chars.as_str())),
            c if !quoted && is_space(c) => return Some((value, chars.as_str())),
            c => value.push(c),
        }
    }
    (!quoted).then_some((value, ""))
}

#[cfg(test)]
mod tests {
    use super::*;

    fn parsed(text: &str) -> Result<Params, String> {
        let mut params = Params::default();
        parse(text, &mut params).map(|()| params).map_err(|failure| failure.line)
    }

    #[test]
    fn values() {
        for (text, expected) in [
            // The documentation's example.
            (
                "host=localhost port=5432 dbname=mydb connect_timeout=10",
                &[("host", "localhost"), ("port", "5432"), ("dbname", "mydb"), ("connect_timeout", "10")][..],
            ),
            ("", &[]),
            (" \t\n", &[]),
            ("user = 'a value'", &[("user", "a value")]),
            ("user=''", &[("user", "")]),
            ("user=", &[("user", "")]),
            // The value of an unquoted parameter may stand after spaces, so this host is no empty one.
            ("host= port=5433", &[("host", "port=5433")]),
            (r"password='it\'s \\ me' user=b", &[("password", r"it's \ me"), ("user", "b")]),
            (r"password=it\'s\ \\me", &[("password", r"it's \me")]),
            ("password=it's", &[("password", "it's")]),
            (r"password=a\", &[("password", "a")]),
            ("user='a'port=1", &[("user", "a"), ("port", "1")]),
            ("user=a user=b", &[("user", "b")]),
            ("\r\x0buser\x0c=\n\u{e9}\u{a0}", &[("user", "\u{e9}\u{a0}")]),
            ("requiressl=1", &[("sslmode", "require")]),
            ("sslmode=disable requiressl=0", &[("sslmode", "prefer")]),
        ] {
            let params = parsed(text).unwrap_or_else(|line| panic!("{text}: {line}"));
            for keyword in ["host", "port", "dbname", "user", "password", "connect_timeout", "sslmode"] {
                let wanted = expected.iter().find(|(name, _)| *name == keyword).map(|(_, value)| *value);
                assert_eq!(params.get(keyword), wanted, "{keyword} of {text}");
            }
        }
    }

    #[test]
    fn errors() {
        for (text, line) in [
            ("host=a nonsense", "missing \"=\" after \"nonsense\" in the connection string; a value with spaces stands in single quotes"),
            ("a b=c", "missing \"=\" after \"a\" in the connection string; a value with spaces stands in single quotes"),
            ("user='a", "the quoted value of \"user\" in the connection string does not end; a quote in it is written \\'"),
            (r"user='a\'", "the quoted value of \"user\" in the connection string does not end; a quote in it is written \\'"),
            ("hots=a", "invalid connection option \"hots\" in the connection string; it takes libpq's, as host, port, dbname, user"),
            ("=a", "invalid connection option \"\" in the connection string; it takes libpq's, as host, port, dbname, user"),
            ("HOST=a", "invalid connection option \"HOST\" in the connection string; it takes libpq's, as host, port, dbname, user"),
        ] {
            assert_eq!(parsed(text).map(|_| ()), Err(line.into()), "{text}");
        }
    }
}
