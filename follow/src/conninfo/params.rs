//! The parameters by their names, and where the value of each came from.
use super::{wrong, Surroundings};
use crate::failure::Failure;
use std::collections::BTreeMap;
use std::os::unix::ffi::OsStrExt;
use std::path::PathBuf;

/// The parameters that libpq 15 knows, and `require_auth` of libpq 16, each with its variable. Empty: there is none, or it does not matter here (follow always asks for UTF-8).
const KEYWORDS: [(&str, &str); 37] = [
    ("service", ""),
    ("user", "PGUSER"),
    ("password", "PGPASSWORD"),
    ("passfile", "PGPASSFILE"),
    ("channel_binding", "PGCHANNELBINDING"),
    ("connect_timeout", "PGCONNECT_TIMEOUT"),
    ("dbname", "PGDATABASE"),
    ("host", "PGHOST"),
    ("hostaddr", "PGHOSTADDR"),
    ("port", "PGPORT"),
    ("client_encoding", ""),
    ("options", "PGOPTIONS"),
    ("application_name", "PGAPPNAME"),
    ("fallback_application_name", ""),
    ("keepalives", ""),
    ("keepalives_idle", ""),
    ("keepalives_interval", ""),
    ("keepalives_count", ""),
    ("tcp_user_timeout", ""),
    ("sslmode", "PGSSLMODE"),
    ("sslcompression", ""),
    ("sslcert", "PGSSLCERT"),
    ("sslkey", "PGSSLKEY"),
    ("sslpassword", ""),
    ("sslrootcert", "PGSSLROOTCERT"),
    ("sslcrl", "PGSSLCRL"),
    ("sslcrldir", "PGSSLCRLDIR"),
    ("sslsni", "PGSSLSNI"),
    ("requirepeer", "PGREQUIREPEER"),
    ("ssl_min_protocol_version", "PGSSLMINPROTOCOLVERSION"),
    ("ssl_max_protocol_version", "PGSSLMAXPROTOCOLVERSION"),
    ("gssencmode", "PGGSSENCMODE"),
    ("krbsrvname", ""),
    ("gsslib", ""),
    ("replication", ""),
    ("target_session_attrs", "PGTARGETSESSIONATTRS"),
    ("require_auth", "PGREQUIREAUTH"),
];

/// Where a value came from.
#[derive(Clone, Debug, PartialEq)]
pub enum Origin {
    /// An option of the command line.
    Option(&'static str),
    /// A connection string or URI.
    Connstr,
    /// A service file and the number of the line.
    Service(PathBuf, usize),
    Variable(&'static str),
}

#[derive(Debug, Default)]
pub struct Params {
    values: BTreeMap<&'static str, (String, Origin)>,
}

/// The parameter's name as one that lives as long as the program; none where libpq has no such parameter.
pub fn known(keyword: &str) -> Option<&'static str> {
    KEYWORDS.iter().map(|(known, _)| *known).find(|known| *known == keyword)
}

impl Params {
    /// In place of what was there.
    pub fn set(&mut self, keyword: &'static str, value: impl Into<String>, origin: Origin) {
        self.values.insert(keyword, (value.into(), origin));
    }

    /// Where there is none yet.
    pub fn fill(&mut self, keyword: &'static str, value: impl Into<String>, origin: Origin) {
        self.values.entry(keyword).or_insert_with(|| (value.into(), origin));
    }

    /// From a connection string, where the last value counts; false where there is no such parameter. `requiressl` is an old name of `sslmode`.
    pub fn store(&mut self, keyword: &str, value: String) -> bool {
        let (keyword, value) = match keyword {
            "requiressl" if value.starts_with('1') => (Some("sslmode"), "require".into()),
            "requiressl" => (Some("sslmode"), "prefer".into()),
            _ => (known(keyword), value),
        };
        keyword.map(|keyword| self.set(keyword, value, Origin::Connstr)).is_some()
    }

    /// What no other source gave.
    pub fn fill_from_variables(&mut self, around: &Surroundings) -> Result<(), Failure> {
        for (keyword, variable) in KEYWORDS {
            if variable.is_empty() || self.get(keyword).is_some() {
                continue;
            }
            if let Some(value) = around.text(variable)? {
                self.set(keyword, value, Origin::Variable(variable));
            }
        }
        if (around.variable)("PGREQUIRESSL").is_some_and(|value| value.as_bytes().first() == Some(&b'1')) {
            self.fill("sslmode", "require", Origin::Variable("PGREQUIRESSL"));
        }
        Ok(())
    }

    pub fn get(&self, keyword: &str) -> Option<&str> {
        self.values.get(keyword).map(|(value, _)| value.as_str())
    }

    /// For the parameters of which an empty value means none.
    pub fn nonempty(&self, keyword: &str) -> Option<&str> {
        self.get(keyword).filter(|value| !value.is_empty())
    }

    /// A parameter as the user named it, for a line on standard error.
    pub fn name(&self, keyword: &str) -> String {
        match self.values.get(keyword).map(|(_, origin)| origin) {
            Some(Origin::Option(option)) => option.to_string(),
            Some(Origin::Variable(variable)) => variable.to_string(),
            Some(Origin::Service(file, line)) => format!("{keyword} ({} line {line})", file.display()),
            Some(Origin::Connstr) | None => keyword.into(),
        }
    }

    /// A whole number, with spaces around it as libpq allows.
    pub fn integer(&self, keyword: &str) -> Result<Option<i32>, Failure> {
        let Some(value) = self.get(keyword) else { return Ok(None) };
        let number = value.trim_matches(super::string::is_space).parse();
        number.map(Some).map_err(|_| wrong(format!("{} is {value:?}, which is no whole number", self.name(keyword))))
    }

    /// One of some words.
    pub fn choice<T: Copy>(&self, keyword: &str, words: &[(&str, T)]) -> Result<Option<T>, Failure> {
        let Some(value) = self.get(keyword) else { return Ok(None) };
        let found = words.iter().find(|(word, _)| *word == value).map(|(_, meant)| Some(*meant));
        found.ok_or_else(|| {
            let words: Vec<_> = words.iter().map(|(word, _)| *word).collect();
            wrong(format!("{} is {value:?}; it is one of {}", self.name(keyword), words.join(", ")))
        })
    }
}
