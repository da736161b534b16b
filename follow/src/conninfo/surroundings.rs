//! What a process finds around it: variables, the user's entry, folders. A test has its own.
use super::wrong;
use crate::failure::Failure;
use crate::ffi::{self, Account};
use std::ffi::OsString;
use std::path::{Path, PathBuf};

/// The value of a variable by its name.
type Variable = dyn Fn(&str) -> Option<OsString>;

pub struct Surroundings {
    pub variable: Box<Variable>,
    /// The entry of the user that the process runs as; asked for only where it is needed, since it may come over a network.
    pub account: Box<dyn Fn() -> Option<Account>>,
    /// The folder of Unix sockets.
    pub socket_dir: PathBuf,
    /// The system's folder of pg_service.conf.
    pub sysconf_dir: PathBuf,
}

impl Surroundings {
    pub fn of_process() -> Surroundings {
        let debian = Path::new("/var/run/postgresql");
        Surroundings {
            variable: Box::new(|name| std::env::var_os(name)),
            account: Box::new(ffi::account),
            socket_dir: if debian.is_dir() { debian.into() } else { "/tmp".into() },
            sysconf_dir: "/etc/postgresql-common".into(),
        }
    }

    /// A variable as text.
    pub fn text(&self, variable: &str) -> Result<Option<String>, Failure> {
        let value = (self.variable)(variable).map(OsString::into_string).transpose();
        value.map_err(|_| wrong(format!("the value of {variable} is no UTF-8 text")))
    }

    /// None is no error: the files there are then not found.
    pub fn home(&self) -> Option<PathBuf> {
        let named = (self.variable)("HOME").filter(|home| !home.is_empty());
        named.map(PathBuf::from).or_else(|| (self.account)().map(|account| account.home))
    }

    /// The system's name of the user.
    pub fn user(&self) -> Result<String, Failure> {
        let Some(account) = (self.account)() else {
            return Err(wrong("the system has no name for the user that runs follow: name the PostgreSQL user with -U"));
        };
        account.name.into_string().map_err(|_| wrong("the system's name of the user is no UTF-8 text: name the PostgreSQL user with -U"))
    }
}
