//! The parameters of a connection, as libpq takes them: from options, a connection string or URI, a service file, variables and defaults.
mod params;
mod passfile;
mod servers;
mod service;
mod string;
mod surroundings;
mod uri;
mod values;

use crate::failure::{tell, Failure, USAGE};
use params::{Origin, Params};
use std::fmt;
use std::path::PathBuf;
use std::time::Duration;
use surroundings::Surroundings;

/// What the command line says of the connection; the rest comes from the surroundings.
#[derive(Clone, Debug, Default, PartialEq)]
pub struct Given {
    /// A database's name, a connection string or a URI.
    pub dbname: Option<String>,
    pub host: Option<String>,
    pub port: Option<String>,
    pub username: Option<String>,
    /// The least and the most iterations of SCRAM that are taken.
    pub scram_iterations: Option<(u32, u32)>,
    /// After how long a silent server is given up; none where it never is.
    pub server_timeout: Option<Duration>,
}

/// All that is needed to connect.
#[derive(Clone, Debug, PartialEq)]
pub struct Conninfo {
    /// The servers, in the order in which they are tried; at least one.
    pub targets: Vec<Target>,
    pub user: String,
    pub dbname: String,
    pub application_name: String,
    /// The parameter `options` of the startup message.
    pub options: Option<String>,
    /// For each target; none where there is no limit.
    pub connect_timeout: Option<Duration>,
    /// After how long a silent server is given up; none where it never is.
    pub server_timeout: Option<Duration>,
    pub keepalives: Keepalives,
    pub tls: Tls,
    pub channel_binding: ChannelBinding,
    pub require_auth: RequireAuth,
    /// The least and the most iterations of SCRAM that are taken.
    pub scram_iterations: (u32, u32),
    pub session_attrs: SessionAttrs,
}

/// PostgreSQL's own number, of which a server that asks for less is not set up well, or not the one that it seems to be; and more than any server is
/// set up with, which would only keep the client busy.
pub const SCRAM_ITERATIONS: (u32, u32) = (4_096, 10_000_000);

/// A way to log in, as `require_auth` names it.
#[derive(Clone, Copy, Debug, PartialEq)]
pub enum Method {
    Password,
    Md5,
    Gss,
    Sspi,
    Scram,
    /// The server asks for nothing.
    None,
}

/// Which ways to log in are taken (`require_auth`).
#[derive(Clone, Debug, Default, PartialEq)]
pub enum RequireAuth {
    #[default]
    Any,
    Only(Vec<Method>),
    Not(Vec<Method>),
}

impl RequireAuth {
    pub fn takes(&self, method: Method) -> bool {
        match self {
            RequireAuth::Any => true,
            RequireAuth::Only(methods) => methods.contains(&method),
            RequireAuth::Not(methods) => !methods.contains(&method),
        }
    }

    /// Whether the method is asked for by its name.
    pub fn names(&self, method: Method) -> bool {
        matches!(self, RequireAuth::Only(methods) if methods.contains(&method))
    }
}

/// One server.
#[derive(Clone, Debug, PartialEq)]
pub struct Target {
    pub place: Place,
    pub port: u16,
    /// From the connection's parameters, PGPASSWORD or the password file.
    pub password: Option<Vec<u8>>,
    /// The password file that the password came from, for the line that says that it is wrong.
    pub passfile: Option<PathBuf>,
}

/// Where a server listens.
#[derive(Clone, Debug, PartialEq)]
pub enum Place {
    /// The folder of a Unix socket; a name that begins with `@` is one of the abstract namespace.
    Unix(PathBuf),
    /// A name or address, and the address that is to be used instead of looking the name up (`hostaddr`). Where only that was given the name is
    /// empty: there is none to compare with a certificate.
    Tcp { host: String, hostaddr: Option<String> },
}

/// TCP keepalives; what is none is left to the system.
#[derive(Clone, Debug, PartialEq)]
pub struct Keepalives {
    pub on: bool,
    pub idle: Option<u32>,
    pub interval: Option<u32>,
    pub count: Option<u32>,
    /// Milliseconds.
    pub user_timeout: Option<u32>,
}

#[derive(Clone, Copy, Debug, PartialEq, PartialOrd)]
pub enum SslMode {
    Disable,
    Allow,
    Prefer,
    Require,
    VerifyCa,
    VerifyFull,
}

#[derive(Clone, Copy, Debug, PartialEq)]
pub enum ChannelBinding {
    Disable,
    Prefer,
    Require,
}

/// Which servers are taken (`target_session_attrs`).
#[derive(Clone, Copy, Debug, PartialEq)]
pub enum SessionAttrs {
    Any,
    ReadWrite,
    ReadOnly,
    Primary,
    Standby,
    /// A standby of all the servers, else any.
    PreferStandby,
}

impl SessionAttrs {
    /// What is asked of a server that let us in, the answer of one that is taken, and what is said of another.
    pub fn question(self) -> Option<(&'static str, &'static [u8], &'static str)> {
        let (read_only, standby) = ("SHOW transaction_read_only", "SELECT pg_catalog.pg_is_in_recovery()");
        match self {
            SessionAttrs::Any => None,
            SessionAttrs::ReadWrite => Some((read_only, b"off", "the session is read-only, which target_session_attrs does not take")),
            SessionAttrs::ReadOnly => Some((read_only, b"on", "the session is not read-only, which target_session_attrs does not take")),
            SessionAttrs::Primary => Some((standby, b"f", "the server is in hot standby mode, which target_session_attrs does not take")),
            SessionAttrs::Standby | SessionAttrs::PreferStandby => {
                Some((standby, b"t", "the server is not in hot standby mode, which target_session_attrs does not take"))
            }
        }
    }
}

/// Files are those that were named, else libpq's own under ~/.postgresql where there is a home folder.
#[derive(Clone, Debug, PartialEq)]
pub struct Tls {
    pub mode: SslMode,
    pub root_cert: CertFile,
    pub cert: CertFile,
    pub key: CertFile,
    /// Whether the name of the host is told in the handshake.
    pub sni: bool,
    /// The lowest version; none is TLSv1.3, which is refused where TLS may be used.
    pub min_version: Option<TlsVersion>,
    /// The highest version; none where there is no limit.
    pub max_version: Option<TlsVersion>,
}

/// The versions that `native-tls` can name.
#[derive(Clone, Copy, Debug, PartialEq)]
pub enum TlsVersion {
    V1_0,
    V1_1,
    V1_2,
}

/// A file of a certificate or key.
#[derive(Clone, Debug, PartialEq)]
pub struct CertFile {
    /// None where there is no home folder to look in.
    pub path: Option<PathBuf>,
    /// Whether the user named it.
    pub named: bool,
}

impl fmt::Display for Target {
    fn fmt(&self, f: &mut fmt::Formatter<'_>) -> fmt::Result {
        match &self.place {
            Place::Unix(folder) => write!(f, "socket {}/.s.PGSQL.{}", folder.display(), self.port),
            Place::Tcp { host, hostaddr: Some(address) } if host.is_empty() => write!(f, "{address} port {}", self.port),
            Place::Tcp { host, .. } => write!(f, "{host} port {}", self.port),
        }
    }
}

impl Conninfo {
    /// From the command line and the process's surroundings.
    pub fn resolve(given: &Given) -> Result<Conninfo, Failure> {
        let (conninfo, warnings) = resolve_in(given, &Surroundings::of_process())?;
        for line in warnings {
            tell(format_args!("{line}"));
        }
        Ok(conninfo)
    }

    /// The same for a later connection: what stands in files now counts, as a new password. Where something is wrong there, all stays as it was, and
    /// a password that is no longer there is the former one.
    pub fn refresh(&mut self, given: &Given) {
        let Ok((mut conninfo, _)) = resolve_in(given, &Surroundings::of_process()) else { return };
        if (&conninfo.user, &conninfo.dbname) == (&self.user, &self.dbname) {
            for new in conninfo.targets.iter_mut().filter(|new| new.password.is_none()) {
                if let Some(old) = self.targets.iter().find(|old| old.place == new.place && old.port == new.port) {
                    (new.password, new.passfile) = (old.password.clone(), old.passfile.clone());
                }
            }
        }
        *self = conninfo;
    }
}

// Every error here is one of what the user gave.
fn wrong(line: impl Into<String>) -> Failure {
    Failure::new(USAGE, line)
}

// The lines with it are for standard error.
fn resolve_in(given: &Given, around: &Surroundings) -> Result<(Conninfo, Vec<String>), Failure> {
    let params = collect(given, around)?;
    let text = |keyword| params.nonempty(keyword).map(String::from);
    let user = text("user").map_or_else(|| around.user(), Ok)?;
    let dbname = text("dbname").unwrap_or_else(|| user.clone());
    let (targets, warnings) = servers::targets(&params, (&dbname, &user), around)?;
    values::check(&params, &targets)?;
    let name = params.get("application_name").or(params.get("fallback_application_name")).unwrap_or("follow");
    let conninfo = Conninfo {
        application_name: name.into(),
        options: text("options"),
        connect_timeout: values::connect_timeout(&params)?,
        keepalives: values::keepalives(&params)?,
        tls: values::tls(&params, &targets, around)?,
        channel_binding: values::channel_binding(&params)?,
        require_auth: values::require_auth(&params)?,
        server_timeout: given.server_timeout,
        scram_iterations: given.scram_iterations.unwrap_or(SCRAM_ITERATIONS),
        session_attrs: values::session_attrs(&params)?,
        targets,
        user,
        dbname,
    };
    Ok((conninfo, warnings))
}

// A connection string comes before the options, the service file before the variables. An option that is empty was not given.
fn collect(given: &Given, around: &Surroundings) -> Result<Params, Failure> {
    let mut params = Params::default();
    for (keyword, option, value) in [("host", "-h", &given.host), ("port", "-p", &given.port), ("user", "-U", &given.username)] {
        if let Some(value) = value.as_ref().filter(|value| !value.is_empty()) {
            params.set(keyword, value, Origin::Option(option));
        }
    }
    let dbname = given.dbname.as_deref().unwrap_or("");
    if let Some(parts) = uri::strip_scheme(dbname) {
        uri::parse(parts, &mut params)?;
    } else if dbname.contains('=') {
        string::parse(dbname, &mut params)?;
    } else if !dbname.is_empty() {
        params.set("dbname", dbname, Origin::Option("-d"));
    }
    service::fill(&mut params, around)?;
    params.fill_from_variables(around)?;
    Ok(params)
}

#[cfg(test)]
pub(crate) mod tests {
    use super::*;
    use crate::ffi::Account;
    use std::collections::BTreeMap;
    use std::ffi::OsString;
    use std::fs;
    use std::os::unix::ffi::OsStringExt;
    use std::os::unix::fs::PermissionsExt;

    /// The surroundings of a test: a home folder of its own, where the system's service file is, too.
    pub struct Around {
        folder: PathBuf,
        variables: BTreeMap<String, OsString>,
        account: Option<Account>,
    }

    impl Around {
        pub fn new(name: &str) -> Around {
            static NUMBER: std::sync::atomic::AtomicU32 = std::sync::atomic::AtomicU32::new(0);
            let number = NUMBER.fetch_add(1, std::sync::atomic::Ordering::SeqCst);
            let folder = std::env::temp_dir().join(format!("follow.{}.{number}.{name}", std::process::id()));
            fs::create_dir(&folder).unwrap();
            let account = Some(Account { name: "someone".into(), home: folder.clone() });
            Around { folder, variables: BTreeMap::new(), account }
        }

        pub fn folder(&self) -> &PathBuf {
            &self.folder
        }

        pub fn set(&mut self, variable: &str, value: &str) {
            self.variables.insert(variable.into(), value.into());
        }

        pub fn write(&self, name: &str, text: &str, mode: u32) -> String {
            let path = self.folder.join(name);
            fs::create_dir_all(path.parent().unwrap()).unwrap();
            fs::write(&path, text).unwrap();
            fs::set_permissions(&path, fs::Permissions::from_mode(mode)).unwrap();
            path.to_str().unwrap().into()
        }

        pub fn resolve_with_warnings(&self, dbname: &str) -> Result<(Conninfo, Vec<String>), Failure> {
            self.resolve_given(&Given { dbname: Some(dbname.into()), ..Given::default() })
        }

        pub fn resolve(&self, dbname: &str) -> Result<Conninfo, Failure> {
            self.resolve_with_warnings(dbname).map(|(conninfo, _)| conninfo)
        }

        fn resolve_given(&self, given: &Given) -> Result<(Conninfo, Vec<String>), Failure> {
            let (variables, account) = (self.variables.clone(), self.account.clone());
            let around = Surroundings {
                variable: Box::new(move |name| variables.get(name).cloned()),
                account: Box::new(move || account.clone()),
                socket_dir: "/sockets".into(),
                sysconf_dir: self.folder.clone(),
            };
            resolve_in(given, &around)
        }
    }

    impl Drop for Around {
        fn drop(&mut self) {
            let _ = fs::remove_dir_all(&self.folder);
        }
    }

    #[test]
    fn nothing_given() {
        let around = Around::new("nothing");
        let file = |name: &str| CertFile { path: Some(around.folder.join(".postgresql").join(name)), named: false };
        let (root_cert, cert, key) = (file("root.crt"), file("postgresql.crt"), file("postgresql.key"));
        let expected = Conninfo {
            targets: vec![Target { place: Place::Unix("/sockets".into()), port: 5432, password: None, passfile: None }],
            user: "someone".into(),
            dbname: "someone".into(),
            application_name: "follow".into(),
            options: None,
            connect_timeout: None,
            server_timeout: None,
            keepalives: Keepalives { on: true, idle: None, interval: None, count: None, user_timeout: None },
            tls: Tls { mode: SslMode::Prefer, root_cert, cert, key, sni: true, min_version: Some(TlsVersion::V1_2), max_version: None },
            channel_binding: ChannelBinding::Prefer,
            require_auth: RequireAuth::Any,
            scram_iterations: SCRAM_ITERATIONS,
            session_attrs: SessionAttrs::Any,
        };
        assert_eq!(around.resolve_given(&Given::default()).unwrap(), (expected.clone(), vec![]));
        let empty = || Some(String::new());
        let given = Given { dbname: empty(), host: empty(), port: empty(), username: empty(), scram_iterations: None, server_timeout: None };
        assert_eq!(around.resolve_given(&given).unwrap().0, expected);
    }

    // What the user is called, the database, the first server and the name of the application.
    fn named(around: &Around, given: [&str; 4]) -> String {
        let [dbname, host, port, username] = given.map(|text| Some(text.to_string()));
        let conninfo = around.resolve_given(&Given { dbname, host, port, username, scram_iterations: None, server_timeout: None }).unwrap().0;
        format!("{} {} {} {}", conninfo.user, conninfo.dbname, conninfo.targets[0], conninfo.application_name)
    }

    #[test]
    fn precedence() {
        let mut around = Around::new("precedence");
        assert_eq!(named(&around, ["d", "h", "1", "u"]), "u d h port 1 follow");
        assert_eq!(named(&around, ["user=v", "h", "1", "u"]), "v v h port 1 follow");
        assert_eq!(named(&around, ["postgres://v@/e?port=2", "h", "1", "u"]), "v e h port 2 follow");
        assert_eq!(named(&around, ["host='' dbname=a", "h", "1", "u"]), "u a socket /sockets/.s.PGSQL.1 follow");
        assert_eq!(named(&around, ["hostaddr=::1", "", "", ""]), "someone someone ::1 port 5432 follow");
        for (variable, value) in [("PGHOST", "vh"), ("PGPORT", "9"), ("PGUSER", "vu"), ("PGDATABASE", "vd"), ("PGAPPNAME", "va")] {
            around.set(variable, value);
        }
        assert_eq!(named(&around, [""; 4]), "vu vd vh port 9 va");
        assert_eq!(named(&around, ["d", "h", "1", "u"]), "u d h port 1 va");
        assert_eq!(named(&around, ["application_name=a fallback_application_name=b", "", "", ""]), "vu vd vh port 9 a");
        around.write(".pg_service.conf", "[s]\nhost=sh\nuser=su\n", 0o600);
        assert_eq!(named(&around, ["service=s", "", "1", ""]), "su vd sh port 1 va");
        assert_eq!(named(&around, ["service=s user=u", "h", "", ""]), "u vd h port 9 va");
        for variable in ["PGHOST", "PGPORT", "PGUSER", "PGDATABASE", "PGAPPNAME"] {
            around.set(variable, "");
        }
        assert_eq!(named(&around, [""; 4]), "someone someone socket /sockets/.s.PGSQL.5432 ");
        around.variables.remove("PGAPPNAME");
        assert_eq!(named(&around, ["fallback_application_name=b", "", "", ""]), "someone someone socket /sockets/.s.PGSQL.5432 b");
    }

    #[test]
    fn variables() {
        let mut around = Around::new("variables");
        for (variable, value) in [
            ("PGHOSTADDR", "::1"),
            ("PGOPTIONS", "-c geqo=off"),
            ("PGCONNECT_TIMEOUT", "3"),
            ("PGCHANNELBINDING", "require"),
            ("PGREQUIRESSL", "1"),
            ("PGSSLSNI", "0"),
            ("PGSSLMINPROTOCOLVERSION", "TLSv1.1"),
            ("PGSSLMAXPROTOCOLVERSION", "TLSv1.2"),
            ("PGGSSENCMODE", "disable"),
            ("PGTARGETSESSIONATTRS", "primary"),
            ("PGCLIENTENCODING", "SQL_ASCII"),
        ] {
            around.set(variable, value);
        }
        let conninfo = around.resolve("").unwrap();
        assert_eq!(conninfo.targets[0].place, Place::Tcp { host: "".into(), hostaddr: Some("::1".into()) });
        assert_eq!((conninfo.options.as_deref(), conninfo.connect_timeout), (Some("-c geqo=off"), Some(Duration::from_secs(3))));
        assert_eq!((conninfo.channel_binding, conninfo.tls.mode, conninfo.tls.sni), (ChannelBinding::Require, SslMode::Require, false));
        assert_eq!((conninfo.tls.min_version, conninfo.tls.max_version), (Some(TlsVersion::V1_1), Some(TlsVersion::V1_2)));
        assert_eq!(conninfo.session_attrs, SessionAttrs::Primary);
        around.set("PGSSLMODE", "allow");
        assert_eq!(around.resolve("").unwrap().tls.mode, SslMode::Allow);
        assert_eq!(around.resolve("sslmode=disable").unwrap().tls.mode, SslMode::Disable);
        for (variable, value, line) in [
            ("PGSSLMODE", "on", "PGSSLMODE is \"on\"; it is one of disable, allow, prefer, require, verify-ca, verify-full"),
            ("PGSSLCRL", "x", "PGSSLCRL: follow does not check revocation lists; leave it out, or make it empty"),
            ("PGPORT", "x", "PGPORT is \"x\"; a port is a number from 1 to 65535"),
        ] {
            let before = around.variables.clone();
            around.set(variable, value);
            assert_eq!(around.resolve("").unwrap_err().line, line);
            around.variables = before;
        }
    }

    #[test]
    fn a_value_that_is_no_text() {
        let mut around = Around::new("bytes");
        around.variables.insert("PGUSER".into(), OsString::from_vec(vec![0xff]));
        assert_eq!(around.resolve("").unwrap_err().line, "the value of PGUSER is no UTF-8 text");
        assert_eq!(around.resolve("user=u").unwrap().user, "u");
        around.variables.insert("PGCLIENTENCODING".into(), OsString::from_vec(vec![0xff]));
        assert_eq!(around.resolve("user=u").unwrap().user, "u");
    }

    #[test]
    fn users_and_home_folders() {
        let mut around = Around::new("home");
        let folder = around.folder.clone();
        around.set("HOME", "/elsewhere");
        let cert = |around: &Around| around.resolve("user=u").unwrap().tls.cert.path;
        assert_eq!(cert(&around), Some("/elsewhere/.postgresql/postgresql.crt".into()));
        around.set("HOME", "");
        assert_eq!(cert(&around), Some(folder.join(".postgresql/postgresql.crt")));
        around.set("USER", "not looked at");
        assert_eq!(around.resolve("").unwrap().user, "someone");
        around.account = Some(Account { name: OsString::from_vec(vec![0xff]), home: folder });
        let line = "the system's name of the user is no UTF-8 text: name the PostgreSQL user with -U";
        assert_eq!(around.resolve("").unwrap_err().line, line);
        around.account = None;
        assert_eq!(cert(&around), None);
        let line = "the system has no name for the user that runs follow: name the PostgreSQL user with -U";
        assert_eq!(around.resolve("").unwrap_err().line, line);
    }
}
