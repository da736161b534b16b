//! What the values of the parameters mean. What follow does not do is refused where libpq would do it.
use super::params::Params;
use super::{wrong, CertFile, ChannelBinding, Keepalives, Method, Place, RequireAuth, SessionAttrs, SslMode, Surroundings, Target, Tls, TlsVersion};
use crate::failure::Failure;
use std::time::Duration;

const SSL_MODES: [(&str, SslMode); 6] = [
    ("disable", SslMode::Disable),
    ("allow", SslMode::Allow),
    ("prefer", SslMode::Prefer),
    ("require", SslMode::Require),
    ("verify-ca", SslMode::VerifyCa),
    ("verify-full", SslMode::VerifyFull),
];
const CHANNEL_BINDINGS: [(&str, ChannelBinding); 3] =
    [("disable", ChannelBinding::Disable), ("prefer", ChannelBinding::Prefer), ("require", ChannelBinding::Require)];
const SESSION_ATTRS: [(&str, SessionAttrs); 6] = [
    ("any", SessionAttrs::Any),
    ("read-write", SessionAttrs::ReadWrite),
    ("read-only", SessionAttrs::ReadOnly),
    ("primary", SessionAttrs::Primary),
    ("standby", SessionAttrs::Standby),
    ("prefer-standby", SessionAttrs::PreferStandby),
];
const METHODS: [(&str, Method); 6] = [
    ("password", Method::Password),
    ("md5", Method::Md5),
    ("gss", Method::Gss),
    ("sspi", Method::Sspi),
    ("scram-sha-256", Method::Scram),
    ("none", Method::None),
];
const TLS_VERSIONS: [&str; 4] = ["TLSv1", "TLSv1.1", "TLSv1.2", "TLSv1.3"];

pub fn connect_timeout(params: &Params) -> Result<Option<Duration>, Failure> {
    let seconds = params.integer("connect_timeout")?.and_then(|seconds| u64::try_from(seconds).ok()).filter(|seconds| *seconds > 0);
    Ok(seconds.map(|seconds| Duration::from_secs(seconds.max(2))))
}

pub fn keepalives(params: &Params) -> Result<Keepalives, Failure> {
    let on = params.integer("keepalives")?.is_none_or(|value| value != 0);
    let number = |keyword| params.integer(keyword).map(|value| value.and_then(|value| u32::try_from(value).ok()).filter(|value| *value > 0));
    Ok(Keepalives {
        on,
        idle: number("keepalives_idle")?,
        interval: number("keepalives_interval")?,
        count: number("keepalives_count")?,
        user_timeout: number("tcp_user_timeout")?,
    })
}

pub fn channel_binding(params: &Params) -> Result<ChannelBinding, Failure> {
    Ok(params.choice("channel_binding", &CHANNEL_BINDINGS)?.unwrap_or(ChannelBinding::Prefer))
}

// Names with commas between, all of them with an exclamation mark before or none.
pub fn require_auth(params: &Params) -> Result<RequireAuth, Failure> {
    let Some(value) = params.nonempty("require_auth") else { return Ok(RequireAuth::default()) };
    let wrong_list = |what: &str| wrong(format!("{} is {value:?}: {what}", params.name("require_auth")));
    let negated = value.trim_start().starts_with('!');
    let mut named = Vec::new();
    for word in value.split(',') {
        let name = word.trim().strip_prefix('!');
        if name.is_some() != negated {
            return Err(wrong_list("methods with and without ! do not go together"));
        }
        let method = METHODS.iter().find(|(known, _)| *known == name.unwrap_or(word.trim())).map(|(_, method)| *method);
        let method = method.ok_or_else(|| wrong_list("it is a list of password, md5, gss, sspi, scram-sha-256 and none"))?;
        if named.contains(&method) {
            return Err(wrong_list("a method is named twice"));
        }
        named.push(method);
    }
    Ok(if negated { RequireAuth::Not(named) } else { RequireAuth::Only(named) })
}

pub fn session_attrs(params: &Params) -> Result<SessionAttrs, Failure> {
    Ok(params.choice("target_session_attrs", &SESSION_ATTRS)?.unwrap_or(SessionAttrs::Any))
}

pub fn tls(params: &Params, targets: &[Target], around: &Surroundings) -> Result<Tls, Failure> {
    let mode = params.choice("sslmode", &SSL_MODES)?.unwrap_or(SslMode::Prefer);
    let sni = params.choice("sslsni", &[("1", true), ("0", false)])?.unwrap_or(true);
    let home = around.home().map(|home| home.join(".postgresql"));
    let file = |keyword, usual: &str| match params.nonempty(keyword) {
        Some(path) => CertFile { path: Some(path.into()), named: true },
        None => CertFile { path: home.as_ref().map(|home| home.join(usual)), named: false },
    };
    let root_cert = file("sslrootcert", "root.crt");
    let (min_version, max_version) = versions(params)?;
    let tls = Tls { mode, root_cert, cert: file("sslcert", "postgresql.crt"), key: file("sslkey", "postgresql.key"), sni, min_version, max_version };
    if mode != SslMode::Disable && targets.iter().any(over_tcp) {
        check_tls(params, &tls)?;
        let list = home.map(|home| home.join("root.crl")).filter(|list| list.exists());
        let verifies = mode >= SslMode::Require && tls.root_cert.path.as_ref().is_some_and(|root| root.exists());
        if let Some(list) = list.filter(|_| verifies) {
            let line =
                format!("the revocation list {} is there, and follow cannot check it: rename it, and keep revoked servers away", list.display());
            return Err(wrong(line));
        }
    }
    Ok(tls)
}

// TLSv1.2 at least, as in libpq; TLSv1.3 as the highest is no limit.
fn versions(params: &Params) -> Result<(Option<TlsVersion>, Option<TlsVersion>), Failure> {
    let place = |keyword| match params.nonempty(keyword) {
        None => Ok(None),
        Some(text) => TLS_VERSIONS
            .iter()
            .position(|version| version.eq_ignore_ascii_case(text))
            .map(Some)
            .ok_or_else(|| wrong(format!("{} is {text:?}; it is one of {}", params.name(keyword), TLS_VERSIONS.join(", ")))),
    };
    let (low, high) = ("ssl_min_protocol_version", "ssl_max_protocol_version");
    let (min, max) = (place(low)?.unwrap_or(2), place(high)?);
    if max.is_some_and(|max| max < min) {
        let line = format!("{} is less than {}, which is {}", params.name(high), params.name(low), TLS_VERSIONS[min]);
        return Err(wrong(line));
    }
    let version = |place| [TlsVersion::V1_0, TlsVersion::V1_1, TlsVersion::V1_2].get(place).copied();
    Ok((version(min), max.and_then(version)))
}

fn check_tls(params: &Params, tls: &Tls) -> Result<(), Failure> {
    if tls.min_version.is_none() {
        let name = params.name("ssl_min_protocol_version");
        return Err(wrong(format!("{name}: follow cannot ask for TLSv1.3 alone; TLSv1.2 as the lowest takes it where the server has it")));
    }
    for keyword in ["sslcrl", "sslcrldir"] {
        if params.nonempty(keyword).is_some() {
            return Err(wrong(format!("{}: follow does not check revocation lists; leave it out, or make it empty", params.name(keyword))));
        }
    }
    if params.nonempty("sslpassword").is_some() {
        return Err(wrong("sslpassword: follow reads no encrypted key; decrypt it (openssl pkey) into a file that only you can read"));
    }
    Ok(())
}

/// The parameters that are looked at and change nothing.
pub fn check(params: &Params, targets: &[Target]) -> Result<(), Failure> {
    let unix = targets.iter().any(|target| !over_tcp(target));
    let encryption = params.choice("gssencmode", &[("disable", false), ("prefer", false), ("require", true)])?;
    if encryption == Some(true) && targets.iter().any(over_tcp) {
        return Err(wrong(format!("{}: follow has no GSSAPI encryption; take prefer or disable, and sslmode for TLS", params.name("gssencmode"))));
    }
    if unix && params.nonempty("requirepeer").is_some() {
        return Err(wrong(format!("{}: follow does not check who runs the server; leave it out, or make it empty", params.name("requirepeer"))));
    }
    let encoding = params.nonempty("client_encoding").unwrap_or("auto");
    let letters: String = encoding.chars().filter(char::is_ascii_alphanumeric).collect::<String>().to_ascii_lowercase();
    if !["utf8", "unicode", "auto"].contains(&letters.as_str()) {
        return Err(wrong(format!("{} is {encoding:?}; follow prints UTF-8 alone: leave it out", params.name("client_encoding"))));
    }
    Ok(())
}

fn over_tcp(target: &Target) -> bool {
    matches!(target.place, Place::Tcp { .. })
}

#[cfg(test)]
mod tests {
    use super::super::tests::Around;
    use super::super::Conninfo;
    use super::*;
    use std::path::PathBuf;

    fn resolved(dbname: &str) -> Conninfo {
        Around::new("values").resolve(dbname).unwrap_or_else(|failure| panic!("{dbname}: {}", failure.line))
    }

    #[test]
    fn timeouts() {
        for (text, seconds) in [("0", None), ("-1", None), ("1", Some(2)), ("2", Some(2)), ("10", Some(10)), ("' 7 '", Some(7))] {
            assert_eq!(resolved(&format!("connect_timeout={text}")).connect_timeout, seconds.map(Duration::from_secs), "{text}");
        }
        assert_eq!(resolved("").connect_timeout, None);
    }

    #[test]
    fn tcp_keepalives() {
        let none = Keepalives { on: true, idle: None, interval: None, count: None, user_timeout: None };
        assert_eq!(resolved("").keepalives, none);
        assert_eq!(resolved("keepalives=0").keepalives, Keepalives { on: false, ..none.clone() });
        assert_eq!(resolved("keepalives=1 keepalives_idle=0 keepalives_count=-5").keepalives, none);
        let all = "keepalives_idle=1 keepalives_interval=2 keepalives_count=3 tcp_user_timeout=4";
        assert_eq!(resolved(all).keepalives, Keepalives { on: true, idle: Some(1), interval: Some(2), count: Some(3), user_timeout: Some(4) });
    }

    #[test]
    fn modes() {
        for (word, mode) in SSL_MODES {
            assert_eq!(resolved(&format!("host=h sslmode={word}")).tls.mode, mode);
        }
        for (word, binding) in CHANNEL_BINDINGS {
            assert_eq!(resolved(&format!("channel_binding={word}")).channel_binding, binding);
        }
        for (word, attrs) in SESSION_ATTRS {
            assert_eq!(resolved(&format!("target_session_attrs={word}")).session_attrs, attrs);
        }
        assert_eq!((resolved("").tls.mode, resolved("").channel_binding), (SslMode::Prefer, ChannelBinding::Prefer));
        let auth = |text: &str| resolved(&format!("require_auth='{text}'")).require_auth;
        assert_eq!((auth(""), resolved("").require_auth), (RequireAuth::Any, RequireAuth::Any));
        assert_eq!(auth("scram-sha-256, none"), RequireAuth::Only(vec![Method::Scram, Method::None]));
        assert_eq!(auth("!password,!md5"), RequireAuth::Not(vec![Method::Password, Method::Md5]));
        assert!(resolved("").tls.sni && resolved("sslsni=1").tls.sni && !resolved("sslsni=0").tls.sni);
    }

    #[test]
    fn tls_versions() {
        use TlsVersion::{V1_0, V1_1, V1_2};
        for (text, min, max) in [
            ("", Some(V1_2), None),
            ("ssl_min_protocol_version='' ssl_max_protocol_version=''", Some(V1_2), None),
            ("ssl_min_protocol_version=TLSv1", Some(V1_0), None),
            ("ssl_min_protocol_version=tlsv1.1 ssl_max_protocol_version=TLSv1.1", Some(V1_1), Some(V1_1)),
            ("ssl_max_protocol_version=TLSv1.2", Some(V1_2), Some(V1_2)),
            ("ssl_max_protocol_version=TLSv1.3", Some(V1_2), None),
            ("ssl_min_protocol_version=TLSv1.3", None, None),
        ] {
            let tls = resolved(text).tls;
            assert_eq!((tls.min_version, tls.max_version), (min, max), "{text}");
        }
    }

    #[test]
    fn files() {
        let mut around = Around::new("certs");
        let home = around.folder().join(".postgresql");
        let file = |path: PathBuf, named| CertFile { path: Some(path), named };
        let tls = around.resolve("sslcert=c sslkey=''").unwrap().tls;
        assert_eq!(tls.cert, file("c".into(), true));
        assert_eq!(tls.key, file(home.join("postgresql.key"), false));
        assert_eq!(tls.root_cert, file(home.join("root.crt"), false));
        around.set("PGSSLROOTCERT", "/r");
        around.set("PGSSLKEY", "/k");
        let tls = around.resolve("").unwrap().tls;
        assert_eq!((tls.root_cert, tls.key), (file("/r".into(), true), file("/k".into(), true)));
        assert_eq!(tls.cert, file(home.join("postgresql.crt"), false));
    }

    #[test]
    fn a_revocation_list_is_not_passed_over() {
        let around = Around::new("list");
        let list = around.write(".postgresql/root.crl", "", 0o600);
        let line = |dbname: &str| around.resolve(dbname).err().map(|failure| failure.line);
        let wanted = format!("the revocation list {list} is there, and follow cannot check it: rename it, and keep revoked servers away");
        assert_eq!(line("host=h sslmode=verify-full"), None);
        around.write(".postgresql/root.crt", "", 0o600);
        for dbname in ["host=h sslmode=require", "host=h sslmode=verify-ca", "host=/s,h sslmode=verify-full"] {
            assert_eq!(line(dbname).as_ref(), Some(&wanted), "{dbname}");
        }
        for dbname in ["host=h", "host=h sslmode=disable", "host=/s sslmode=verify-full"] {
            assert_eq!(line(dbname), None, "{dbname}");
        }
    }

    #[test]
    fn accepted() {
        for text in [
            "gssencmode=prefer",
            "host=h gssencmode=disable",
            "host=/s gssencmode=require",
            "host=h requirepeer=postgres",
            "host=/s sslcrl=x sslcrldir=y sslpassword=z",
            "host=h sslmode=disable sslcrl=x ssl_min_protocol_version=TLSv1.3",
            "host=h sslcrl='' sslcrldir='' sslpassword=''",
            "client_encoding=UTF8",
            "client_encoding=utf-8",
            "client_encoding=Unicode",
            "client_encoding=auto",
            "client_encoding=''",
            "sslcompression=1 krbsrvname=k gsslib=gssapi replication=true",
        ] {
            assert_eq!(resolved(text).user, "someone", "{text}");
        }
    }

    #[test]
    fn errors() {
        for (text, line) in [
            ("connect_timeout=ten", "connect_timeout is \"ten\", which is no whole number"),
            ("connect_timeout=''", "connect_timeout is \"\", which is no whole number"),
            ("connect_timeout=9999999999", "connect_timeout is \"9999999999\", which is no whole number"),
            ("keepalives=on", "keepalives is \"on\", which is no whole number"),
            ("keepalives_idle=1s", "keepalives_idle is \"1s\", which is no whole number"),
            ("tcp_user_timeout=1.5", "tcp_user_timeout is \"1.5\", which is no whole number"),
            ("sslmode=Require", "sslmode is \"Require\"; it is one of disable, allow, prefer, require, verify-ca, verify-full"),
            ("sslmode=''", "sslmode is \"\"; it is one of disable, allow, prefer, require, verify-ca, verify-full"),
            ("require_auth=password,!md5", "require_auth is \"password,!md5\": methods with and without ! do not go together"),
            ("require_auth=!md5,scram-sha-256", "require_auth is \"!md5,scram-sha-256\": methods with and without ! do not go together"),
            ("require_auth=scram", "require_auth is \"scram\": it is a list of password, md5, gss, sspi, scram-sha-256 and none"),
            ("require_auth=md5,,none", "require_auth is \"md5,,none\": it is a list of password, md5, gss, sspi, scram-sha-256 and none"),
            ("require_auth=md5,md5", "require_auth is \"md5,md5\": a method is named twice"),
            ("channel_binding=yes", "channel_binding is \"yes\"; it is one of disable, prefer, require"),
            ("sslsni=yes", "sslsni is \"yes\"; it is one of 1, 0"),
            ("gssencmode=allow", "gssencmode is \"allow\"; it is one of disable, prefer, require"),
            ("host=h gssencmode=require", "gssencmode: follow has no GSSAPI encryption; take prefer or disable, and sslmode for TLS"),
            ("requirepeer=postgres", "requirepeer: follow does not check who runs the server; leave it out, or make it empty"),
            ("host=h sslcrl=x", "sslcrl: follow does not check revocation lists; leave it out, or make it empty"),
            ("host=h sslcrldir=x", "sslcrldir: follow does not check revocation lists; leave it out, or make it empty"),
            ("host=h sslpassword=x", "sslpassword: follow reads no encrypted key; decrypt it (openssl pkey) into a file that only you can read"),
            ("target_session_attrs=x", "target_session_attrs is \"x\"; it is one of any, read-write, read-only, primary, standby, prefer-standby"),
            ("client_encoding=LATIN1", "client_encoding is \"LATIN1\"; follow prints UTF-8 alone: leave it out"),
            ("ssl_min_protocol_version=1.2", "ssl_min_protocol_version is \"1.2\"; it is one of TLSv1, TLSv1.1, TLSv1.2, TLSv1.3"),
            ("ssl_max_protocol_version=TLSv1.1", "ssl_max_protocol_version is less than ssl_min_protocol_version, which is TLSv1.2"),
            (
                "host=h ssl_min_protocol_version=TLSv1.3",
                "ssl_min_protocol_version: follow cannot ask for TLSv1.3 alone; TLSv1.2 as the lowest takes it where the server has it",
            ),
        ] {
            let failure = Around::new("values").resolve(text).unwrap_err();
            assert_eq!((failure.status, failure.line.as_str()), (crate::failure::USAGE, line), "{text}");
        }
    }
}
