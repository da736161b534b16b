//! Service files: groups of parameters under a name.
use super::params::{known, Origin, Params};
use super::string::is_space;
use super::{wrong, Surroundings};
use crate::failure::Failure;
use std::fs;
use std::path::{Path, PathBuf};

/// Where a service is named: takes from its group what was not given. The user's file comes before the system's.
pub fn fill(params: &mut Params, around: &Surroundings) -> Result<(), Failure> {
    let given = params.get("service").map(String::from);
    let Some(service) = given.map_or_else(|| around.text("PGSERVICE"), |service| Ok(Some(service)))? else { return Ok(()) };
    let there = |file: &PathBuf| file.exists();
    let user_file = match (around.variable)("PGSERVICEFILE") {
        Some(file) => Some(PathBuf::from(file)),
        None => around.home().map(|home| home.join(".pg_service.conf")).filter(there),
    };
    let folder = (around.variable)("PGSYSCONFDIR").map_or_else(|| around.sysconf_dir.clone(), PathBuf::from);
    let system_file = Some(folder.join("pg_service.conf")).filter(there);
    for file in [&user_file, &system_file].into_iter().flatten() {
        let text = fs::read(file).map_err(|e| wrong(format!("the service file {} cannot be read: {e}", file.display())))?;
        if group(&text, &service, file, params)? {
            return Ok(());
        }
    }
    let files: Vec<_> = [user_file, system_file].into_iter().flatten().map(|file| file.display().to_string()).collect();
    let looked = if files.is_empty() { "there is no service file".into() } else { format!("{} has no [{service}]", files.join(" or ")) };
    Err(wrong(format!("definition of service {service:?} not found: {looked}")))
}

// Whether the file has the group; of a parameter that stands there twice the first counts, and so does the first of two groups.
fn group(text: &[u8], service: &str, file: &Path, params: &mut Params) -> Result<bool, Failure> {
    let mut found = false;
    for (number, line) in (1..).zip(text.split(|byte| *byte == b'\n')) {
        let line = trim(line);
        match line.first() {
            None | Some(b'#') => {}
            Some(b'[') if found => return Ok(true),
            Some(b'[') => found = line[1..].strip_prefix(service.as_bytes()).is_some_and(|rest| rest.starts_with(b"]")),
            Some(_) if found => {
                let setting = setting(line).map_err(|what| wrong(format!("the service file {} line {number} {what}", file.display())))?;
                params.fill(setting.0, setting.1, Origin::Service(file.into(), number));
            }
            Some(_) => {}
        }
    }
    Ok(found)
}

fn setting(line: &[u8]) -> Result<(&'static str, &str), String> {
    let line = std::str::from_utf8(line).map_err(|_| "is no UTF-8 text")?;
    if line.contains('\0') {
        return Err("has a zero byte".into());
    }
    if line.starts_with("ldap") {
        return Err("looks parameters up by LDAP, which follow does not: write them out".into());
    }
    let Some((keyword, value)) = line.split_once('=') else { return Err("has no \"=\": a line is parameter=value".into()) };
    if keyword == "service" {
        return Err("names another service, which is not supported".into());
    }
    let unknown = || format!("has the invalid connection option {keyword:?}; it takes libpq's, without spaces around the \"=\"");
    Ok((known(keyword).ok_or_else(unknown)?, value))
}

fn trim(line: &[u8]) -> &[u8] {
    let text = |byte: &u8| !is_space(char::from(*byte));
    let begin = line.iter().position(text).unwrap_or(line.len());
    let end = line.iter().rposition(text).map_or(begin, |last| last + 1);
    &line[begin..end]
}

#[cfg(test)]
mod tests {
    use super::super::tests::Around;
    use super::*;

    // The documentation's example, and more.
    const FILE: &[u8] = b"# comment\n[mydb]\nhost=somehost\nport=5433\nuser=admin\n\n[other]\r\n  port=1 \r\n#port=2\nport=3\ndbname= a = b\noptions=\n\
        [bad]\nuser=x\nnonsense\n[worse]\nport =1\n[nested]\nservice=mydb\n[bytes]\nuser=\xff\n[zero]\nuser=a\0\n[ldap]\nldap://h\n[mydb]\nport=9\n[old]\nrequiressl=1\n";

    fn of(service: &str) -> Result<Option<Vec<(&'static str, String)>>, String> {
        let mut params = Params::default();
        let found = group(FILE, service, Path::new("/f"), &mut params).map_err(|failure| failure.line)?;
        let value = |keyword| params.get(keyword).map(|value| (keyword, value.to_string()));
        Ok(found.then(|| ["host", "port", "user", "dbname", "options"].into_iter().filter_map(value).collect()))
    }

    #[test]
    fn groups() {
        let is = |pairs: &[(&'static str, &str)]| Ok(Some(pairs.iter().map(|(keyword, value)| (*keyword, value.to_string())).collect()));
        assert_eq!(of("mydb"), is(&[("host", "somehost"), ("port", "5433"), ("user", "admin")]));
        assert_eq!(of("other"), is(&[("port", "1"), ("dbname", " a = b"), ("options", "")]));
        assert_eq!(of("my"), Ok(None));
        assert_eq!(of(""), Ok(None));
        for (service, what) in [
            ("bad", "line 15 has no \"=\": a line is parameter=value"),
            ("worse", "line 17 has the invalid connection option \"port \"; it takes libpq's, without spaces around the \"=\""),
            ("nested", "line 19 names another service, which is not supported"),
            ("bytes", "line 21 is no UTF-8 text"),
            ("zero", "line 23 has a zero byte"),
            ("ldap", "line 25 looks parameters up by LDAP, which follow does not: write them out"),
            ("old", "line 29 has the invalid connection option \"requiressl\"; it takes libpq's, without spaces around the \"=\""),
        ] {
            assert_eq!(of(service), Err(format!("the service file /f {what}")), "{service}");
        }
    }

    #[test]
    fn files() {
        let mut around = Around::new("service");
        let user = around.write(".pg_service.conf", "[a]\nport=1\n", 0o600);
        let system = around.write("pg_service.conf", "[a]\nport=2\n[b]\nport=3\n[c]\nport=x\n", 0o644);
        let port = |around: &Around, dbname: &str| around.resolve(dbname).map(|conninfo| conninfo.targets[0].port).map_err(|failure| failure.line);
        let not_found = |name: &str, files: String| Err(format!("definition of service {name:?} not found: {files} has no [{name}]"));
        assert_eq!(port(&around, "service=a"), Ok(1));
        assert_eq!(port(&around, "service=b"), Ok(3));
        assert_eq!(port(&around, "service=b port=4"), Ok(4));
        assert_eq!(port(&around, "service=d"), not_found("d", format!("{user} or {system}")));
        assert_eq!(port(&around, "service=c"), Err(format!("port ({system} line 6) is \"x\"; a port is a number from 1 to 65535")));
        around.set("PGSERVICE", "a");
        around.set("PGPORT", "5");
        assert_eq!(port(&around, ""), Ok(1));
        assert_eq!(port(&around, "service=b"), Ok(3));
        assert_eq!(port(&around, "service=''"), not_found("", format!("{user} or {system}")));
        let other = around.write("other", "[b]\nport=6\n", 0o600);
        around.set("PGSERVICEFILE", &other);
        assert_eq!(port(&around, "service=b"), Ok(6));
        assert_eq!(port(&around, "service=a"), Ok(2));
        around.set("PGSYSCONFDIR", "/nowhere");
        assert_eq!(port(&around, "service=a"), not_found("a", other));
        around.set("PGSERVICEFILE", "/nowhere/f");
        let line = port(&around, "service=a").unwrap_err();
        assert!(line.starts_with("the service file /nowhere/f cannot be read: "), "{line}");
    }

    #[test]
    fn no_file() {
        let around = Around::new("no_service");
        let line = around.resolve("service=a").unwrap_err().line;
        assert_eq!(line, "definition of service \"a\" not found: there is no service file");
    }
}
