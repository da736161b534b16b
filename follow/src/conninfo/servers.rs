//! The servers: the lists of hosts, addresses and ports, and the password of each.
use super::params::Params;
use super::{passfile, string, wrong, Place, Surroundings, Target};
use crate::failure::Failure;
use std::net::{IpAddr, Ipv6Addr};
use std::path::{Path, PathBuf};

const DEFAULT_PORT: u16 = 5432;

/// The items of the lists that belong together; what is empty was not given.
struct Item<'a> {
    host: &'a str,
    hostaddr: &'a str,
    port: &'a str,
}

/// In the order in which they are tried, and the lines that the user should see about the password file.
pub fn targets(params: &Params, names: (&str, &str), around: &Surroundings) -> Result<(Vec<Target>, Vec<String>), Failure> {
    let items = items(params)?;
    let (given, mut warnings) = (params.nonempty("password"), Vec::new());
    let named = params.nonempty("passfile").map(PathBuf::from);
    let file = named.or_else(|| around.home().map(|home| home.join(".pgpass"))).filter(|_| given.is_none());
    let text = file.as_deref().and_then(|file| passfile::read(file).unwrap_or_else(|line| (warnings.push(line), None).1));
    let mut targets = Vec::with_capacity(items.len());
    for item in &items {
        let (place, port) = (place(item, params, around)?, port(item, params)?);
        let wanted = [passfile_host(item, &around.socket_dir), if item.port.is_empty() { "5432" } else { item.port }, names.0, names.1];
        let found = text.as_deref().and_then(|text| passfile::password(text, wanted));
        let passfile = file.clone().filter(|_| found.is_some());
        targets.push(Target { place, port, password: found.or_else(|| given.map(|given| given.as_bytes().to_vec())), passfile });
    }
    Ok((targets, warnings))
}

// As many hosts as addresses, and one port for all or as many as servers.
fn items(params: &Params) -> Result<Vec<Item<'_>>, Failure> {
    let list = |keyword| params.nonempty(keyword).map_or(Vec::new(), |text| text.split(',').collect());
    let (hosts, addresses, ports): (Vec<&str>, Vec<&str>, Vec<&str>) = (list("host"), list("hostaddr"), list("port"));
    let count = if addresses.is_empty() { hosts.len().max(1) } else { addresses.len() };
    if !hosts.is_empty() && hosts.len() != count {
        let (n, host, hostaddr) = (hosts.len(), params.name("host"), params.name("hostaddr"));
        return Err(wrong(format!("could not match {n} host names ({host}) to {count} hostaddr values ({hostaddr}): give as many of both")));
    }
    if ports.len() > 1 && ports.len() != count {
        let (n, port) = (ports.len(), params.name("port"));
        return Err(wrong(format!("could not match {n} port numbers ({port}) to {count} hosts: give one port, or one for each host")));
    }
    let port = |at| ports.get(at).or(ports.first()).copied().unwrap_or("");
    let item = |at| Item { host: hosts.get(at).copied().unwrap_or(""), hostaddr: addresses.get(at).copied().unwrap_or(""), port: port(at) };
    Ok((0..count).map(item).collect())
}

fn place(item: &Item, params: &Params, around: &Surroundings) -> Result<Place, Failure> {
    let host = item.host.to_string();
    if !item.hostaddr.is_empty() {
        if !is_address(item.hostaddr) {
            let name = params.name("hostaddr");
            return Err(wrong(format!("{name} has {:?}, which is no IP address: names are given as host", item.hostaddr)));
        }
        return Ok(Place::Tcp { host, hostaddr: Some(item.hostaddr.into()) });
    }
    Ok(match host.as_bytes().first() {
        None => Place::Unix(around.socket_dir.clone()),
        Some(b'/' | b'@') => Place::Unix(host.into()),
        Some(_) => Place::Tcp { host, hostaddr: None },
    })
}

// An IPv6 address may name the network interface after a %.
fn is_address(text: &str) -> bool {
    let scoped = |(address, scope): (&str, &str)| !scope.is_empty() && address.parse::<Ipv6Addr>().is_ok();
    text.parse::<IpAddr>().is_ok() || text.split_once('%').is_some_and(scoped)
}

fn port(item: &Item, params: &Params) -> Result<u16, Failure> {
    let text = item.port.trim_matches(string::is_space);
    if item.port.is_empty() {
        return Ok(DEFAULT_PORT);
    }
    let port = text.parse().ok().filter(|port| *port > 0);
    port.ok_or_else(|| wrong(format!("{} is {:?}; a port is a number from 1 to 65535", params.name("port"), item.port)))
}

// The host that a line of the password file names: localhost also stands for the socket in the usual folder.
fn passfile_host<'a>(item: &Item<'a>, socket_dir: &Path) -> &'a str {
    match (item.host, item.hostaddr) {
        ("", "") => "localhost",
        ("", hostaddr) => hostaddr,
        (host, _) if Path::new(host).is_absolute() && host.as_bytes() == socket_dir.as_os_str().as_encoded_bytes() => "localhost",
        (host, _) => host,
    }
}

#[cfg(test)]
mod tests {
    use super::super::tests::Around;
    use super::*;

    fn targets_of(around: &Around, dbname: &str) -> Result<Vec<String>, String> {
        let shown = |target: &Target| match &target.place {
            Place::Unix(folder) => format!("unix {} {}", folder.display(), target.port),
            Place::Tcp { host, hostaddr } => format!("tcp {host} {} {}", hostaddr.as_deref().unwrap_or("-"), target.port),
        };
        around.resolve(dbname).map(|conninfo| conninfo.targets.iter().map(shown).collect()).map_err(|failure| failure.line)
    }

    #[test]
    fn lists() {
        let around = Around::new("lists");
        for (dbname, expected) in [
            ("host=''", &["unix /sockets 5432"][..]),
            ("host=h", &["tcp h - 5432"]),
            ("host=h port=1", &["tcp h - 1"]),
            ("host=h port=' +1 '", &["tcp h - 1"]),
            ("host=/s port=1", &["unix /s 1"]),
            ("host=@s", &["unix @s 5432"]),
            ("host=a,b,c port=1,2,3", &["tcp a - 1", "tcp b - 2", "tcp c - 3"]),
            ("host=a,b port=1", &["tcp a - 1", "tcp b - 1"]),
            ("host=a,b port=1,", &["tcp a - 1", "tcp b - 5432"]),
            ("host=a,b port=,", &["tcp a - 5432", "tcp b - 5432"]),
            ("host=, port=1", &["unix /sockets 1", "unix /sockets 1"]),
            ("host=a,,/s", &["tcp a - 5432", "unix /sockets 5432", "unix /s 5432"]),
            ("hostaddr=127.0.0.1", &["tcp  127.0.0.1 5432"]),
            ("hostaddr=::1,fe80::1%eth0", &["tcp  ::1 5432", "tcp  fe80::1%eth0 5432"]),
            ("host=a,b hostaddr=1.2.3.4,", &["tcp a 1.2.3.4 5432", "tcp b - 5432"]),
            ("host=,/s hostaddr=,1.2.3.4", &["unix /sockets 5432", "tcp /s 1.2.3.4 5432"]),
            ("postgres://a:1,b/", &["tcp a - 1", "tcp b - 5432"]),
            ("postgres://[::1]:1", &["tcp ::1 - 1"]),
        ] {
            assert_eq!(targets_of(&around, dbname), Ok(expected.iter().map(|text| text.to_string()).collect()), "{dbname}");
        }
    }

    #[test]
    fn errors() {
        let mut around = Around::new("servers");
        around.set("PGPORT", "1,2,3");
        for (dbname, line) in [
            ("host=a,b", "could not match 3 port numbers (PGPORT) to 2 hosts: give one port, or one for each host"),
            ("port=,", "could not match 2 port numbers (port) to 1 hosts: give one port, or one for each host"),
            ("host=a,b hostaddr=::1 port=1", "could not match 2 host names (host) to 1 hostaddr values (hostaddr): give as many of both"),
            ("hostaddr=localhost port=1", "hostaddr has \"localhost\", which is no IP address: names are given as host"),
            ("hostaddr=::1% port=1", "hostaddr has \"::1%\", which is no IP address: names are given as host"),
            ("port=0", "port is \"0\"; a port is a number from 1 to 65535"),
            ("port=65536", "port is \"65536\"; a port is a number from 1 to 65535"),
            ("host=a,b port=1,x", "port is \"x\"; a port is a number from 1 to 65535"),
            ("port=-1", "port is \"-1\"; a port is a number from 1 to 65535"),
        ] {
            assert_eq!(targets_of(&around, dbname), Err(line.into()), "{dbname}");
        }
    }

    #[test]
    fn passwords() {
        let mut around = Around::new("passwords");
        let file = "localhost:5432:d:u:local\nh:1:d:u:of h\n1.2.3.4:*:*:*:address\n/s:*:*:*:folder\n";
        let path = around.write(".pgpass", file, 0o600);
        let other = around.write("other", "*:*:*:*:other\n", 0o600);
        let found = |around: &Around, dbname: &str| -> Vec<(String, bool)> {
            let conninfo = around.resolve(&format!("user=u dbname=d {dbname}")).unwrap();
            let text = |password: Option<Vec<u8>>| String::from_utf8(password.unwrap_or_default()).unwrap();
            conninfo.targets.into_iter().map(|target| (text(target.password), target.passfile == Some(path.clone().into()))).collect()
        };
        let from_file = |text: &str| (text.to_string(), true);
        let given = |text: &str| (text.to_string(), false);
        assert_eq!(found(&around, ""), [from_file("local")]);
        assert_eq!(found(&around, "host=/sockets"), [from_file("local")]);
        assert_eq!(found(&around, "host=localhost"), [from_file("local")]);
        assert_eq!(found(&around, "host=/s"), [from_file("folder")]);
        assert_eq!(found(&around, "host=h,h,x port=1,2,3"), [from_file("of h"), given(""), given("")]);
        assert_eq!(found(&around, "hostaddr=1.2.3.4"), [from_file("address")]);
        assert_eq!(found(&around, "host=h hostaddr=1.2.3.4 port=1"), [from_file("of h")]);
        assert_eq!(found(&around, "user=x"), [given("")]);
        assert_eq!(found(&around, "password=p"), [given("p")]);
        assert_eq!(found(&around, "password=''"), [from_file("local")]);
        assert_eq!(found(&around, &format!("passfile={other}")), [given("other")]);
        assert_eq!(found(&around, "passfile=/nowhere"), [given("")]);
        around.set("PGPASSFILE", &other);
        assert_eq!(found(&around, ""), [given("other")]);
        assert_eq!(found(&around, "passfile=''"), [from_file("local")]);
        around.set("PGPASSWORD", "q");
        assert_eq!(found(&around, ""), [given("q")]);
    }

    #[test]
    fn one_warning_for_all_servers() {
        let around = Around::new("warning");
        let path = around.write(".pgpass", "*:*:*:*:p\n", 0o644);
        let warnings = |dbname: &str| around.resolve_with_warnings(dbname).unwrap().1;
        let why = "it has group or world access; its permissions should be u=rw (0600) or less";
        assert_eq!(warnings("host=a,b"), [format!("the password file {path} is ignored: {why}")]);
        assert!(warnings("host=a,b password=p").is_empty());
    }
}
