//! How `follow` connects: which server, with what authentication, with TLS or without, and what it says where it cannot.
#[path = "server/scram.rs"]
mod scram;
#[allow(unused_imports)]
mod server;

use scram::Scram;
use server::*;
use std::io::{Read, Write};
use std::net::{TcpListener, TcpStream};
use std::process::{Command, Output, Stdio};
use std::time::{Duration, Instant};

const TLS_REQUEST: [u8; 8] = [0, 0, 0, 8, 4, 210, 22, 47];

// `follow` with a connection string, and nothing of the surroundings that says something of a connection.
fn client(conninfo: &str) -> Command {
    let mut command = Command::new(env!("CARGO_BIN_EXE_follow"));
    for (name, _) in std::env::vars_os().filter(|(name, _)| name.to_string_lossy().starts_with("PG")) {
        command.env_remove(name);
    }
    command.args(["-d", conninfo, "-S", "s", "--drop-slot"]).env("HOME", "/nonexistent").stdin(Stdio::null());
    command
}

// Drops a slot: the shortest that can be done on a connection.
fn connect(conninfo: &str) -> Output {
    client(&format!("host=127.0.0.1 user=me dbname=db {conninfo}")).output().unwrap()
}

fn said(output: &Output, status: i32, part: &str) {
    let text = line(output);
    assert!(text.contains(part), "{text}");
    assert_eq!(output.status.code(), Some(status));
}

fn ask(client: &mut TcpStream, code: u8, rest: &[u8]) {
    client.write_all(&message(b'R', &Scram::request(code, rest))).unwrap();
}

// The rest of a startup, and the one query.
fn let_drop(client: &mut TcpStream) {
    ask(client, 0, &[]);
    client.write_all(&message(b'Z', b"I")).unwrap();
    assert_eq!(query(client), "DROP_REPLICATION_SLOT s");
    answer(client, &[]);
}

fn reject(client: &mut TcpStream, state: &str, text: &str) {
    client.write_all(&message(b'E', &error(state, text))).unwrap();
}

// Whether the client ends without a further message.
fn ended(client: &mut TcpStream) -> bool {
    let mut rest = Vec::new();
    let _ = client.read_to_end(&mut rest);
    rest.is_empty()
}

// SCRAM up to the client's proof, which must be that of the password `geheim` with the same header.
fn scram(client: &mut TcpStream) -> (bool, String) {
    startup(client);
    ask(client, 10, b"SCRAM-SHA-256\0\0");
    let mut scram = Scram::new("geheim", 4096);
    let (mechanism, header, first) = scram.first(&receive(client).1);
    assert_eq!((mechanism.as_str(), header.as_str()), ("SCRAM-SHA-256", "n,,"));
    ask(client, 11, first.as_bytes());
    let response = receive(client).1;
    assert!(response.starts_with(b"c=biws,r="));
    scram.last(&response)
}

#[test]
fn scram_with_the_right_password() {
    let (port, server) = serve(|listener| {
        let mut client = accept(&listener);
        let (proved, last) = scram(&mut client);
        ask(&mut client, 12, last.as_bytes());
        let_drop(&mut client);
        proved
    });
    let output = connect(&format!("port={port} password=geheim"));
    assert!(server.join().unwrap());
    assert_eq!((output.status.code(), output.stderr), (Some(0), vec![]));
}

#[test]
fn scram_with_a_wrong_password() {
    let (port, server) = serve(|listener| {
        let mut client = accept(&listener);
        let (proved, _) = scram(&mut client);
        reject(&mut client, "28P01", "password authentication failed for user \"me\"");
        // A wrong password is no reason to try without TLS, or another server.
        (proved, ended(&mut client), listener.set_nonblocking(true).is_ok() && listener.accept().is_err())
    });
    let output = client(&format!("host=127.0.0.1,127.0.0.1 port={port} user=me dbname=db password=falsch")).output().unwrap();
    assert_eq!(server.join().unwrap(), (false, true, true));
    said(&output, 1, "password authentication failed for user \"me\" (SQLSTATE 28P01)");
    assert!(line(&output).ends_with("the password that was sent came from PGPASSWORD or the connection's parameters"));
}

#[test]
fn a_server_that_does_not_know_the_password_is_refused() {
    // Another signature, none, one that is no base64, and an error in its place.
    for last in ["v=AAAAAAAAAAAAAAAAAAAAAAAAAAAAAAAAAAAAAAAAAAA=", "", "v=!", "e=other-error", "left out", "only ready"] {
        let (port, server) = serve(move |listener| {
            let mut client = accept(&listener);
            assert!(scram(&mut client).0);
            let proof = message(b'R', &Scram::request(12, last.as_bytes()));
            let ok = message(b'R', &[0; 4]);
            let messages = match last {
                "left out" => vec![ok],
                "only ready" => vec![],
                _ => vec![proof, ok],
            };
            client.write_all(&[messages.concat(), message(b'Z', b"I")].concat()).unwrap();
            ended(&mut client)
        });
        let output = connect(&format!("port={port} password=geheim"));
        assert!(server.join().unwrap(), "{last}");
        said(&output, 1, if last == "only ready" { "not what the protocol says" } else { "it is not the server that it seems to be" });
    }
}

#[test]
fn a_servers_first_message_of_scram_that_is_wrong() {
    for (spoil, part) in [
        (&(|first: String| first.replace(",i=4096", ",i=4294967295")) as &(dyn Fn(String) -> String + Sync), "4294967295 iterations"),
        (&|first| first.replace(",i=4096", ",i=0"), "0 iterations"),
        (&|first| first.replace(",i=4096", ",i=4095"), "4095 iterations of SCRAM-SHA-256; 4096 to 10000000 are taken"),
        (&|first| first.replace(",i=4096", ""), "not what the protocol says"),
        (&|first| first.replace("r=", "r=x"), "not what the protocol says"),
        (&|_| String::new(), "not what the protocol says"),
    ] {
        let listener = TcpListener::bind("127.0.0.1:0").unwrap();
        let port = listener.local_addr().unwrap().port();
        std::thread::scope(|scope| {
            let server = scope.spawn(|| {
                let mut client = accept(&listener);
                startup(&mut client);
                ask(&mut client, 10, b"SCRAM-SHA-256-X\0SCRAM-SHA-256\0\0");
                let first = Scram::new("geheim", 4096).first(&receive(&mut client).1).2;
                ask(&mut client, 11, spoil(first).as_bytes());
                ended(&mut client)
            });
            said(&connect(&format!("port={port} password=geheim")), 1, part);
            assert!(server.join().unwrap());
        });
    }
}

#[test]
fn passwords_by_md5_and_in_clear() {
    // md5(md5("geheim" "me") "abcd"), by md5sum.
    for (code, rest, sent) in [(5, &b"abcd"[..], &b"md5a96ab86aabf2082ad8e0a0ba907349cb\0"[..]), (3, b"", b"geheim\0")] {
        let (port, server) = serve(move |listener| {
            let mut client = accept(&listener);
            startup(&mut client);
            ask(&mut client, code, rest);
            let password = receive(&mut client).1;
            let_drop(&mut client);
            password
        });
        let output = connect(&format!("port={port} password=geheim require_auth=password,md5"));
        assert_eq!((server.join().unwrap().as_slice(), output.status.code()), (sent, Some(0)));
    }
}

#[test]
fn what_is_no_authentication_for_follow() {
    for (conninfo, code, rest, part) in [
        ("", 7, &b""[..], "the server asks for GSSAPI (Kerberos), which follow does not speak"),
        ("", 9, b"", "SSPI"),
        ("", 2, b"", "Kerberos V5"),
        ("", 6, b"", "SCM credentials"),
        ("", 99, b"", "method 99"),
        ("", 11, b"r=x,s=eA==,i=1", "not what the protocol says"),
        ("", 12, b"v=x", "not what the protocol says"),
        ("", 5, b"abc", "not what the protocol says"),
        ("", 10, b"SCRAM-SHA-1\0\0", "without SCRAM-SHA-256"),
        ("", 10, b"SCRAM-SHA-256-PLUS\0SCRAM-SHA-256\0\0", "channel binding on a connection without TLS"),
        ("channel_binding=require", 10, b"SCRAM-SHA-256\0\0", "channel_binding=require, but the server asks for SCRAM-SHA-256 without TLS"),
        ("channel_binding=require", 5, b"abcd", "channel_binding=require, but the server asks for an MD5 password"),
        ("channel_binding=require require_auth=password", 3, b"", "channel_binding=require, but the server asks for a password in clear"),
        ("channel_binding=require", 0, b"", "channel_binding=require, but the server asks for no password"),
    ] {
        let (port, server) = serve(move |listener| {
            let mut client = accept(&listener);
            startup(&mut client);
            ask(&mut client, code, rest);
            ended(&mut client)
        });
        let output = connect(&format!("port={port} password=geheim {conninfo}"));
        assert!(server.join().unwrap());
        said(&output, 1, part);
    }
}

#[test]
fn a_password_that_nobody_knows() {
    for (setsid, argument, part) in [
        (false, "-w", "the server asks for a password, and -w forbids to ask for it: set PGPASSWORD"),
        (true, "-v", "the server asks for a password, and there is no terminal to ask at"),
    ] {
        let (port, server) = serve(move |listener| {
            let mut client = accept(&listener);
            startup(&mut client);
            ask(&mut client, 3, b"");
            ended(&mut client)
        });
        let conninfo = format!("host=127.0.0.1 port={port} user=me dbname=db require_auth=password");
        let mut command = client(&conninfo);
        if setsid {
            let program = command.get_program().to_owned();
            command = Command::new("setsid");
            command.arg("-w").arg(program).args(["-d", &conninfo, "-S", "s", "--drop-slot"]).env_remove("PGPASSWORD").stdin(Stdio::null());
        }
        let output = command.arg(argument).output().unwrap();
        assert!(server.join().unwrap());
        said(&output, 1, part);
    }
}

#[test]
fn servers_are_tried_in_order() {
    let unused = TcpListener::bind("127.0.0.1:0").unwrap().local_addr().unwrap().port();
    let (starting, first) = serve(|listener| {
        let mut client = accept(&listener);
        startup(&mut client);
        reject(&mut client, "57P03", "the database system is starting up");
        ended(&mut client)
    });
    let (closing, second) = serve(|listener| drop(accept(&listener)));
    let (last, third) = serve(|listener| {
        let mut client = accept(&listener);
        startup(&mut client);
        let_drop(&mut client);
    });
    let hosts = "host=127.0.0.1,127.0.0.1,127.0.0.1,127.0.0.1";
    let output = client(&format!("{hosts} port={unused},{starting},{closing},{last} user=me dbname=db")).output().unwrap();
    assert!(first.join().unwrap());
    second.join().unwrap();
    third.join().unwrap();
    assert_eq!((output.status.code(), output.stderr), (Some(0), vec![]));
}

#[test]
fn no_server_is_reached() {
    let unused = TcpListener::bind("127.0.0.1:0").unwrap().local_addr().unwrap().port();
    let (starting, server) = serve(|listener| {
        let mut client = accept(&listener);
        startup(&mut client);
        reject(&mut client, "57P03", "the database system is starting up");
        ended(&mut client)
    });
    let output = client(&format!("host=127.0.0.1,127.0.0.1 port={unused},{starting} user=me dbname=db")).output().unwrap();
    assert!(server.join().unwrap());
    said(&output, 1, &format!("cannot connect to 127.0.0.1 port {unused}: Connection refused; 127.0.0.1 port {starting}: the server says: "));
    let output = client(&format!("host=127.0.0.1 port={unused} user=me dbname=db")).output().unwrap();
    said(&output, 1, "Connection refused; is the server running, and are host and port right?");
    let output = client("host=/nonexistent user=me dbname=db").output().unwrap();
    said(&output, 1, "cannot connect to socket /nonexistent/.s.PGSQL.5432: No such file or directory");
}

// A startup message that no request for TLS comes before.
fn startup_in_clear(client: &mut TcpStream) -> Vec<u8> {
    let mut length = [0; 4];
    client.read_exact(&mut length).unwrap();
    let mut payload = vec![0; u32::from_be_bytes(length) as usize - 4];
    client.read_exact(&mut payload).unwrap();
    payload
}

// The request for TLS, answered so.
fn tls(client: &mut TcpStream, answer: &[u8]) {
    let mut request = [0; 8];
    client.read_exact(&mut request).unwrap();
    assert_eq!(request, TLS_REQUEST);
    client.write_all(answer).unwrap();
}

#[test]
fn tls_that_the_server_does_not_have() {
    let mut bytes = b"S".to_vec();
    // What comes in clear with the answer is not taken for what came by TLS.
    bytes.extend(message(b'R', &[0; 4]));
    bytes.extend(message(b'Z', b"I"));
    let error = message(b'E', &error("53300", "too many connections"));
    for (mode, answer, part) in [
        ("require", b"N".to_vec(), "the server does not speak TLS, and sslmode asks for it"),
        ("require", error, "the server answers the request for TLS with an error: look at its log"),
        ("require", b"X".to_vec(), "is this a PostgreSQL server?"),
        ("require", vec![], "the server closed the connection when TLS was asked for"),
        ("require", bytes, "what the server sends after its answer is no TLS"),
        ("verify-full", b"S".to_vec(), "sslmode=verify-full needs the root certificate file /nonexistent/.postgresql/root.crt"),
    ] {
        let (port, server) = serve(move |listener| {
            let mut client = accept(&listener);
            tls(&mut client, &answer);
            let _ = client.shutdown(std::net::Shutdown::Write);
            let mut rest = Vec::new();
            let _ = client.read_to_end(&mut rest);
            rest
        });
        let output = connect(&format!("port={port} sslmode={mode}"));
        // The handshake's first record, or nothing: no name and no password in clear.
        let rest = server.join().unwrap();
        assert!(rest.is_empty() || rest[0] == 22, "{rest:?}");
        said(&output, 1, part);
    }
}

/// What a connection of a plan does: the answer to the request for TLS, where one comes, and whether a startup in clear follows.
type Plan = &'static [(Option<&'static [u8]>, bool)];

/// The last connection that has a startup lets the client in, unless the part of a line says why none does.
const PLANS: [(&str, Plan, &str); 8] = [
    ("disable", &[(None, true)], ""),
    ("allow", &[(None, true)], ""),
    ("prefer", &[(Some(b"N"), true)], ""),
    ("prefer", &[(Some(b"E"), false), (None, true)], ""),
    ("prefer", &[(Some(b"S and no handshake"), false), (None, true)], ""),
    ("prefer", &[(Some(b"N"), true)], "no pg_hba.conf entry"),
    ("disable", &[(None, true)], "no pg_hba.conf entry"),
    ("allow", &[(None, true), (Some(b"N"), false)], "; with TLS: the server does not speak TLS"),
];

#[test]
fn with_tls_and_without() {
    for (mode, plan, part) in PLANS {
        let (port, server) = serve(move |listener| {
            for (answer, starts) in plan {
                let mut client = accept(&listener);
                if let Some(answer) = answer {
                    tls(&mut client, answer);
                }
                if *starts {
                    let text = String::from_utf8(startup_in_clear(&mut client)).unwrap();
                    assert!(text.contains("user\0me\0"), "{text}");
                    match part {
                        "" => let_drop(&mut client),
                        _ => reject(&mut client, "28000", "no pg_hba.conf entry"),
                    }
                }
            }
        });
        let output = connect(&format!("port={port} sslmode={mode}"));
        server.join().unwrap();
        match part {
            "" => assert_eq!((output.status.code(), String::from_utf8(output.stderr).unwrap()), (Some(0), String::new()), "{mode}"),
            _ => said(&output, 1, part),
        }
    }
}

#[test]
fn a_limit_of_time_and_a_stop() {
    let (port, server) = serve(|listener| ended(&mut accept(&listener)));
    let begun = Instant::now();
    let output = connect(&format!("port={port} connect_timeout=2 sslmode=disable"));
    assert!(begun.elapsed() >= Duration::from_secs(2) && begun.elapsed() < Duration::from_secs(10));
    assert!(!server.join().unwrap());
    said(&output, 1, "the server did not answer within connect_timeout");

    let (port, server) = serve(|listener| {
        let mut client = accept(&listener);
        startup(&mut client);
        ended(&mut client)
    });
    let child = client(&format!("host=127.0.0.1 port={port} user=me dbname=db")).stderr(Stdio::piped()).spawn().unwrap();
    std::thread::sleep(Duration::from_millis(300));
    let begun = Instant::now();
    assert!(Command::new("kill").args(["-TERM", &child.id().to_string()]).status().unwrap().success());
    let output = child.wait_with_output().unwrap();
    assert!(begun.elapsed() < Duration::from_secs(1) && server.join().unwrap());
    assert!(String::from_utf8(output.stderr).unwrap().contains("stopped"));
}

#[test]
fn the_file_that_a_wrong_password_came_from() {
    let (port, server) = serve(|listener| {
        let mut client = accept(&listener);
        startup(&mut client);
        ask(&mut client, 3, b"");
        let password = receive(&mut client).1;
        reject(&mut client, "28P01", "password authentication failed");
        password
    });
    let file = std::env::temp_dir().join(format!("follow.{}.pgpass", std::process::id()));
    std::fs::write(&file, "127.0.0.1:*:db:me:from the file\n").unwrap();
    std::fs::set_permissions(&file, std::os::unix::fs::PermissionsExt::from_mode(0o600)).unwrap();
    let output = connect(&format!("port={port} require_auth=password passfile={}", file.display()));
    std::fs::remove_file(&file).unwrap();
    assert_eq!(server.join().unwrap(), b"from the file\0");
    said(&output, 1, &format!("the password that was sent came from {}", file.display()));
}

// A server that asks for a password in clear, on a connection without TLS.
fn clear(conninfo: &'static str) -> (bool, Output) {
    let (port, server) = serve(|listener| {
        let mut client = accept(&listener);
        startup(&mut client);
        ask(&mut client, 3, b"");
        let sent = client.read(&mut [0; 100]).unwrap_or(0) > 0;
        if sent {
            refuse(&mut client, &error("28P01", "no"));
        }
        sent
    });
    let output = connect(&format!("port={port} password=geheim {conninfo}"));
    (server.join().unwrap(), output)
}

#[test]
fn a_password_in_clear_is_not_sent_unasked() {
    for conninfo in ["sslmode=disable", "sslmode=prefer", "sslmode=disable require_auth=!md5"] {
        let (sent, output) = clear(conninfo);
        assert!(!sent, "{conninfo}");
        said(&output, 1, "the server asks for the password in clear, on a connection without TLS");
    }
    let (sent, output) = clear("sslmode=disable require_auth=password");
    assert!(sent);
    said(&output, 1, "the password that was sent");
    let (sent, output) = clear("sslmode=disable require_auth=scram-sha-256");
    assert!(!sent);
    said(&output, 1, "asks for a password in clear, which require_auth does not take");
}

#[test]
fn a_server_that_asks_for_nothing() {
    for (conninfo, part) in [("require_auth=scram-sha-256", "no password, which require_auth does not take"), ("require_auth=!none", "no password")] {
        let (port, server) = serve(|listener| {
            let mut client = accept(&listener);
            startup(&mut client);
            ask(&mut client, 0, b"");
            let _ = client.read(&mut [0; 100]);
        });
        said(&connect(&format!("port={port} {conninfo}")), 1, part);
        server.join().unwrap();
    }
}

#[test]
fn advice_never_weakens_a_mode() {
    for mode in ["require", "verify-ca", "verify-full"] {
        let (port, server) = serve(|listener| {
            let mut client = accept(&listener);
            client.read_exact(&mut [0; 8]).unwrap();
            client.write_all(b"N").unwrap();
        });
        let output = connect(&format!("port={port} sslmode={mode}"));
        server.join().unwrap();
        said(&output, 1, "the server does not speak TLS");
        assert!(!line(&output).contains("sslmode=prefer"), "{mode}");
    }
}

// Settings that values do not depend on then, and the user's own after them; what is sent in no encoding.
#[test]
fn settings_and_encodings() {
    for (encoding, asks) in [("UTF8", false), ("SQL_ASCII", true)] {
        let (port, server) = serve(move |listener| {
            let mut client = accept(&listener);
            let text = startup(&mut client);
            ask(&mut client, 0, b"");
            client.write_all(&message(b'S', format!("server_encoding\0{encoding}\0").as_bytes())).unwrap();
            client.write_all(&message(b'Z', b"I")).unwrap();
            if asks {
                assert_eq!(query(&mut client), "SET client_encoding TO 'SQL_ASCII'");
                answer(&mut client, &[]);
            }
            assert_eq!(query(&mut client), "DROP_REPLICATION_SLOT s");
            answer(&mut client, &[]);
            text
        });
        let output = connect(&format!("port={port} options='-c TimeZone=CET'"));
        let text = server.join().unwrap();
        assert_eq!(output.status.code(), Some(0), "{output:?}");
        let options = "-c datestyle=ISO -c intervalstyle=postgres -c extra_float_digits=3 -c TimeZone=UTC -c bytea_output=hex -c TimeZone=CET";
        assert!(text.contains(&format!("options\0{options}\0")) && text.contains("client_encoding\0UTF8\0"), "{text}");
    }
}

#[test]
fn rows_without_end() {
    let (port, server) = serve(|listener| {
        let mut client = accept(&listener);
        startup(&mut client);
        ask(&mut client, 0, b"");
        client.write_all(&message(b'Z', b"I")).unwrap();
        query(&mut client);
        let rows = message(b'D', &row(&[Some(&[b'x'; 1000])])).repeat(100);
        let sent = (0..10_000).take_while(|_| client.write_all(&rows).is_ok()).count();
        assert!(sent < 1_000, "{sent}");
    });
    said(&connect(&format!("port={port}")), 1, "the server's answer to a query has no end");
    server.join().unwrap();
}
