//! The program `follow` beside a server of the test: what it sends, prints and answers.
mod server;

use server::*;
use std::io::{Read, Write};
use std::net::{TcpListener, TcpStream};
use std::process::{Command, Output, Stdio};
use std::thread;

#[test]
fn a_cut_and_the_last_confirmation() {
    let (port, server) = serve(|listener| {
        let mut client = accept(&listener);
        let first = let_in(&mut client);
        let second = transaction(0x200, 2);
        client.write_all(&transaction(0x100, 1)).unwrap();
        client.write_all(&second[..second.len() - 3]).unwrap();
        drop(client);
        let mut client = accept(&listener);
        let again = let_in(&mut client);
        client.write_all(&transaction(0x200, 2)).unwrap();
        client.write_all(&keepalive(0x300, 0, 0)).unwrap();
        client.write_all(&transaction(0x400, 3)).unwrap();
        (first, again, statuses(&mut client))
    });
    let output = follow(port, &["--keepalives", "--endpos", "0/408"]);
    let (first, again, positions) = server.join().unwrap();
    assert!(first.contains("SLOT s LOGICAL 0/0 ") && first.contains("'\"P\"'"));
    assert!(again.contains("SLOT s LOGICAL 0/108 "));
    assert_eq!((positions[0], positions[positions.len() - 1]), (0x108, 0x408));
    let cut = ["begin", "data", "commit", "begin", "data", "resumed"];
    let rest = ["begin", "data", "commit", "keepalive", "begin", "data", "commit", "stopped"];
    assert_eq!(kinds(&output), [&cut[..], &rest[..]].concat());
    assert_eq!(output.status.code(), Some(0));
}

// A transaction that inserts a row of no columns.
fn insert_into(at: u64, relation: u8) -> Vec<u8> {
    transaction_of(at, 1, &[&[b'I', 0, 0, 0, relation, b'N', 0, 0]])
}

#[test]
fn a_commit_tells_its_files_also_after_a_cut() {
    for table in ["a.b=2", "77=2"] {
        let (port, server) = serve(|listener| {
            let mut client = accept(&listener);
            let_in(&mut client);
            client.write_all(&insert_into(0x100, 77)).unwrap();
            // Cut after the row: the transaction comes again whole, and this time it is another one.
            let cut = insert_into(0x200, 77);
            client.write_all(&cut[..cut.len() - 3]).unwrap();
            drop(client);
            let mut client = accept(&listener);
            let_in(&mut client);
            client.write_all(&insert_into(0x200, 78)).unwrap();
            client.write_all(&insert_into(0x300, 77)).unwrap();
            statuses(&mut client)
        });
        let output = follow(port, &["--json", "--file", table, "--endpos", "0/308"]);
        assert_eq!(server.join().unwrap().last(), Some(&0x308));
        let text = String::from_utf8(output.stdout).unwrap();
        let commits = text.lines().filter(|line| line.contains(r#""event":"commit""#));
        let files: Vec<&str> = commits.map(|line| line.split_once(r#""files":"#).unwrap().1).collect();
        assert_eq!((files, output.status.code()), (vec!["[2]}", "[]}", "[2]}"], Some(0)));
    }
}

// A relation's description, and a row of it.
const RELATION: &[u8] = b"R\0\0\0\x4Ds\0t\0d\0\x01\x01id\0\0\0\0\x17\xFF\xFF\xFF\xFF";
const ROW: &[u8] = b"I\0\0\0\x4DN\0\x01t\0\0\0\x017";

#[test]
fn rows_have_names_from_their_own_connection() {
    let (port, server) = serve(|listener| {
        let mut client = accept(&listener);
        let_in(&mut client);
        client.write_all(&transaction_of(0x100, 1, &[ROW, RELATION, ROW])).unwrap();
        drop(client);
        let mut client = accept(&listener);
        let_in(&mut client);
        client.write_all(&transaction_of(0x200, 2, &[ROW, b"I\0", RELATION, ROW])).unwrap();
        statuses(&mut client)
    });
    let output = follow(port, &["--json", "--raw", "--endpos", "0/208"]);
    assert_eq!((server.join().unwrap().last(), output.status.code()), (Some(&0x208), Some(0)));
    let text = String::from_utf8(output.stdout).unwrap();
    let said = |line: &str| line.split_once("\"time\":\"2000-01-01T00:00:00.000000Z\",").unwrap().1.to_string();
    let rows: Vec<String> = text.lines().filter(|line| line.contains("\"kind\":\"insert\"")).map(said).collect();
    let data = r#""data":"490000004d4e0001740000000137"}"#;
    let by_place = format!(r#""relation":77,"refusal":30,"columns":[{{"value":"7"}}],{data}"#);
    let named = format!(r#""relation":77,"schema":"s","table":"t","columns":[{{"name":"id","typeoid":23,"key":true,"value":"7"}}],{data}"#);
    assert_eq!(rows, [by_place.as_str(), &named, &by_place, r#""refusal":26,"data":"4900"}"#, &named]);
}

#[test]
fn a_list_of_files_that_is_wrong_is_told_before_anything_is_followed() {
    for (tables, status, part) in [
        (&["a.b=4"][..], 2, "a number from 0 to 3"),
        (&["a.c=1"], 1, "--file a.c=1: no publication that is followed"),
        (&["78=1"], 1, "--file 78=1: no publication that is followed"),
        (&["a.b=1", "77=1"], 1, "--file 77=1: a.b (OID 77) has its file already"),
    ] {
        let (port, server) = serve(move |listener| {
            if status == 1 {
                let mut client = accept(&listener);
                authenticate(&mut client);
                for row in [&b"P"[..], b"77 a.b"] {
                    query(&mut client);
                    answer(&mut client, &[row]);
                }
                // Nothing more is asked for: no slot is made.
                assert_eq!(client.read(&mut [0]).unwrap_or(0), 0);
            }
        });
        let arguments: Vec<&str> = tables.iter().flat_map(|table| ["--file", table]).chain(["--create-slot", "--start"]).collect();
        let output = follow(port, &arguments);
        let line = String::from_utf8(output.stderr).unwrap();
        assert_eq!((output.status.code(), line.lines().count()), (Some(status), 1), "{line}");
        assert!(line.contains(part), "{line}");
        server.join().unwrap();
    }
}

// A transaction and the server's CopyDone on one connection; the positions that the client confirms before its own.
fn shut_down(listener: &TcpListener, at: u64, xid: u32) -> (String, Vec<u64>) {
    let mut client = accept(listener);
    let query = let_in(&mut client);
    client.write_all(&transaction(at, xid)).unwrap();
    client.write_all(&message(b'c', &[])).unwrap();
    // What comes after it is not read any more.
    client.write_all(&transaction(at + 0x50, xid + 1)).unwrap();
    (query, statuses(&mut client))
}

#[test]
fn the_server_ends_the_stream() {
    let (port, server) = serve(|listener| shut_down(&listener, 0x100, 1));
    let output = follow(port, &["--no-loop"]);
    let (_, positions) = server.join().unwrap();
    assert_eq!(positions.last(), Some(&0x108));
    assert_eq!(kinds(&output), ["begin", "data", "commit"]);
    assert_eq!((output.status.code(), output.stderr), (Some(0), vec![]));
}

#[test]
fn the_server_ends_the_stream_and_comes_again() {
    let (port, server) = serve(|listener| {
        let first = shut_down(&listener, 0x100, 1);
        let second = shut_down(&listener, 0x200, 2);
        let mut client = accept(&listener);
        let query = let_in(&mut client);
        client.write_all(&transaction(0x400, 3)).unwrap();
        (first.1, second, query, statuses(&mut client))
    });
    let output = follow(port, &["--endpos", "0/408"]);
    let (first, second, query, last) = server.join().unwrap();
    assert_eq!((first.last(), second.1.last(), last.last()), (Some(&0x108), Some(&0x208), Some(&0x408)));
    assert!(second.0.contains("SLOT s LOGICAL 0/108 ") && query.contains("SLOT s LOGICAL 0/208 "));
    let one = ["begin", "data", "commit"];
    assert_eq!(kinds(&output), [&one[..], &["resumed"], &one, &["resumed"], &one, &["stopped"]].concat());
    let told = String::from_utf8(output.stderr).unwrap();
    let again = |position: &str| format!("follow: the server ended the stream; again from {position} in 50 ms\n");
    assert_eq!((output.status.code(), told), (Some(0), again("0/108") + &again("0/208")));
}

// Nothing listens on the port: a refused position is told before anything else is done.
#[test]
fn a_refused_position_is_told_with_one_that_is_right() {
    for option in ["--startpos", "--endpos"] {
        for text in ["100000000/0", "+1/2", "0/123456789", "12", "/", "1/2/3", "", " 1/2"] {
            let output = follow(1, &[option, text]);
            let line = String::from_utf8(output.stderr).unwrap();
            assert_eq!((output.status.code(), line.lines().count()), (Some(2), 1), "{line}");
            assert!(line.contains(option) && line.contains(text) && line.contains("16/B374D848"), "{line}");
        }
    }
}

#[test]
fn a_message_over_the_limit_ends_with_7() {
    let (port, server) = serve(|listener| {
        let mut client = accept(&listener);
        let_in(&mut client);
        client.write_all(&transaction(0x100, 1)).unwrap();
        client.write_all(&xlog_data(0x200, 0x200, 0, &[b'I'; 3000])).unwrap();
        statuses(&mut client)
    });
    let output = follow(port, &["--max-message-size", "2000"]);
    assert_eq!(server.join().unwrap().last(), Some(&0x108));
    let line = String::from_utf8(output.stderr).unwrap();
    assert_eq!((output.status.code(), line.lines().count()), (Some(7), 1));
    assert!(line.contains("--max-message-size") && line.contains("2000"));
}

#[test]
fn a_publication_that_is_not_there() {
    let (port, server) = serve(|listener| {
        let mut client = accept(&listener);
        authenticate(&mut client);
        let text = query(&mut client);
        answer(&mut client, &[b"Q"]);
        text
    });
    let output = follow(port, &["--create-slot", "--start"]);
    assert!(server.join().unwrap().starts_with("SELECT pubname"));
    let line = String::from_utf8(output.stderr).unwrap();
    assert_eq!((output.status.code(), line.lines().count()), (Some(1), 1));
    assert!(line.contains("no publication P"), "{line}");
}

#[test]
fn failures_have_one_line() {
    let (port, server) = serve(|listener| {
        let mut client = accept(&listener);
        startup(&mut client);
        client.write_all(&message(b'R', &[0, 0, 0, 7])).unwrap();
    });
    for (output, status, part) in
        [(follow(port, &[]), 1, "GSSAPI (Kerberos)"), (follow(1, &[]), 1, "cannot connect"), (follow(1, &["--status-interval", "x"]), 2, "seconds")]
    {
        let line = String::from_utf8(output.stderr).unwrap();
        assert_eq!((output.status.code(), line.lines().count()), (Some(status), 1), "{line}");
        assert!(line.starts_with("follow: ") && line.contains(part), "{line}");
    }
    server.join().unwrap();
}

// `follow` with the redirections of a shell, with a server that lets in one client and plays its part.
fn redirected(port: u16, redirection: &str) -> Output {
    let line = format!("exec \"$0\" -h 127.0.0.1 -p {port} -U me -d db -S s --publication P -s 0.01 {redirection}");
    let mut command = Command::new("sh");
    command.args(["-c", &line, env!("CARGO_BIN_EXE_follow")]).env("PGPASSWORD", "geheim").env("PGREQUIREAUTH", "password");
    command.stdin(Stdio::null()).output().expect("follow runs")
}

#[test]
fn a_closed_descriptor_ends_before_anything_is_opened() {
    let listener = TcpListener::bind("127.0.0.1:0").unwrap();
    let port = listener.local_addr().unwrap().port();
    for (redirection, part) in [
        (">&-", "standard output is closed"),
        ("<&-", "standard input is closed"),
        ("1< /dev/null", "standard output cannot be written"),
        (">&- <&-", "is closed"),
        ("2>&-", ""),
        ("2< /dev/null", ""),
        (">&- 2>&-", ""),
        ("--help >&-", "standard output is closed"),
    ] {
        let output = redirected(port, redirection);
        let line = String::from_utf8(output.stderr).unwrap();
        assert_eq!((output.status.code(), output.stdout.len()), (Some(2), 0), "{redirection}: {line}");
        assert_eq!(line.lines().count(), usize::from(!part.is_empty()), "{redirection}: {line}");
        assert!(line.contains(part), "{redirection}: {line}");
    }
    listener.set_nonblocking(true).unwrap();
    assert!(listener.accept().is_err(), "follow connected");
    // Descriptors that are open for writing are taken as they are, /dev/null too.
    drop(listener);
    for redirection in ["> /dev/null", "1<> /dev/null", "< /dev/null > /dev/null"] {
        let output = redirected(port, redirection);
        let line = String::from_utf8(output.stderr).unwrap();
        assert!(line.contains("cannot connect") && output.status.code() == Some(1), "{redirection}: {line}");
    }
}

// The positions that the client confirms until its Terminate or its end.
fn confirmed(client: &mut TcpStream) -> Vec<u64> {
    let mut positions = Vec::new();
    let mut header = [0; 5];
    while client.read_exact(&mut header).is_ok() && header[0] != b'X' {
        let mut payload = vec![0; u32::from_be_bytes(header[1..].try_into().unwrap()) as usize - 4];
        client.read_exact(&mut payload).expect("a whole message");
        if header[0] == b'd' {
            positions.push(u64::from_be_bytes(payload[9..17].try_into().unwrap()));
        }
    }
    assert!(!positions.is_empty(), "a stream begins with a status");
    positions
}

#[test]
fn a_full_disk_confirms_nothing() {
    let (port, server) = serve(|listener| {
        let mut client = accept(&listener);
        let_in(&mut client);
        client.write_all(&transaction(0x100, 1)).unwrap();
        client.write_all(&keepalive(0x300, 0, 1)).unwrap();
        confirmed(&mut client)
    });
    let output = redirected(port, "> /dev/full");
    let line = String::from_utf8(output.stderr).unwrap();
    assert_eq!((output.status.code(), line.lines().count()), (Some(1), 1), "{line}");
    assert!(line.contains("cannot write to standard output"), "{line}");
    assert!(server.join().unwrap().iter().all(|p| *p == 0));
}

#[test]
fn a_reader_that_ends_midway_is_confirmed_no_further() {
    let (told, tell) = std::sync::mpsc::channel();
    let (port, server) = serve(move |listener| {
        let mut client = accept(&listener);
        let_in(&mut client);
        client.write_all(&transaction(0x100, 1)).unwrap();
        // The reader has ended before the rest is sent.
        tell.recv().unwrap();
        for at in 2..200 {
            client.write_all(&transaction(0x100 * at, at as u32)).unwrap();
        }
        client.write_all(&keepalive(0x10_0000, 0, 1)).unwrap();
        confirmed(&mut client)
    });
    let mut command = command(port, &["--publication", "P", "-s", "0.01"]);
    let mut follow = command.stdout(Stdio::piped()).stderr(Stdio::piped()).spawn().unwrap();
    let mut pipe = follow.stdout.take().unwrap();
    let mut printed = Vec::new();
    while !printed.ends_with(b"commit 0/100 end 0/108 at 2000-01-01T00:00:00.000000Z\n") {
        let mut byte = [0];
        pipe.read_exact(&mut byte).unwrap();
        printed.extend(byte);
    }
    drop(pipe);
    told.send(()).unwrap();
    let output = follow.wait_with_output().unwrap();
    let line = String::from_utf8(output.stderr).unwrap();
    assert_eq!((output.status.code(), line.lines().count()), (Some(1), 1), "{line}");
    assert!(line.contains("cannot write to standard output"), "{line}");
    let positions = server.join().unwrap();
    assert!(positions.iter().all(|p| *p <= 0x108), "{positions:x?}");
}

#[test]
fn the_page_of_the_present_run() {
    let (go, wait) = std::sync::mpsc::channel();
    let (port, server) = serve(move |listener| {
        let mut client = accept(&listener);
        let_in(&mut client);
        client.write_all(&transaction(0x100, 1)).unwrap();
        client.write_all(&keepalive(0x300, 0, 0)).unwrap();
        // Silent until the pages are read.
        wait.recv().unwrap();
        client.write_all(&transaction(0x400, 2)).unwrap();
        statuses(&mut client)
    });
    let mut command = command(port, &["--publication", "P", "--keepalives", "--endpos", "0/408"]);
    let mut follow = command.stdout(Stdio::piped()).stderr(Stdio::piped()).spawn().unwrap();
    let (mut printed, mut told) = (follow.stdout.take().unwrap(), follow.stderr.take().unwrap());
    // The keepalive is the fourth line: the run waits for the server then.
    lines(&mut printed, 4);
    for _ in 0..2 {
        signal(follow.id(), "USR1");
        let page = lines(&mut told, 6);
        assert!(page.iter().all(|line| line.len() == 32), "{page:?}");
        let labels: Vec<&str> = page.iter().map(|line| line[..12].trim_end()).collect();
        assert_eq!(labels, ["POSITION", "SENT", "SERVER", "EVENTS", "STALLS", "STATE"]);
        assert_eq!(page[2], format!("{:<12}{:>20}", "SERVER", "0/300"));
        assert_eq!(page[3], format!("{:<12}{:>20}", "EVENTS", 4));
    }
    go.send(()).unwrap();
    assert_eq!(lines(&mut printed, 4).len(), 4);
    assert_eq!((follow.wait().unwrap().code(), server.join().unwrap().last()), (Some(0), Some(&0x408)));
    let mut rest = String::new();
    told.read_to_string(&mut rest).unwrap();
    assert_eq!(rest, "");
}

// A folder of the test's own, and a file in it.
fn file(name: &str) -> (std::path::PathBuf, String) {
    let folder = std::env::temp_dir().join(format!("follow_{}_{name}", std::process::id()));
    let _ = std::fs::remove_dir_all(&folder);
    std::fs::create_dir(&folder).unwrap();
    let file = folder.join("out").to_str().unwrap().to_string();
    (folder, file)
}

fn lines_of(file: &str) -> Vec<String> {
    std::fs::read_to_string(file).unwrap_or_default().lines().map(String::from).collect()
}

// Where no more fits, what is left in the file is what was confirmed, and the next run goes on from there.
#[test]
fn a_file_that_cannot_grow_keeps_whole_transactions() {
    let (folder, file) = file("limit");
    let send = |listener: TcpListener, from: u64| {
        let (mut client, _) = listener.accept().unwrap();
        let_in(&mut client);
        for at in from..100 {
            let _ = client.write_all(&transaction(0x100 * at, at as u32));
            // The first ones are batches of their own.
            if at < 10 {
                thread::sleep(std::time::Duration::from_millis(20));
            }
        }
        confirmed(&mut client).into_iter().max()
    };
    for interval in ["0", "0.01"] {
        let _ = std::fs::remove_file(&file);
        let _ = std::fs::remove_file(format!("{file}.state"));
        let (port, server) = serve(move |listener| send(listener, 1));
        let line = format!("ulimit -f 4; exec \"$0\" -h 127.0.0.1 -p {port} -U me -d db -S s --publication P -s 0.01 -f {file} -F {interval}");
        let mut command = Command::new("sh");
        command.args(["-c", &line, env!("CARGO_BIN_EXE_follow")]).env("PGPASSWORD", "geheim").env("PGREQUIREAUTH", "password").stdin(Stdio::null());
        let output = command.output().expect("follow runs");
        let line = String::from_utf8(output.stderr).unwrap();
        assert_eq!((output.status.code(), line.lines().count(), output.stdout.len()), (Some(1), 1, 0), "{line}");
        assert!(line.contains(&format!("cannot write to {file}: ")) && line.contains("not confirmed"), "{line}");
        let text = std::fs::read_to_string(&file).unwrap();
        let last = server.join().unwrap().unwrap();
        assert!(last > 0x108 && text.ends_with(&format!("end 0/{last:X} at 2000-01-01T00:00:00.000000Z\n")), "{last:x}, {text}");
        let (port, server) = serve(move |listener| send(listener, last / 0x100 + 1));
        let output = follow(port, &["-f", &file, "--endpos", "0/6308"]);
        assert_eq!((output.status.code(), server.join().unwrap()), (Some(0), Some(0x6308)));
        let commits: Vec<String> = lines_of(&file).into_iter().filter(|line| line.starts_with("commit")).collect();
        let all: Vec<String> = (1..100).map(|at| format!("commit 0/{at:X}00 end 0/{at:X}08 at 2000-01-01T00:00:00.000000Z")).collect();
        assert_eq!((commits, lines_of(&file).len()), (all, 298));
    }
    std::fs::remove_dir_all(folder).unwrap();
}

#[test]
fn sighup_opens_the_file_again() {
    let (folder, file) = file("again");
    let (go, wait) = std::sync::mpsc::channel();
    let (port, server) = serve(move |listener| {
        let (mut client, _) = listener.accept().unwrap();
        let_in(&mut client);
        client.write_all(&transaction(0x100, 1)).unwrap();
        wait.recv().unwrap();
        client.write_all(&transaction(0x200, 2)).unwrap();
        statuses(&mut client)
    });
    let mut command = Command::new(env!("CARGO_BIN_EXE_follow"));
    let port = port.to_string();
    command.args(["-h", "127.0.0.1", "-p", &port, "-U", "me", "-d", "db", "-S", "s", "--publication", "P", "--endpos", "0/208", "-f", &file]);
    let mut follow =
        command.env("PGPASSWORD", "geheim").env("PGREQUIREAUTH", "password").stdin(Stdio::null()).stdout(Stdio::piped()).spawn().unwrap();
    let moved = format!("{file}.1");
    let until = |lines: usize, file: &str| {
        (0..2000).any(|_| {
            lines_of(file).len() == lines || {
                thread::sleep(std::time::Duration::from_millis(5));
                false
            }
        })
    };
    assert!(until(3, &file));
    std::fs::rename(&file, &moved).unwrap();
    signal(follow.id(), "HUP");
    assert!((0..2000).any(|_| std::path::Path::new(&file).exists() || {
        thread::sleep(std::time::Duration::from_millis(5));
        false
    }));
    go.send(()).unwrap();
    assert_eq!((follow.wait().unwrap().code(), server.join().unwrap().last()), (Some(0), Some(&0x208)));
    assert_eq!((lines_of(&moved).len(), lines_of(&file).len()), (3, 4));
    assert!(lines_of(&file)[0].starts_with("begin 2 "));
    std::fs::remove_dir_all(folder).unwrap();
}

// A transaction, and the first bytes of a message whose rest does not come.
fn within_a_message() -> Vec<u8> {
    let mut bytes = transaction(0x100, 1);
    bytes.extend(&transaction(0x200, 2)[..20]);
    bytes
}

#[test]
fn a_stop_within_a_message_confirms_what_was_printed() {
    let (port, server) = serve(|listener| {
        let mut client = accept(&listener);
        let_in(&mut client);
        client.write_all(&within_a_message()).unwrap();
        let mut positions = Vec::new();
        while let (b'd', body) = receive(&mut client) {
            positions.push(status(&body));
        }
        positions
    });
    let mut follow = command(port, &["--publication", "P"]).stdout(Stdio::piped()).stderr(Stdio::piped()).spawn().unwrap();
    lines(follow.stdout.as_mut().unwrap(), 3);
    thread::sleep(std::time::Duration::from_millis(50));
    signal(follow.id(), "INT");
    assert_eq!(server.join().unwrap().last(), Some(&0x108));
    assert_eq!(follow.wait_with_output().unwrap().status.code(), Some(0));
}

#[test]
fn statuses_are_sent_within_a_message_too() {
    let (port, server) = serve(|listener| {
        let mut client = accept(&listener);
        let_in(&mut client);
        client.write_all(&within_a_message()).unwrap();
        let mut count = 0;
        while count < 5 {
            let (tag, body) = receive(&mut client);
            assert_eq!(tag, b'd');
            count += u32::from(status(&body) == 0x108);
        }
        count
    });
    let output = follow(port, &["-s", "0.05", "-n"]);
    assert_eq!((server.join().unwrap(), output.status.code()), (5, Some(1)));
}

#[test]
fn nothing_is_printed_after_the_end() {
    let (port, server) = serve(|listener| {
        let mut client = accept(&listener);
        let_in(&mut client);
        client.write_all(&[transaction(0x100, 1), keepalive(0x300, 0, 0), transaction(0x400, 2)].concat()).unwrap();
        while !matches!(receive(&mut client), (b'X', _)) {}
    });
    let output = follow(port, &["--endpos", "0/200"]);
    server.join().unwrap();
    assert_eq!((output.status.code(), kinds(&output)), (Some(0), ["begin", "data", "commit", "stopped"].map(String::from).to_vec()));
}

#[test]
fn a_stream_that_did_not_begin_again_is_not_told() {
    let (port, server) = serve(|listener| {
        let mut client = accept(&listener);
        let_in(&mut client);
        client.write_all(&transaction(0x100, 1)).unwrap();
        drop(client);
        for _ in 0..2 {
            let mut client = accept(&listener);
            authenticate(&mut client);
            query(&mut client);
            refuse(&mut client, &error("55006", "replication slot \"s\" is active for PID 1"));
        }
        let mut client = accept(&listener);
        let_in(&mut client);
        client.write_all(&transaction(0x200, 2)).unwrap();
        statuses(&mut client)
    });
    let output = follow(port, &["--endpos", "0/208"]);
    server.join().unwrap();
    let resumed = kinds(&output).iter().filter(|kind| *kind == "resumed").count();
    assert_eq!((output.status.code(), resumed), (Some(0), 1));
}

#[test]
fn the_end_waits_for_a_slow_reader() {
    let (port, server) = serve(|listener| {
        let mut client = accept(&listener);
        let_in(&mut client);
        let large = [&b"I\0\0\0\x07N\0\x01t\0\x02\0\0"[..], &[b'x'; 131_072]].concat();
        client.write_all(&transaction_of(0x100, 1, &[&large[..]; 6])).unwrap();
        client.write_all(&keepalive(0x300, 0, 0)).unwrap();
        while !matches!(receive(&mut client), (b'X', _)) {}
    });
    let arguments = ["--publication", "P", "--endpos", "0/300"];
    let mut follow = command(port, &arguments).stdout(Stdio::piped()).stderr(Stdio::piped()).spawn().unwrap();
    // Longer than a stop would wait.
    thread::sleep(std::time::Duration::from_millis(7_000));
    let mut text = String::new();
    follow.stdout.as_mut().unwrap().read_to_string(&mut text).unwrap();
    server.join().unwrap();
    assert_eq!((follow.wait().unwrap().code(), text.lines().count()), (Some(0), 9));
}

// A keepalive moves what is confirmed only with --ack-idle, and only behind what is acknowledged.
#[test]
fn idle_keepalives_count_once_all_is_acknowledged() {
    for (option, expected) in [(&[][..], 0x108), (&["--ack-idle"], 0x500)] {
        let (port, server) = serve(|listener| {
            let mut client = accept(&listener);
            let_in(&mut client);
            client.write_all(&[transaction(0x100, 1), keepalive(0x400, 0, 0)].concat()).unwrap();
            let mut positions = Vec::new();
            loop {
                match receive(&mut client) {
                    (b'd', body) => positions.push(status(&body)),
                    _ => return positions,
                }
                if positions.last() == Some(&0x108) || positions.last() == Some(&0x400) {
                    client.write_all(&keepalive(0x500, 0, 1)).unwrap();
                }
            }
        });
        let arguments = [&["--publication", "P", "--ack", "-s", "0.05"][..], option].concat();
        let mut follow = command(port, &arguments).stdin(Stdio::piped()).stdout(Stdio::piped()).stderr(Stdio::null()).spawn().unwrap();
        lines(follow.stdout.as_mut().unwrap(), 3);
        thread::sleep(std::time::Duration::from_millis(200));
        follow.stdin.as_mut().unwrap().write_all(b"0/108\n").unwrap();
        thread::sleep(std::time::Duration::from_millis(400));
        signal(follow.id(), "TERM");
        let positions = server.join().unwrap();
        assert_eq!(follow.wait().unwrap().code(), Some(0));
        assert_eq!((positions[0], positions.last()), (0, Some(&expected)), "{positions:?}");
    }
}

// A slot that is confirmed up to here.
fn slot_at(confirmed: &str) -> Vec<u8> {
    format!("logical\n\nreserved\n{confirmed}\nfalse\n60000\npgoutput\n").into_bytes()
}

// What the server says of itself and of the slot, after it has sent a transaction that ends at 0/108.
const OTHERS: [(&str, [&str; 3], &str); 5] = [
    ("0/108", ["7000000000000000002", "1", "F/0"], "this is another server: its system identifier is 7000000000000000002"),
    ("0/108", ["7000000000000000001", "2", "F/0"], "the server is on timeline 2, and was on 1"),
    ("0/50", ["7000000000000000001", "1", "0/107"], "the server's log ends at 0/107, before 0/108"),
    ("0/109", ["7000000000000000001", "1", "F/0"], "slot s is confirmed up to 0/109, beyond 0/108"),
    ("", ["7000000000000000001", "1", "F/0"], "has no replication slot s; --create-slot makes it, but changes after 0/108"),
];

// Answers what is asked before a stream that will not be; a slot that is confirmed nowhere is not there.
fn stands(client: &mut TcpStream, confirmed: &str, system: [&str; 3]) {
    authenticate(client);
    loop {
        let text = query(client);
        match (text.as_str(), confirmed) {
            ("IDENTIFY_SYSTEM", _) => return identify(client, system),
            (slot, "") if slot.starts_with("SELECT pg_catalog.concat_ws") => return answer(client, &[]),
            (slot, _) if slot.starts_with("SELECT pg_catalog.concat_ws") => answer(client, &[&slot_at(confirmed)]),
            _ => answer(client, &[b"P"]),
        }
    }
}

#[test]
fn a_gap_within_a_run_ends_it() {
    for (confirmed, system, part) in OTHERS {
        let (port, server) = serve(move |listener| {
            let mut client = accept(&listener);
            let_in(&mut client);
            client.write_all(&transaction(0x100, 1)).unwrap();
            drop(client);
            let mut client = accept(&listener);
            stands(&mut client, confirmed, system);
            // No stream is asked for, and nothing is confirmed.
            assert!([0, 5].contains(&client.read(&mut [0; 100]).unwrap_or(0)));
        });
        let output = follow(port, &[]);
        server.join().unwrap();
        let told = String::from_utf8(output.stderr).unwrap();
        assert!(output.status.code() == Some(1) && told.lines().count() == 2 && told.contains(part), "{told}");
        assert!(told.contains("--accept-gap"), "{told}");
    }
}

#[test]
fn a_gap_between_runs_ends_the_next_and_is_accepted() {
    for (confirmed, system, part) in OTHERS {
        let (folder, file) = file(&format!("gap_{}_{}_{}", confirmed.replace('/', ""), system[1], system[2].replace('/', "")));
        let (port, server) = serve(|listener| {
            let mut client = accept(&listener);
            let_in(&mut client);
            client.write_all(&transaction(0x100, 1)).unwrap();
            statuses(&mut client);
        });
        assert_eq!(follow(port, &["-f", &file, "-E", "0/108"]).status.code(), Some(0));
        server.join().unwrap();
        let before = lines_of(&file);
        let (port, server) = serve(move |listener| {
            stands(&mut accept(&listener), confirmed, system);
        });
        let output = follow(port, &["-f", &file, "-n"]);
        server.join().unwrap();
        assert!(output.status.code() == Some(1) && line(&output).contains(part), "{output:?}");
        assert_eq!(lines_of(&file), before);
        if confirmed.is_empty() {
            continue;
        }
        let (port, server) = serve(move |listener| {
            let mut client = accept(&listener);
            authenticate(&mut client);
            let text = asked_of(&mut client, &slot_at(confirmed), system);
            client.write_all(&message(b'W', &[0; 3])).unwrap();
            client.write_all(&transaction(0x200, 2)).unwrap();
            (text, statuses(&mut client))
        });
        let output = follow(port, &["-f", &file, "-E", "0/208", "--accept-gap"]);
        let (text, positions) = server.join().unwrap();
        assert_eq!(output.status.code(), Some(0), "{output:?}");
        assert!(text.contains(&format!("LOGICAL {confirmed} ")), "{text}");
        let first = u64::from_str_radix(confirmed.strip_prefix("0/").unwrap(), 16).unwrap();
        assert_eq!((positions[0], positions.last()), (first, Some(&0x208)));
        let gap = &lines_of(&file)[before.len()];
        assert!(gap.starts_with(&format!("gap done 0/108 from {confirmed} \"")), "{gap}");
        std::fs::remove_dir_all(folder).unwrap();
    }
}

// A file goes on from its own position, whatever the slot has forgotten.
#[test]
fn a_file_goes_on_where_it_stands() {
    let (folder, file) = file("goes_on");
    for at in 1..4u64 {
        let (port, server) = serve(move |listener| {
            let mut client = accept(&listener);
            let text = let_in(&mut client);
            client.write_all(&transaction(0x100 * at, at as u32)).unwrap();
            (text, statuses(&mut client))
        });
        assert_eq!(follow(port, &["-f", &file, "-E", &format!("0/{at}08")]).status.code(), Some(0));
        let (text, positions) = server.join().unwrap();
        let from = if at == 1 { "0/0".to_string() } else { format!("0/{}08", at - 1) };
        assert!(text.contains(&format!("LOGICAL {from} ")) && positions.last() == Some(&(0x100 * at + 8)), "{text}");
    }
    let commits = lines_of(&file).iter().filter(|line| line.starts_with("commit")).count();
    assert_eq!((commits, lines_of(&file).len()), (3, 12));
    std::fs::remove_dir_all(folder).unwrap();
}

// Whether a status asks for an answer.
fn asks(body: &[u8]) -> bool {
    status(body);
    body[33] == 1
}

// At half the time the server is asked, and one that answers is kept; one that is silent for all of it is given up.
#[test]
fn a_silent_server_is_asked_and_then_given_up() {
    let (port, server) = serve(|listener| {
        let mut client = accept(&listener);
        let_in(&mut client);
        client.write_all(&transaction(0x100, 1)).unwrap();
        for _ in 0..2 {
            while !asks(&receive(&mut client).1) {}
            client.write_all(&keepalive(0x108, 0, 0)).unwrap();
        }
        let begun = std::time::Instant::now();
        while !asks(&receive(&mut client).1) {}
        let asked = begun.elapsed().as_millis();
        let _ = client.read_to_end(&mut Vec::new());
        let ended = begun.elapsed().as_millis();
        let mut client = accept(&listener);
        let_in(&mut client);
        client.write_all(&transaction(0x200, 2)).unwrap();
        statuses(&mut client);
        (asked, ended)
    });
    let output = follow(port, &["--server-timeout", "1", "-E", "0/208"]);
    let (asked, ended) = server.join().unwrap();
    let told = String::from_utf8(output.stderr).unwrap();
    assert!(asked >= 450 && ended >= 950, "{asked} {ended}");
    assert!(output.status.code() == Some(0) && told.contains("the server has sent nothing for 1 s (--server-timeout); again from 0/108"), "{told}");
}

#[test]
fn a_server_that_is_silent_before_the_stream() {
    for queries in [false, true] {
        let (port, server) = serve(move |listener| {
            let mut client = accept(&listener);
            if queries {
                authenticate(&mut client);
            }
            let _ = client.read_to_end(&mut Vec::new());
        });
        let output = follow(port, &["--server-timeout", "0.5", "-n"]);
        server.join().unwrap();
        let line = line(&output);
        assert!(output.status.code() == Some(1) && line.contains("did not answer within connect_timeout or --server-timeout"), "{line}");
    }
}

// A server that starts, and a slot that is still held by one that was killed.
#[test]
fn the_first_connection_is_tried_again() {
    let (port, server) = serve(|listener| {
        for _ in 0..2 {
            let mut client = accept(&listener);
            startup(&mut client);
            client.write_all(&message(b'E', &error("57P03", "the database system is starting up"))).unwrap();
        }
        let mut client = accept(&listener);
        authenticate(&mut client);
        query(&mut client);
        answer(&mut client, &[b"P"]);
        query(&mut client);
        answer(&mut client, &[b"logical\n4711\nreserved\n0/0\nfalse\n60000\npgoutput\n"]);
        let mut client = accept(&listener);
        let_in(&mut client);
        client.write_all(&transaction(0x100, 1)).unwrap();
        statuses(&mut client);
    });
    let output = follow(port, &["-E", "0/108"]);
    server.join().unwrap();
    let told = String::from_utf8_lossy(&output.stderr).into_owned();
    let ends = ["again from where the slot stands in 50 ms", "in 100 ms", "in 200 ms"];
    assert!(told.lines().count() == 3 && told.lines().zip(ends).all(|(line, end)| line.ends_with(end)), "{told}");
    assert_eq!((output.status.code(), kinds(&output).len()), (Some(0), 4));
}

#[test]
fn signals_while_the_server_is_away() {
    let (folder, file) = file("away");
    let (connected, is_connected) = std::sync::mpsc::channel();
    let (port, server) = serve(move |listener| {
        let mut client = accept(&listener);
        startup(&mut client);
        client.write_all(&message(b'E', &error("57P03", "the database system is starting up"))).unwrap();
        // The next connection is open, and says nothing.
        let mut client = accept(&listener);
        connected.send(()).unwrap();
        let _ = client.read_to_end(&mut Vec::new());
    });
    let mut follow = command(port, &["--publication", "P", "-f", &file]).stderr(Stdio::piped()).spawn().unwrap();
    let mut told = follow.stderr.take().unwrap();
    assert!(lines(&mut told, 1)[0].contains("57P03"));
    is_connected.recv().unwrap();
    signal(follow.id(), "USR1");
    let page = lines(&mut told, 6);
    assert_eq!((page[0].as_str(), page[5].as_str()), ("POSITION                     0/0", "STATE                 CONNECTING"));
    std::fs::rename(&file, format!("{file}.1")).unwrap();
    signal(follow.id(), "HUP");
    let begun = std::time::Instant::now();
    while !std::path::Path::new(&file).exists() {
        assert!(begun.elapsed().as_secs() < 20, "the file is not opened again");
        thread::sleep(std::time::Duration::from_millis(5));
    }
    signal(follow.id(), "TERM");
    assert_eq!(follow.wait().unwrap().code(), Some(0));
    server.join().unwrap();
    std::fs::remove_dir_all(folder).unwrap();
}
