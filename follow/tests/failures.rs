//! What `follow` says when it goes wrong, what it confirms then, and how it ends.
mod server;

use server::*;
use std::io::{Read, Write};
use std::net::TcpStream;
use std::process::{Command, Output, Stdio};

// Nothing but the end of the connection comes from the client.
fn ended(client: &mut TcpStream) {
    let mut rest = Vec::new();
    let _ = client.read_to_end(&mut rest);
    assert!(rest.is_empty() || rest == [b'X', 0, 0, 0, 4], "{rest:?}");
}

// `follow` with one query answered by a server that has the error.
fn refused(arguments: &'static [&str], error: Vec<u8>) -> (String, Output) {
    let (port, server) = serve(move |listener| {
        let mut client = accept(&listener);
        authenticate(&mut client);
        let text = asked(&mut client, SLOT);
        refuse(&mut client, &error);
        ended(&mut client);
        text
    });
    let output = command(port, arguments).output().unwrap();
    (server.join().unwrap(), output)
}

#[test]
fn a_slot_is_made_or_dropped_and_that_is_all() {
    for (arguments, asked) in [
        (&["--create-slot"][..], "CREATE_REPLICATION_SLOT s LOGICAL pgoutput NOEXPORT_SNAPSHOT"),
        (&["--create-slot", "--if-not-exists", "--publication", "P"], "CREATE_REPLICATION_SLOT s LOGICAL pgoutput NOEXPORT_SNAPSHOT"),
        (&["--drop-slot"], "DROP_REPLICATION_SLOT s"),
    ] {
        let (port, server) = serve(|listener| {
            let mut client = accept(&listener);
            authenticate(&mut client);
            let text = query(&mut client);
            answer(&mut client, &[b"s"]);
            ended(&mut client);
            text
        });
        let output = command(port, arguments).output().unwrap();
        assert_eq!(server.join().unwrap(), asked);
        assert_eq!((output.status.code(), output.stdout, output.stderr), (Some(0), vec![], vec![]));
    }
}

#[test]
fn a_slot_that_is_there_already() {
    let exists = || error("42710", "replication slot \"s\" already exists");
    let (_, output) = refused(&["--create-slot"], exists());
    assert!(line(&output).ends_with("already exists (SQLSTATE 42710); follow it without --create-slot, or add --if-not-exists"));
    assert_eq!(output.status.code(), Some(1));
    for (slot, status) in
        [(SLOT, 0), (b"logical\n12\nreserved\n0/0\nfalse\n60000\npgoutput\n", 0), (b"logical\n\nreserved\n0/0\nfalse\n60000\nwal2json\n", 1)]
    {
        let (port, server) = serve(move |listener| {
            let mut client = accept(&listener);
            authenticate(&mut client);
            query(&mut client);
            refuse(&mut client, &exists());
            let text = query(&mut client);
            answer(&mut client, &[slot]);
            ended(&mut client);
            text
        });
        let output = command(port, &["--create-slot", "--if-not-exists"]).output().unwrap();
        assert!(server.join().unwrap().ends_with("FROM pg_catalog.pg_replication_slots s WHERE slot_name = E's'"));
        assert_eq!((output.status.code(), output.stderr.is_empty()), (Some(status), status == 0));
    }
}

#[test]
fn a_slot_that_cannot_be_followed_is_told_before_the_stream() {
    for (row, part) in [
        (&b""[..], "has no replication slot s; --create-slot makes it"),
        (b"physical\n\n\n\n\n\n\n", "slot s is a physical one; name another, or make one with --create-slot"),
        (
            b"logical\n\nreserved\n0/0\nfalse\n60000\nwal2json\n",
            "slot s is one of the plugin wal2json; follow reads pgoutput: name another, or make one",
        ),
        (b"logical\n\nreserved\n0/0\nfalse\n60000\npgoutput\nother\ndb", "slot s is one of the database other db; connect to that with --dbname"),
        (b"logical\n\nlost\n0/0\nfalse\n60000\npgoutput\n", "slot s was invalidated by the server: the server no longer has the changes"),
        (
            b"logical\n4711\nreserved\n0/0\nfalse\n60000\npgoutput\n",
            "PID 4711 on the server; a slot is followed by one connection at a time: end the other",
        ),
        (b"logical\n\nreserved\n0/0\ntrue\n60000\npgoutput\n", "slot s was made with two_phase, and follow would confirm prepared transactions"),
        (b"logical\n4711\nreserved\n0/0\nfalse\n60000\npgoutput\n", "SELECT * FROM pg_stat_activity WHERE pid = 4711 tells whose it is"),
    ] {
        let (port, server) = serve(move |listener| {
            let mut client = accept(&listener);
            authenticate(&mut client);
            query(&mut client);
            answer(&mut client, &[b"P"]);
            query(&mut client);
            answer(&mut client, if row.is_empty() { &[][..] } else { std::slice::from_ref(&row) });
            ended(&mut client);
        });
        let output = follow(port, &["-n"]);
        server.join().unwrap();
        let line = line(&output);
        assert!(output.status.code() == Some(1) && line.contains(part), "{line}");
    }
}

#[test]
fn the_servers_errors_and_what_to_do() {
    for (state, text, part) in [
        ("28P01", "password authentication failed for user \"me\"", "is the password right? -W asks for another"),
        (
            "28000",
            "no pg_hba.conf entry for host \"::1\", user \"me\", database \"db\", no encryption",
            "add a line for it to the server's pg_hba.conf",
        ),
        ("28000", "role \"me\" does not exist", "name another user with --username"),
        ("28000", "SCRAM channel binding check failed", "something between here and the server opens TLS"),
        ("3D000", "database \"db\" does not exist", "name another database with --dbname"),
        ("42501", "must be superuser or replication role to start walsender", "ALTER ROLE name REPLICATION"),
        ("53300", "number of requested standby connections exceeds max_wal_senders (currently 0)", "raise max_wal_senders and restart the server"),
        ("53300", "sorry, too many clients already", "raise max_connections and restart the server"),
        ("57P03", "the database system is starting up", "it takes connections again when that is done"),
    ] {
        let (port, server) = serve(move |listener| {
            let mut client = accept(&listener);
            startup(&mut client);
            refuse(&mut client, &error(state, text));
            ended(&mut client);
        });
        let output = follow(port, &["-n"]);
        server.join().unwrap();
        let line = line(&output);
        assert!(output.status.code() == Some(1) && line.contains(&format!("{text} (SQLSTATE {state})")) && line.contains(part), "{line}");
    }
}

#[test]
fn errors_of_slots_and_streams() {
    const FOLLOW: &[&str] = &["--publication", "P"];
    for (arguments, state, text, part) in [
        (&["--create-slot"][..], "55000", "logical decoding requires wal_level >= logical", "set wal_level = logical in the server's"),
        (&["--create-slot"], "53400", "all replication slots are in use", "raise max_replication_slots and restart the server"),
        (&["--create-slot"], "0A000", "logical decoding cannot be used while in recovery", "follow the primary server"),
        (&["--drop-slot"], "42704", "replication slot \"s\" does not exist", "SELECT slot_name FROM pg_replication_slots"),
        (&["--drop-slot"], "55006", "replication slot \"s\" is active for PID 12", "SELECT * FROM pg_stat_activity WHERE pid = 12 tells"),
        (
            &["--publication", "P", "-n"],
            "55006",
            "replication slot \"s\" is active for PID 12",
            "SELECT * FROM pg_stat_activity WHERE pid = 12 tells",
        ),
        (FOLLOW, "42704", "replication slot \"s\" does not exist", "--create-slot makes it"),
        (FOLLOW, "58P01", "requested WAL segment 000000010000000000000001 has already been removed", "--drop-slot and then --create-slot"),
        (FOLLOW, "55000", "can no longer get changes from replication slot \"s\"", "--drop-slot and then --create-slot"),
        (&["--publication", "P", "-o", "a"], "XX000", "unrecognized pgoutput option: a", "; look at what is given with --option"),
    ] {
        let (_, output) = refused(arguments, error(state, text));
        let line = line(&output);
        assert!(output.status.code() == Some(1) && line.contains(&format!("{text} (SQLSTATE {state})")) && line.contains(part), "{line}");
    }
}

#[test]
fn options_of_the_plugin() {
    let list: &[&str] = &["--publication", "a'\"b", "-o", "messages=false", "-o", "own=it's", "-o", "bare", "-o", "binary", "-o", "A\"=1"];
    let (port, server) = serve(|listener| {
        let mut client = accept(&listener);
        authenticate(&mut client);
        query(&mut client);
        answer(&mut client, &[b"a'\"b"]);
        let text = asked(&mut client, SLOT);
        client.write_all(&message(b'N', &error("01000", "a notice"))).unwrap();
        // The stream's first bytes come with the answer.
        client.write_all(&[message(b'W', &[0; 3]), transaction(0x100, 1)].concat()).unwrap();
        (text, statuses(&mut client))
    });
    let output = command(port, &[list, &["-I", "0/50", "-E", "0/108"]].concat()).output().unwrap();
    let (text, positions) = server.join().unwrap();
    assert_eq!((output.status.code(), kinds(&output).len(), positions.last()), (Some(0), 4, Some(&0x108)));
    let options = r#"publication_names '"a''""b"', binary 'true', "messages" 'false', "own" 'it''s', "bare", "A""" '1'"#;
    assert_eq!(text, format!("START_REPLICATION SLOT s LOGICAL 0/50 (proto_version '1', {options})"));
}

#[test]
fn what_was_printed_before_the_servers_error_is_confirmed() {
    let (port, server) = serve(|listener| {
        let mut client = accept(&listener);
        let_in(&mut client);
        client.write_all(&transaction(0x100, 1)).unwrap();
        refuse(&mut client, &error("42704", "publication \"P\" does not exist"));
        let mut client = accept(&listener);
        authenticate(&mut client);
        let text = query(&mut client);
        answer(&mut client, &[b"(s,0/108)"]);
        text
    });
    let output = follow(port, &[]);
    assert_eq!(server.join().unwrap(), "SELECT pg_catalog.pg_replication_slot_advance(slot_name, greatest('0/108', confirmed_flush_lsn)) FROM pg_catalog.pg_replication_slots WHERE slot_name = E's'");
    assert_eq!((output.status.code(), kinds(&output)), (Some(1), ["begin", "data", "commit"].map(String::from).to_vec()));
    let line = line(&output);
    for part in
        ["So to make it alone does not help", "SELECT pg_replication_slot_advance('s', pg_current_wal_lsn())", "--drop-slot", "skip all changes"]
    {
        assert!(line.contains(part), "{line}");
    }
}

#[test]
fn a_slot_in_use_is_waited_for_after_a_cut() {
    let (port, server) = serve(|listener| {
        let mut client = accept(&listener);
        let_in(&mut client);
        client.write_all(&transaction(0x100, 1)).unwrap();
        drop(client);
        let mut client = accept(&listener);
        authenticate(&mut client);
        query(&mut client);
        refuse(&mut client, &error("55006", "replication slot \"s\" is active for PID 12"));
        let mut client = accept(&listener);
        let_in(&mut client);
        client.write_all(&transaction(0x200, 2)).unwrap();
        statuses(&mut client)
    });
    let output = follow(port, &["-E", "0/208"]);
    assert_eq!((server.join().unwrap().last(), output.status.code()), (Some(&0x208), Some(0)));
    let told = String::from_utf8(output.stderr).unwrap();
    let told: Vec<&str> = told.lines().collect();
    assert_eq!(told[0], "follow: the server closed the connection (refusal 8); again from 0/108 in 50 ms");
    assert!(told.len() == 2 && told[1].contains("active for PID 12") && told[1].ends_with("; again from 0/108 in 100 ms"), "{told:?}");
}

#[test]
fn a_connection_that_ends() {
    for (cut, words) in [(0, "the server closed the connection (refusal 8)"), (3, "the server closed the connection within a message (refusal 9)")] {
        let (port, server) = serve(move |listener| {
            let mut client = accept(&listener);
            let_in(&mut client);
            let bytes = transaction(0x100, 1);
            client.write_all(&bytes[..bytes.len() - cut]).unwrap();
        });
        let output = follow(port, &["--no-loop"]);
        server.join().unwrap();
        assert_eq!((output.status.code(), line(&output)), (Some(1), format!("follow: {words}")));
    }
}

#[test]
fn bytes_that_are_not_the_protocols() {
    let (port, server) = serve(|listener| {
        let mut client = accept(&listener);
        let_in(&mut client);
        client.write_all(&transaction(0x100, 1)).unwrap();
        client.write_all(&message(b'd', b"?")).unwrap();
        statuses(&mut client)
    });
    let output = follow(port, &[]);
    assert_eq!((server.join().unwrap().last(), output.status.code()), (Some(&0x108), Some(13)));
    let line = line(&output);
    assert!(line.contains("not what PostgreSQL's protocol says (refusal 13: a CopyData message of unknown kind)"), "{line}");
}

#[test]
fn a_keepalive_at_the_end_position() {
    let (port, server) = serve(|listener| {
        let mut client = accept(&listener);
        let_in(&mut client);
        let whole = transaction(0x100, 1);
        let (front, back) = whole.split_at(xlog_data(0, 0, 0, &begin(0, 0, 0)).len());
        // Within a transaction it ends nothing.
        client.write_all(&[front, &keepalive(0x300, 0, 0), back, &keepalive(0x380, 0, 0)].concat()).unwrap();
        statuses(&mut client)
    });
    let output = follow(port, &["-E", "0/200"]);
    let told = String::from_utf8(output.stdout.clone()).unwrap();
    assert_eq!((kinds(&output).join(" "), told.lines().last()), ("begin data commit stopped".to_string(), Some("stopped at 0/380")));
    let positions = server.join().unwrap();
    assert_eq!((output.status.code(), output.stderr, positions.last()), (Some(0), vec![], Some(&0x380)));
}

// After a CopyDone a server would first send the rest of the transaction, however long that is.
#[test]
fn a_stop_within_a_transaction_sends_no_copy_done() {
    for whole in [false, true] {
        let (port, server) = serve(move |listener| {
            let mut client = accept(&listener);
            let_in(&mut client);
            let second = transaction(0x200, 2);
            let sent = if whole { second.len() } else { xlog_data(0, 0, 0, &begin(0, 0, 0)).len() };
            client.write_all(&[&transaction(0x100, 1), &second[..sent]].concat()).unwrap();
            let mut said = Vec::new();
            while said.last() != Some(&b'X') {
                said.push(receive(&mut client).0);
            }
            said
        });
        let mut follow = command(port, &["--publication", "P"]).stdout(Stdio::piped()).stderr(Stdio::piped()).spawn().unwrap();
        lines(follow.stdout.as_mut().unwrap(), if whole { 6 } else { 4 });
        signal(follow.id(), "INT");
        let output = follow.wait_with_output().unwrap();
        let said = String::from_utf8(server.join().unwrap()).unwrap();
        assert_eq!((output.status.code(), output.stderr), (Some(0), vec![]));
        assert_eq!((said.ends_with("dX"), said.ends_with("dcX")), (!whole, whole), "{said}");
    }
}

#[test]
fn a_hangup_without_an_output_file_stops() {
    let (port, server) = serve(|listener| {
        let mut client = accept(&listener);
        let_in(&mut client);
        client.write_all(&transaction(0x100, 1)).unwrap();
        statuses(&mut client)
    });
    let mut follow = command(port, &["--publication", "P"]).stdout(Stdio::piped()).stderr(Stdio::piped()).spawn().unwrap();
    lines(follow.stdout.as_mut().unwrap(), 3);
    signal(follow.id(), "HUP");
    let output = follow.wait_with_output().unwrap();
    assert_eq!((output.status.code(), output.stderr, server.join().unwrap().last()), (Some(0), vec![], Some(&0x108)));
}

#[test]
fn acknowledged_positions_alone_are_confirmed() {
    let (port, server) = serve(|listener| {
        let mut client = accept(&listener);
        let_in(&mut client);
        (1..4).for_each(|n| client.write_all(&transaction(0x100 * n, n as u32)).unwrap());
        client.write_all(&keepalive(0x900, 0, 1)).unwrap();
        statuses(&mut client)
    });
    let mut command = command(port, &["--publication", "P", "--ack", "-s", "0.01"]);
    let mut follow = command.stdin(Stdio::piped()).stdout(Stdio::piped()).stderr(Stdio::piped()).spawn().unwrap();
    let (mut printed, mut acks) = (follow.stdout.take().unwrap(), follow.stdin.take().unwrap());
    lines(&mut printed, 9);
    acks.write_all(b"0/108\nwhat\n0/208\n0/999\n").unwrap();
    drop(acks);
    let output = follow.wait_with_output().unwrap();
    let positions = server.join().unwrap();
    assert!(positions.iter().all(|position| [0, 0x108, 0x208].contains(position)), "{positions:x?}");
    assert_eq!((positions.last(), output.status.code()), (Some(&0x208), Some(1)));
    let told = String::from_utf8(output.stderr).unwrap();
    let told: Vec<&str> = told.lines().collect();
    assert!(told.len() == 3 && told[0].contains("\"what\" is no acknowledgement: a line is a position"), "{told:?}");
    assert!(told[1].contains("\"0/999\" is no acknowledgement: nothing beyond 0/308 was printed yet"), "{told:?}");
    assert!(told[2].contains("the acknowledgements ended at 0/208"), "{told:?}");
}

// Nothing listens on the port.
#[test]
fn too_little_memory() {
    let limited = |kilobytes: u32, arguments: &str| {
        let line = format!("ulimit -v {kilobytes}; exec \"$0\" -h 127.0.0.1 -p 1 -U me -S s --publication P {arguments}");
        Command::new("sh").args(["-c", &line, env!("CARGO_BIN_EXE_follow")]).stdin(Stdio::null()).output().unwrap()
    };
    let output = limited(500_000, "");
    assert!(output.status.code() == Some(1) && line(&output).contains("there is no memory for a message of 1073741824 bytes"));
    for kilobytes in (10_000..40_000).step_by(1_000) {
        let output = limited(kilobytes, "--max-message-size 1024");
        let told = String::from_utf8_lossy(&output.stderr).into_owned();
        // 127: the program could not even be loaded.
        assert!([Some(1), Some(127)].contains(&output.status.code()) && told.lines().count() == 1, "{kilobytes}: {told}");
    }
}
