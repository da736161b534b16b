//! What comes from outside, as bytes of any kind: no target panics, and each holds what it says. The files of fuzz/ are tried by every test run;
//! `follow/fuzz/run` looks for others with AFL++.
use crate::ack;
use crate::auth::{Auth, Channel, Step};
use crate::conninfo::tests::Around;
use crate::failure::{is_unsafe, Failure};
use crate::json::Text;
use crate::rows::Relations;
use crate::startup::tests::conninfo;
use crate::state::State;
use std::fs;
use std::io::Read;
use std::path::Path;

type Target = (&'static str, fn(&[u8]));

const TARGETS: [Target; 6] =
    [("conninfo", connection), ("auth", authentication), ("ack", acknowledgements), ("state", state), ("error", error), ("rows", rows)];

// A connection string or a URI: all that is needed to connect, or a line.
fn connection(bytes: &[u8]) {
    let Ok(text) = std::str::from_utf8(bytes) else { return };
    match Around::new("fuzz").resolve(text) {
        Ok(conninfo) => assert!(!conninfo.targets.is_empty() && !conninfo.user.is_empty()),
        Err(failure) => assert!(!failure.line.is_empty() && !failure.to_string().contains('\n')),
    }
}

// Requests of a server, each with its length before it. Nobody is let in who was asked for a proof and gave none.
fn authentication(bytes: &[u8]) {
    let conninfo = conninfo(1);
    for tls in [false, true] {
        let channel = Channel { tls, unix: false, end_point: tls.then(|| vec![7; 32]) };
        let (mut auth, mut rest, mut scram) = (Auth::new(&conninfo, Some(b"geheim"), channel), bytes, false);
        while let Some((len, more)) = rest.split_first() {
            let (request, more) = more.split_at(more.len().min(usize::from(*len)));
            rest = more;
            scram |= request.starts_with(&[0, 0, 0, 10]);
            match auth.request(request) {
                Ok(Step::Done) => {
                    assert!(!scram);
                    break;
                }
                Ok(Step::Send(sent)) => assert!(tls || !sent.windows(6).any(|part| part == b"geheim")),
                Ok(_) => {}
                Err(failure) => {
                    assert!(!failure.line.is_empty());
                    break;
                }
            }
        }
    }
}

fn acknowledgements(bytes: &[u8]) {
    // Nothing beyond what was printed is done.
    assert!(ack::tests::read(bytes, 0x1000).into_iter().all(|done| done.0 <= 0x1000));
}

fn state(bytes: &[u8]) {
    if let Some(state) = std::str::from_utf8(bytes).ok().and_then(State::parse) {
        assert_eq!(state.to_string().as_bytes(), bytes);
    }
}

fn error(bytes: &[u8]) {
    for line in [Failure::server(bytes).to_string(), Failure::in_stream(bytes, "s").to_string()] {
        assert!(line.len() < 20_000 && !line.contains(is_unsafe));
    }
}

// Data of a stream, each with its length before it.
fn rows(bytes: &[u8]) {
    let (mut relations, mut rest) = (Relations::default(), bytes);
    while let Some((len, more)) = rest.split_first() {
        let (data, more) = more.split_at(more.len().min(usize::from(*len)));
        rest = more;
        let mut out = Text::default();
        if let Some(change) = relations.change(data) {
            change.json(&mut out);
            change.text(&mut out);
        }
        assert!(!std::str::from_utf8(out.as_bytes()).unwrap().contains(is_unsafe));
    }
}

// Each file, whole, and with its end and a byte in the middle changed.
#[test]
fn files_of_every_target() {
    for (name, target) in TARGETS {
        let folder = Path::new(env!("CARGO_MANIFEST_DIR")).join("fuzz").join(name);
        let mut tried = 0;
        for entry in fs::read_dir(&folder).unwrap() {
            let bytes = fs::read(entry.unwrap().path()).unwrap();
            target(&bytes);
            for at in (0..bytes.len()).step_by(bytes.len() / 16 + 1) {
                target(&bytes[..at]);
                let mut changed = bytes.clone();
                changed[at] ^= 0x80 >> (at % 8);
                target(&changed);
            }
            tried += 1;
        }
        assert!(tried > 2, "{name}");
    }
}

// For AFL++: FUZZ_TARGET names the target, whose bytes come on standard input.
#[test]
fn from_standard_input() {
    let Ok(wanted) = std::env::var("FUZZ_TARGET") else { return };
    let (_, target) = TARGETS.iter().find(|(name, _)| *name == wanted).expect("a target");
    let mut bytes = Vec::new();
    std::io::stdin().take(65_536).read_to_end(&mut bytes).unwrap();
    target(&bytes);
}
