//! What the sources of `follow` may write to standard error.
use std::fs;
use std::path::{Path, PathBuf};

fn sources(folder: &Path, files: &mut Vec<PathBuf>) {
    for entry in fs::read_dir(folder).unwrap() {
        let path = entry.unwrap().path();
        if path.is_dir() {
            sources(&path, files);
        } else {
            files.push(path);
        }
    }
}

/// `follow` writes to standard error by `tell`, the service page and the status line alone. What it tells of the server's bytes is the text of an
/// ErrorResponse, so no data and no content.
#[test]
fn follow_logs_no_data() {
    let mut files = Vec::new();
    sources(&Path::new(env!("CARGO_MANIFEST_DIR")).join("src"), &mut files);
    let (mut tells, mut errors, mut writers) = (0, 0, Vec::new());
    for path in files {
        let source = fs::read_to_string(&path).unwrap();
        let program = source.split("#[cfg(test)]").next().unwrap();
        for (number, line) in program.lines().map(str::trim).enumerate() {
            let at = format!("{}:{}: {line}", path.display(), number + 1);
            let has = |words: &[&str]| words.iter().any(|word| line.contains(word));
            assert!(!has(&["eprint", "dbg!", "panic!", "STDERR", "File::from_raw_fd"]), "{at}");
            if has(&["stderr()"]) && !has(&["is_terminal()"]) {
                let known = ["\"follow: {line}\"", ".write_all(&page[..n])", r#""\r\x1b[K""#, r#""\r\x1b[K{line}""#];
                assert!(has(&known), "{at}");
                writers.push(at.clone());
            }
            if has(&["tell(", "Failure::"]) && !line.starts_with("pub fn") {
                tells += 1;
                assert!(!has(&["content", ".data", "{data", "prefix", "unread", "{event}", "{event:", "{item"]), "{at}");
                let server = has(&["Failure::server(", "Failure::in_stream("]);
                errors += server as u64;
                assert!(
                    !has(&["payload"]) || server && has(&["message.payload", "self.run.error(self.payload)", "Failure::server(payload)"]),
                    "{at}"
                );
            }
        }
    }
    assert!(writers.len() == 4 && tells > 10 && errors > 5, "{writers:?}, {tells} lines, {errors} errors of the server");
}
