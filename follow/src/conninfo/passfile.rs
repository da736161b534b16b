//! The password file: lines of host:port:database:user:password.
use std::fs;
use std::io::ErrorKind;
use std::os::unix::fs::MetadataExt;
use std::path::Path;

/// The file's bytes; none where there is no such file. A file that others can read is not taken, nor one that is no file: the line says so.
pub fn read(file: &Path) -> Result<Option<Vec<u8>>, String> {
    let found = match fs::metadata(file) {
        Ok(found) => found,
        Err(_) => return Ok(None),
    };
    let ignored = |why: &str| Err(format!("the password file {} is ignored: {why}", file.display()));
    if !found.is_file() {
        return ignored("it is not a plain file");
    }
    if found.mode() & 0o077 != 0 {
        return ignored("it has group or world access; its permissions should be u=rw (0600) or less");
    }
    match fs::read(file) {
        Ok(bytes) => Ok(Some(bytes)),
        Err(e) if e.kind() == ErrorKind::NotFound => Ok(None),
        Err(e) => ignored(&e.to_string()),
    }
}

/// The password of the first line that matches host, port, database and user; none where it is empty.
pub fn password(file: &[u8], wanted: [&str; 4]) -> Option<Vec<u8>> {
    let rest = |line| wanted.iter().try_fold(line, |line, value| after(line, value.as_bytes()));
    let lines = file.split(|byte| *byte == b'\n').map(strip).filter(|line| !line.starts_with(b"#") && !line.contains(&0));
    let found = lines.map(rest).find_map(|rest| rest)?;
    let mut password = Vec::new();
    let mut bytes = found.iter().copied().peekable();
    while let Some(byte) = bytes.next() {
        match byte {
            b':' => break,
            b'\\' => password.push(bytes.next().unwrap_or(byte)),
            _ => password.push(byte),
        }
    }
    (!password.is_empty()).then_some(password)
}

fn strip(line: &[u8]) -> &[u8] {
    let end = line.iter().rposition(|byte| *byte != b'\r').map_or(0, |last| last + 1);
    &line[..end]
}

// What comes after the first field, where that is the value or *.
fn after<'a>(line: &'a [u8], value: &[u8]) -> Option<&'a [u8]> {
    if let Some(rest) = line.strip_prefix(b"*:") {
        return Some(rest);
    }
    let mut rest = line;
    for wanted in value {
        rest = rest.strip_prefix(b"\\").unwrap_or(rest).strip_prefix(&[*wanted])?;
    }
    rest.strip_prefix(b":")
}

#[cfg(test)]
mod tests {
    use super::super::tests::Around;
    use super::*;

    #[test]
    fn lines() {
        let file = br"# h:1:d:u:comment
h:1:d:u
h:1:d:u:first
h:1:d:u:second
h:*:d:star:any port
*:*:*:everywhere:x\:y\\z:and more
a\:b:1:d\\e:u:escaped
\h:2:d:u:needless
*x:1:d:u:no star
h:3:d:u:
*:4:*:*:one\";
        for (wanted, expected) in [
            (["h", "1", "d", "u"], Some(&b"first"[..])),
            (["h", "9", "d", "star"], Some(b"any port")),
            (["g", "9", "d", "star"], None),
            (["", "", "", "everywhere"], Some(br"x:y\z")),
            (["a:b", "1", r"d\e", "u"], Some(b"escaped")),
            (["h", "2", "d", "u"], Some(b"needless")),
            (["zx", "1", "d", "u"], None),
            (["*x", "1", "d", "u"], Some(b"no star")),
            (["h", "3", "d", "u"], None),
            (["h", "4", "d", "u"], Some(br"one\")),
            (["hh", "1", "d", "u"], None),
            (["h", "1", "d", "uu"], None),
            (["# h", "1", "d", "u"], None),
        ] {
            assert_eq!(password(file, wanted).as_deref(), expected, "{wanted:?}");
        }
        assert_eq!(password(b"*:*:*:*:p\r\n", [""; 4]), Some(b"p".to_vec()));
        assert_eq!(password(b"*:*:*:*:\xff", [""; 4]), Some(b"\xff".to_vec()));
        assert_eq!(password(b"*:*:*:*:a\0b\n", [""; 4]), None);
        assert_eq!(password(b"", [""; 4]), None);
    }

    #[test]
    fn permissions() {
        let around = Around::new("permissions");
        let path = around.write("p", "*:*:*:*:p", 0o600);
        assert_eq!(read(Path::new(&path)), Ok(Some(b"*:*:*:*:p".to_vec())));
        for mode in [0o640, 0o604, 0o610, 0o601] {
            around.write("p", "*:*:*:*:p", mode);
            let why = "it has group or world access; its permissions should be u=rw (0600) or less";
            assert_eq!(read(Path::new(&path)), Err(format!("the password file {path} is ignored: {why}")), "{mode:o}");
        }
        assert_eq!(read(Path::new("/nowhere/p")), Ok(None));
        assert_eq!(read(Path::new("/dev/null")), Err("the password file /dev/null is ignored: it is not a plain file".into()));
    }
}
