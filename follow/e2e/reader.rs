//! reader SLOW: copies standard input to standard output; slowly while the file SLOW is there, so that the queue before it stays full.
use std::io::{self, Read, Write};
use std::time::Duration;
use std::{env, path::PathBuf, thread};

fn main() -> io::Result<()> {
    let slow = PathBuf::from(env::args().nth(1).expect("a file's name"));
    let mut buffer = [0; 4096];
    loop {
        let n = io::stdin().read(&mut buffer)?;
        if n == 0 {
            return Ok(());
        }
        let mut out = io::stdout().lock();
        out.write_all(&buffer[..n])?;
        out.flush()?;
        if slow.exists() {
            thread::sleep(Duration::from_millis(10));
        }
    }
}
