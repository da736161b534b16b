//! What every maker of vectors needs: sums, spellings, and random numbers that are the same in every run.

pub fn sum(bytes: &[u8]) -> u32 {
    bytes.iter().fold(7u32, |h, b| h.wrapping_mul(31).wrapping_add(*b as u32))
}

pub fn hex(bytes: &[u8]) -> String {
    if bytes.is_empty() {
        return "-".to_string();
    }
    bytes.iter().map(|b| format!("{b:02x}")).collect()
}

pub fn display(v: u64) -> String {
    format!("{:X}/{:X}", v >> 32, v & 0xFFFF_FFFF)
}

/// The recorded streams of a real server, in the order of their names.
pub fn stream_files() -> Vec<std::path::PathBuf> {
    let mut names: Vec<_> = std::fs::read_dir("streams").unwrap().map(|e| e.unwrap().path()).collect();
    names.retain(|p| p.extension().is_some_and(|x| x == "bin"));
    names.sort();
    names
}

/// Marsaglia's xorshift.
pub struct Draw(pub u64);

impl Draw {
    pub fn next(&mut self) -> u64 {
        self.0 ^= self.0 << 13;
        self.0 ^= self.0 >> 7;
        self.0 ^= self.0 << 17;
        self.0
    }

    pub fn below(&mut self, n: u64) -> u64 {
        self.next() % n
    }

    pub fn pick<'a, T>(&mut self, from: &'a [T]) -> &'a T {
        &from[self.below(from.len() as u64) as usize]
    }
}
