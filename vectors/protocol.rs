//! The messages, read off the PostgreSQL documentation ("Message Formats", "Streaming Replication Protocol", "Logical Replication Message
//! Formats") and SCOPE 3.

pub fn framed(tag: u8, payload: &[u8]) -> Vec<u8> {
    [&[tag][..], &(payload.len() as u32 + 4).to_be_bytes(), payload].concat()
}

/// A reader of big-endian fields; None where one is cut.
pub struct Fields<'a>(pub &'a [u8]);

impl<'a> Fields<'a> {
    pub fn bytes(&mut self, n: usize) -> Option<&'a [u8]> {
        if self.0.len() < n {
            return None;
        }
        let (head, tail) = self.0.split_at(n);
        self.0 = tail;
        Some(head)
    }

    pub fn number(&mut self, n: usize) -> Option<u64> {
        self.bytes(n).map(|b| b.iter().fold(0, |v, x| v << 8 | *x as u64))
    }
}

// ---- the reader

pub struct Reader {
    limit: usize,
    pub header: Vec<u8>,
    pub got: usize,
    shut: bool,
}

pub enum Told {
    More,
    Whole(u8, usize),
    Refused(u8),
}

impl Reader {
    pub fn new(setting: u64) -> Self {
        Reader { limit: setting.min(1_073_741_824) as usize, header: Vec::new(), got: 0, shut: false }
    }

    /// Takes of the unread bytes what the message lacks; answers and says how many were taken.
    pub fn read(&mut self, unread: &[u8], ended: bool, buffer: &mut [u8]) -> (Told, usize) {
        if buffer.len() < self.limit {
            return (Told::Refused(3), 0);
        }
        if self.shut {
            return (Told::Refused(7), 0);
        }
        let mut taken = 0;
        while self.header.len() < 5 {
            if taken == unread.len() {
                return (if ended && unread.is_empty() { Told::Refused(8) } else { Told::More }, taken);
            }
            self.header.push(unread[taken]);
            taken += 1;
            if self.header.len() == 5 {
                if let Some(refusal) = self.length_refused() {
                    return (Told::Refused(refusal), taken);
                }
            }
        }
        let n = u32::from_be_bytes(self.header[1..].try_into().unwrap()) as usize - 4;
        while self.got < n {
            if taken == unread.len() {
                return (if ended && unread.is_empty() { Told::Refused(9) } else { Told::More }, taken);
            }
            buffer[self.got] = unread[taken];
            self.got += 1;
            taken += 1;
        }
        let tag = self.header[0];
        self.header.clear();
        (Told::Whole(tag, n), taken)
    }

    fn length_refused(&mut self) -> Option<u8> {
        self.got = 0;
        let length = i32::from_be_bytes(self.header[1..].try_into().unwrap()) as i64;
        if length < 4 {
            self.header.clear();
            return Some(6);
        }
        self.shut = length - 4 > self.limit as i64;
        self.shut.then_some(7)
    }
}

// ---- CopyData and boundaries

pub enum CopyData<'a> {
    XLogData { start: u64, end: u64, time: i64, data: &'a [u8] },
    KeepAlive { end: u64, time: i64, reply: bool },
}

pub fn copy_data_of(payload: &[u8]) -> Result<CopyData<'_>, u8> {
    let (letter, rest) = payload.split_first().ok_or(10)?;
    let mut f = Fields(rest);
    match letter {
        b'w' if rest.len() < 24 => Err(11),
        b'w' => {
            let (start, end, time) = (f.number(8).unwrap(), f.number(8).unwrap(), f.number(8).unwrap() as i64);
            Ok(CopyData::XLogData { start, end, time, data: f.0 })
        }
        b'k' if rest.len() < 17 => Err(12),
        b'k' => {
            let (end, time, reply) = (f.number(8).unwrap(), f.number(8).unwrap() as i64, f.number(1).unwrap());
            Ok(CopyData::KeepAlive { end, time, reply: reply != 0 })
        }
        _ => Err(13),
    }
}

pub enum Boundary<'a> {
    None,
    Begin { end: u64, time: i64, xid: u32 },
    Commit { position: u64, end: u64, time: i64 },
    Message { flag: bool, position: u64, prefix: &'a [u8], content: &'a [u8] },
}

pub fn boundary_of(bytes: &[u8]) -> Result<Boundary<'_>, u8> {
    let Some((letter, rest)) = bytes.split_first() else { return Ok(Boundary::None) };
    let mut f = Fields(rest);
    match letter {
        b'B' => {
            let end = f.number(8).ok_or(16)?;
            let time = f.number(8).ok_or(16)? as i64;
            let xid = f.number(4).ok_or(15)? as u32;
            Ok(Boundary::Begin { end, time, xid })
        }
        b'C' => {
            f.number(1).ok_or(14)?;
            let position = f.number(8).ok_or(16)?;
            let end = f.number(8).ok_or(16)?;
            let time = f.number(8).ok_or(16)? as i64;
            Ok(Boundary::Commit { position, end, time })
        }
        b'M' => {
            let flags = f.number(1).ok_or(14)?;
            let position = f.number(8).ok_or(16)?;
            let zero = f.0.iter().position(|b| *b == 0).ok_or(17)?;
            let prefix = f.bytes(zero).unwrap();
            f.bytes(1).unwrap();
            let length = f.number(4).ok_or(15)? as u32 as i32;
            let content = usize::try_from(length).ok().and_then(|n| f.bytes(n)).ok_or(18)?;
            Ok(Boundary::Message { flag: flags & 1 == 1, position, prefix, content })
        }
        _ => Ok(Boundary::None),
    }
}
