//! Position texts, read a second time: from 02's wish 6 and from PostgreSQL's documentation of the type pg_lsn, by which a position is two
//! hexadecimal numbers of up to 8 digits each with a slash between them. See README.md beside this file.

/// A number of 1 to 8 hexadecimal digits of either case, and nothing else.
fn number(part: &[u8]) -> Option<u32> {
    let digits: Vec<u32> = part.iter().map(|c| char::from(*c).to_digit(16)).collect::<Option<_>>()?;
    (1..=8).contains(&digits.len()).then(|| digits.iter().fold(0, |n, d| (n << 4) + d))
}

/// The position, or the refusal's number: 22 for no slash, 23 for a bad part before the first slash, else 24 for a bad one after it.
pub fn position_of(text: &[u8]) -> Result<u64, u8> {
    let mut parts = text.splitn(2, |c| *c == b'/');
    let high = parts.next().unwrap_or_default();
    let low = parts.next().ok_or(22u8)?;
    let high = number(high).ok_or(23u8)?;
    let low = number(low).ok_or(24u8)?;
    Ok(u64::from(high) << 32 | u64::from(low))
}
