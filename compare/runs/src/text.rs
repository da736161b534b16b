//! Spellings that scenarios and traces share.

pub use model::{display as position, hex};

pub fn unhex(text: &str) -> Option<Vec<u8>> {
    if text == "-" {
        return Some(Vec::new());
    }
    if text.len() % 2 != 0 || !text.is_ascii() {
        return None;
    }
    (0..text.len()).step_by(2).map(|i| u8::from_str_radix(&text[i..i + 2], 16).ok()).collect()
}

pub fn unposition(text: &str) -> Option<u64> {
    let (high, low) = text.split_once('/')?;
    Some((u32::from_str_radix(high, 16).ok()? as u64) << 32 | u32::from_str_radix(low, 16).ok()? as u64)
}
