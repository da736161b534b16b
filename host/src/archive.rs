//! Whether the archive that was linked is the one that this crate was made for.

use crate::ffi;
use core::fmt;

/// The archive that was linked has another list of words or functions than this crate.
#[derive(Clone, Copy, Debug, PartialEq, Eq)]
pub struct WrongArchive {
    archive: u64,
}

impl fmt::Display for WrongArchive {
    fn fmt(&self, f: &mut fmt::Formatter<'_>) -> fmt::Result {
        let (ours, archive) = (ffi::ABI, self.archive);
        write!(
            f,
            "libffi_export.a has interface {archive}, this crate {ours}: build it anew with `rt lib` in crates/ffi_export, from the crate's own sources"
        )
    }
}

impl core::error::Error for WrongArchive {}

/// Compares the number of the archive's interface with this crate's. The functions that begin something (a run, a cell, a reader, a query) compare
/// it too, and panic where they differ.
pub fn check_archive() -> Result<(), WrongArchive> {
    compared(ffi::abi())
}

fn compared(archive: u64) -> Result<(), WrongArchive> {
    if archive == ffi::ABI {
        Ok(())
    } else {
        Err(WrongArchive { archive })
    }
}

#[inline]
pub(crate) fn assert_archive() {
    if let Err(wrong) = check_archive() {
        panic!("{wrong}");
    }
}

#[cfg(test)]
mod tests {
    use super::*;
    use std::{format, string::ToString};

    #[test]
    fn a_stale_archive_is_told() {
        assert_eq!(check_archive(), Ok(()));
        for other in [0, ffi::ABI - 1, ffi::ABI + 1, u64::MAX] {
            let line = compared(other).unwrap_err().to_string();
            assert!(
                line.contains(&format!("interface {other}, this crate {}", ffi::ABI)) && line.contains("`rt lib` in crates/ffi_export"),
                "{line}"
            );
        }
    }
}
