//! Texts in lists.

use crate::ffi;
use core::marker::PhantomData;

/// A text in a list that is lent to a call, in the form that the archive reads: so a list needs no copy and no memory of its own.
///
/// ```
/// use rufflesquash::{Lsn, Run, Settings, Text};
///
/// let publications = [Text::from("orders"), Text::new(b"customers")];
/// let mut query = [0; 256];
/// let (run, len) = Run::open(&Settings::default(), b"slot", &publications, Lsn(0), Lsn(0), &mut query)?;
/// assert!(query[..len].ends_with(b"publication_names 'orders,customers', messages 'true')\0"));
/// # Ok::<(), rufflesquash::Refusal>(())
/// ```
#[derive(Clone, Copy)]
#[repr(transparent)]
pub struct Text<'a> {
    bytes: ffi::Bytes,
    lent: PhantomData<&'a [u8]>,
}

impl<'a> Text<'a> {
    /// The text of bytes.
    pub const fn new(text: &'a [u8]) -> Text<'a> {
        Text { bytes: ffi::Bytes { at: text.as_ptr(), len: text.len() }, lent: PhantomData }
    }

    /// How many bytes it has.
    pub const fn len(&self) -> usize {
        self.bytes.len
    }

    /// Whether it has none.
    pub const fn is_empty(&self) -> bool {
        self.bytes.len == 0
    }
}

impl<'a> From<&'a [u8]> for Text<'a> {
    fn from(text: &'a [u8]) -> Text<'a> {
        Text::new(text)
    }
}

impl<'a> From<&'a str> for Text<'a> {
    fn from(text: &'a str) -> Text<'a> {
        Text::new(text.as_bytes())
    }
}
