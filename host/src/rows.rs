//! The rows in the data of an event: the messages of pgoutput, protocol version 1, that carry relations, types, origins and changes of rows.
//!
//! [`Event::row`](crate::Event::row) reads the row of an event. It is judged to its end once, so that its columns can be gone over without a
//! refusal; everything borrows from the event's data, and nothing is allocated.
//!
//! ```
//! use rufflesquash::rows::{Column, Row};
//!
//! let data = b"I\x00\x00\x40\x01N\x00\x03t\x00\x00\x00\x02ab\x6Eu";
//! let Some(Row::Insert { relation, new }) = Row::parse(data)? else { panic!("an Insert") };
//! assert_eq!((relation, new.len()), (0x4001, 3));
//! assert!(new.columns().eq([Column::Text(b"ab"), Column::Null, Column::Unchanged]));
//! # Ok::<(), rufflesquash::Refusal>(())
//! ```

use crate::ffi;
use crate::types::part;
use crate::{Lsn, Refusal};
use core::fmt;
use core::iter::FusedIterator;

/// A row, or what rows refer to. Identifiers are those of relations and types in the server's database.
#[derive(Clone, Copy, Debug, PartialEq, Eq)]
#[non_exhaustive]
pub enum Row<'a> {
    /// The description of a relation, which the rows that follow refer to.
    Relation(Relation<'a>),
    /// A type that is not one of the server's own.
    Type {
        /// Its identifier.
        id: u32,
        /// Its namespace; empty for `pg_catalog`.
        namespace: &'a [u8],
        /// Its name.
        name: &'a [u8],
    },
    /// The transaction came to the server from another one.
    Origin {
        /// The position of its commit there.
        lsn: Lsn,
        /// The origin's name.
        name: &'a [u8],
    },
    /// A new row.
    Insert {
        /// The relation that has it.
        relation: u32,
        /// Its columns.
        new: Tuple<'a>,
    },
    /// A row was changed.
    Update {
        /// The relation that has it.
        relation: u32,
        /// What it was before, where the server sends that.
        old: Option<Old<'a>>,
        /// What it is now.
        new: Tuple<'a>,
    },
    /// A row was deleted.
    Delete {
        /// The relation that had it.
        relation: u32,
        /// What it was.
        old: Old<'a>,
    },
    /// Relations were emptied.
    Truncate {
        /// Which ones.
        relations: Identifiers<'a>,
        /// 1 for CASCADE, 2 for RESTART IDENTITY, added; other bits are handed on as they were sent.
        options: u8,
    },
}

impl<'a> Row<'a> {
    /// The row that data hold; none where they are a Begin, a Commit or a logical message. What follows the row is not read. Refused: a field is cut
    /// short, or a count or length is negative (26); a letter stands where it may not (27); the first of them in the order of the bytes.
    #[inline]
    pub fn parse(data: &'a [u8]) -> Result<Option<Row<'a>>, Refusal> {
        let (number, words) = ffi::row(data);
        Refusal::checked(number)?;
        Row::of_words(&words, data)
    }

    #[inline]
    pub(crate) fn of_words(words: &[u64; ffi::ROW_WORDS], data: &'a [u8]) -> Result<Option<Row<'a>>, Refusal> {
        let word = |at: usize| words[at];
        let id = word(ffi::ROW_ID) as u32;
        let namespace = || part(data, word(ffi::ROW_NAMESPACE_FROM), word(ffi::ROW_NAMESPACE_LEN));
        let name = || part(data, word(ffi::ROW_NAME_FROM), word(ffi::ROW_NAME_LEN));
        let items = Places::of_words(data, word(ffi::ROW_COUNT), word(ffi::ROW_FROM));
        let old = Places::of_words(data, word(ffi::ROW_OLD_COUNT), word(ffi::ROW_OLD_FROM));
        let old = || Old::of_letter(word(ffi::ROW_BYTE), Tuple(old));
        Ok(Some(match word(ffi::ROW_KIND) {
            ffi::ROW_NONE => return Ok(None),
            ffi::ROW_RELATION => Row::Relation(Relation {
                id,
                namespace: namespace(),
                name: name(),
                replica_identity: word(ffi::ROW_BYTE) as u8,
                columns: Descriptions(items),
            }),
            ffi::ROW_TYPE => Row::Type { id, namespace: namespace(), name: name() },
            ffi::ROW_ORIGIN => Row::Origin { lsn: Lsn(word(ffi::ROW_ID)), name: name() },
            ffi::ROW_INSERT => Row::Insert { relation: id, new: Tuple(items) },
            ffi::ROW_UPDATE => Row::Update { relation: id, old: old()?, new: Tuple(items) },
            ffi::ROW_DELETE => Row::Delete { relation: id, old: old()?.ok_or(Refusal::Unknown)? },
            ffi::ROW_TRUNCATE => Row::Truncate { relations: Identifiers(items), options: word(ffi::ROW_BYTE) as u8 },
            _ => return Err(Refusal::Unknown),
        }))
    }

    /// The columns of the row as it is now, of a Delete as it was; none of a row without a tuple.
    #[inline]
    pub fn columns(&self) -> Columns<'a> {
        match self {
            Row::Insert { new, .. } | Row::Update { new, .. } => new.columns(),
            Row::Delete { old, .. } => old.tuple().columns(),
            _ => Columns(Places { data: &[], left: 0, at: 0 }),
        }
    }
}

/// A relation's description.
#[derive(Clone, Copy, Debug, PartialEq, Eq)]
pub struct Relation<'a> {
    /// Its identifier, by which rows name it.
    pub id: u32,
    /// Its namespace; empty for `pg_catalog`.
    pub namespace: &'a [u8],
    /// Its name.
    pub name: &'a [u8],
    /// Its replica identity, as `relreplident` of `pg_class` has it: `d`, `n`, `f` or `i`.
    pub replica_identity: u8,
    /// Its columns, in the order of a tuple's.
    pub columns: Descriptions<'a>,
}

/// What a row was before it was changed or deleted.
#[derive(Clone, Copy, Debug, PartialEq, Eq)]
pub enum Old<'a> {
    /// The columns of the key; all others are null.
    Key(Tuple<'a>),
    /// All columns, of a relation whose replica identity is full.
    Row(Tuple<'a>),
}

impl<'a> Old<'a> {
    // By the letter before it, which is 0 where there is none. Another letter is not passed over as none.
    #[inline]
    fn of_letter(letter: u64, tuple: Tuple<'a>) -> Result<Option<Old<'a>>, Refusal> {
        match u8::try_from(letter) {
            Ok(0) => Ok(None),
            Ok(b'K') => Ok(Some(Old::Key(tuple))),
            Ok(b'O') => Ok(Some(Old::Row(tuple))),
            _ => Err(Refusal::Unknown),
        }
    }

    /// The tuple, whichever it is.
    #[inline]
    pub fn tuple(self) -> Tuple<'a> {
        match self {
            Old::Key(tuple) | Old::Row(tuple) => tuple,
        }
    }
}

/// A column of a tuple.
#[derive(Clone, Copy, Debug, PartialEq, Eq, Hash)]
pub enum Column<'a> {
    /// The column is null.
    Null,
    /// The column has a value that was not changed and is stored apart, so that it is not sent.
    Unchanged,
    /// The value as text.
    Text(&'a [u8]),
    /// The value in binary format.
    Binary(&'a [u8]),
    /// The column is of a kind that this crate does not know, which is [`Refusal::Unknown`]: the archive is not the one that it was made for.
    Refused(Refusal),
}

impl<'a> Column<'a> {
    // A kind that this crate does not know is no column that may be passed over.
    #[inline]
    fn of_words(words: &[u64; ffi::TUPLE_WORDS], data: &'a [u8]) -> Column<'a> {
        let value = || part(data, words[ffi::TUPLE_FROM], words[ffi::TUPLE_LEN]);
        match words[ffi::TUPLE_KIND] {
            ffi::TUPLE_NULL => Column::Null,
            ffi::TUPLE_UNCHANGED => Column::Unchanged,
            ffi::TUPLE_TEXT => Column::Text(value()),
            ffi::TUPLE_BINARY => Column::Binary(value()),
            _ => Column::Refused(Refusal::Unknown),
        }
    }
}

/// A column of a relation.
#[derive(Clone, Copy, Debug, PartialEq, Eq, Hash)]
pub struct Description<'a> {
    /// 1 where the column belongs to the key; other bits are handed on as they were sent.
    pub flags: u8,
    /// Its name.
    pub name: &'a [u8],
    /// The identifier of its type.
    pub type_oid: u32,
    /// Its type modifier, as `atttypmod` of `pg_attribute` has it.
    pub type_modifier: i32,
}

impl Description<'_> {
    /// Whether the column belongs to the key.
    #[inline]
    pub fn is_key(&self) -> bool {
        self.flags & 1 != 0
    }
}

// So many of something in data, the first of them at a place.
#[derive(Clone, Copy)]
struct Places<'a> {
    data: &'a [u8],
    left: usize,
    at: usize,
}

impl<'a> Places<'a> {
    #[inline]
    fn of_words(data: &'a [u8], left: u64, at: u64) -> Places<'a> {
        Places { data, left: left as usize, at: at as usize }
    }

    // One is read and the place of the next one is kept. From the places that a head names no call is refused, as the archive promises; this crate
    // does not rely on that.
    #[inline]
    fn next<const N: usize>(&mut self, call: impl Fn(&[u8], usize) -> (u64, [u64; N])) -> Option<[u64; N]> {
        self.left = self.left.checked_sub(1)?;
        let (next, words) = call(self.data, self.at);
        if next == 0 {
            self.left = 0;
            return None;
        }
        self.at = next as usize;
        Some(words)
    }
}

macro_rules! sequences {
    ($($(#[$of:meta])* $list:ident, $(#[$by:meta])* $iterator:ident, $item:ty;)*) => {$(
        $(#[$of])*
        #[derive(Clone, Copy)]
        pub struct $list<'a>(Places<'a>);

        impl<'a> $list<'a> {
            /// How many there are.
            #[inline]
            pub fn len(&self) -> usize {
                self.0.left
            }

            /// Whether there are none.
            #[inline]
            pub fn is_empty(&self) -> bool {
                self.0.left == 0
            }

            /// All of them, in their order, in one pass over the data.
            #[inline]
            pub fn iter(&self) -> $iterator<'a> {
                $iterator(self.0)
            }
        }

        impl<'a> IntoIterator for $list<'a> {
            type Item = $item;
            type IntoIter = $iterator<'a>;

            #[inline]
            fn into_iter(self) -> $iterator<'a> {
                self.iter()
            }
        }

        impl PartialEq for $list<'_> {
            fn eq(&self, other: &Self) -> bool {
                self.iter().eq(other.iter())
            }
        }

        impl Eq for $list<'_> {}

        impl fmt::Debug for $list<'_> {
            fn fmt(&self, f: &mut fmt::Formatter<'_>) -> fmt::Result {
                f.debug_list().entries(self.iter()).finish()
            }
        }

        $(#[$by])*
        #[derive(Clone)]
        pub struct $iterator<'a>(Places<'a>);

        impl ExactSizeIterator for $iterator<'_> {}

        impl FusedIterator for $iterator<'_> {}

        impl fmt::Debug for $iterator<'_> {
            fn fmt(&self, f: &mut fmt::Formatter<'_>) -> fmt::Result {
                f.debug_list().entries(self.clone()).finish()
            }
        }
    )*};
}

sequences! {
    /// The columns of a row, in their order.
    Tuple,
    /// Goes over the columns of a tuple.
    Columns, Column<'a>;
    /// The columns of a relation, in their order.
    Descriptions,
    /// Goes over the columns of a relation.
    DescriptionIter, Description<'a>;
    /// The identifiers of relations, in their order.
    Identifiers,
    /// Goes over identifiers.
    IdentifierIter, u32;
}

impl<'a> Tuple<'a> {
    /// The columns, in their order, in one pass over the data.
    #[inline]
    pub fn columns(&self) -> Columns<'a> {
        self.iter()
    }
}

impl<'a> Iterator for Columns<'a> {
    type Item = Column<'a>;

    #[inline]
    fn next(&mut self) -> Option<Column<'a>> {
        let words = self.0.next(ffi::row_column)?;
        Some(Column::of_words(&words, self.0.data))
    }

    #[inline]
    fn size_hint(&self) -> (usize, Option<usize>) {
        (self.0.left, Some(self.0.left))
    }
}

impl<'a> Iterator for DescriptionIter<'a> {
    type Item = Description<'a>;

    #[inline]
    fn next(&mut self) -> Option<Description<'a>> {
        let words = self.0.next(ffi::row_description)?;
        Some(Description {
            flags: words[ffi::DESCRIPTION_FLAGS] as u8,
            name: part(self.0.data, words[ffi::DESCRIPTION_NAME_FROM], words[ffi::DESCRIPTION_NAME_LEN]),
            type_oid: words[ffi::DESCRIPTION_TYPE] as u32,
            type_modifier: words[ffi::DESCRIPTION_MODIFIER] as i32,
        })
    }

    #[inline]
    fn size_hint(&self) -> (usize, Option<usize>) {
        (self.0.left, Some(self.0.left))
    }
}

impl Iterator for IdentifierIter<'_> {
    type Item = u32;

    #[inline]
    fn next(&mut self) -> Option<u32> {
        self.0.next(ffi::row_identifier).map(|words| words[ffi::IDENTIFIER_ID] as u32)
    }

    #[inline]
    fn size_hint(&self) -> (usize, Option<usize>) {
        (self.0.left, Some(self.0.left))
    }
}

#[cfg(test)]
mod tests {
    use super::*;

    const DATA: &[u8] = b"value";

    fn column(kind: u64) -> Column<'static> {
        let mut words = [0; ffi::TUPLE_WORDS];
        (words[ffi::TUPLE_KIND], words[ffi::TUPLE_LEN]) = (kind, 5);
        Column::of_words(&words, DATA)
    }

    fn row(kind: u64, byte: u64) -> Result<Option<Row<'static>>, Refusal> {
        let mut words = [0; ffi::ROW_WORDS];
        (words[ffi::ROW_KIND], words[ffi::ROW_BYTE]) = (kind, byte);
        Row::of_words(&words, DATA)
    }

    #[test]
    fn a_column_of_an_unknown_kind_is_refused() {
        assert_eq!([1, 2, 3, 4].map(column), [Column::Null, Column::Unchanged, Column::Text(DATA), Column::Binary(DATA)]);
        for kind in [0, 5, 255, 256 + ffi::TUPLE_TEXT, 1 << 32 | ffi::TUPLE_NULL, u64::MAX] {
            assert_eq!(column(kind), Column::Refused(Refusal::Unknown), "{kind}");
        }
    }

    #[test]
    fn a_row_of_an_unknown_kind_or_letter_is_refused() {
        assert_eq!(row(ffi::ROW_NONE, 0), Ok(None));
        for kind in [8, 255, 256 + ffi::ROW_INSERT, u64::MAX] {
            assert_eq!(row(kind, 0), Err(Refusal::Unknown), "{kind}");
        }
        let update = |byte| row(ffi::ROW_UPDATE, byte).map(|row| matches!(row, Some(Row::Update { old: Some(_), .. })));
        assert_eq!([0, b'K'.into(), b'O'.into()].map(update), [Ok(false), Ok(true), Ok(true)]);
        for letter in [1, b'N'.into(), 256 + u64::from(b'K'), u64::MAX] {
            assert_eq!((update(letter), row(ffi::ROW_DELETE, letter)), (Err(Refusal::Unknown), Err(Refusal::Unknown)), "{letter}");
        }
        assert_eq!(row(ffi::ROW_DELETE, 0), Err(Refusal::Unknown));
    }
}
