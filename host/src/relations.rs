//! Rows with the names, key flags and types of their columns: a relation cache holds what the Relation messages of a stream said, and matches
//! the rows that follow with it.
//!
//! ```
//! use rufflesquash::relations::{MatchedRow, RelationCache};
//! use rufflesquash::rows::Column;
//!
//! let mut cache = RelationCache::new();
//! cache.row(b"R\0\0\x40\x01public\0t\0d\0\x01\x01id\0\0\0\0\x17\xFF\xFF\xFF\xFF")?;
//! let Some(MatchedRow::Insert { mut new, .. }) = cache.row(b"I\0\0\x40\x01N\0\x01t\0\0\0\x017")? else { panic!("an Insert") };
//! let column = new.next().unwrap();
//! assert_eq!((column.name, column.key, column.type_oid, column.value), (&b"id"[..], true, 23, Column::Text(b"7")));
//! # Ok::<(), rufflesquash::Refusal>(())
//! ```

use crate::ffi;
use crate::rows::{Columns, Old, Row, Tuple};
use crate::types::part;
use crate::Refusal;
use core::fmt;
use core::iter::FusedIterator;

/// What the Relation messages of a stream said of at most 64 relations, with at most 32 columns each, whose names have at most 63 bytes. A later
/// message of a relation supersedes the earlier one; nothing is ever removed.
///
/// A cache is its memory, 16,712 bytes and the bytes of the names, and allocates nothing: it stands where the host puts it, in a `static` or, with
/// the feature `std`, on the heap ([`boxed`](RelationCache::boxed)). [`new`](RelationCache::new) has room for all names that can be held, 126 KiB;
/// a host that knows its tables lends less ([`with_names`](RelationCache::with_names), [`names_needed`]).
///
/// ```
/// use rufflesquash::relations::{names_needed, RelationCache};
///
/// // 64 tables of 8 columns, whose names have 10 bytes each at most.
/// let mut names = [0; names_needed(64, 8, 10)];
/// assert_eq!(names.len(), 5120);
/// let mut cache = RelationCache::with_names(&mut names[..]);
/// # assert!(cache.row(b"R\0\0\x40\x01public\0t\0d\0\x01\x01id\0\0\0\0\x17\xFF\xFF\xFF\xFF").is_ok());
/// ```
pub struct RelationCache<N = [u8; ffi::CACHE_NAMES]> {
    memory: ffi::CacheMemory,
    names: N,
}

/// How many bytes suffice for the names of so many relations, of at most so many columns each, whose names have at most so many bytes. No more than 64
/// relations, 32 columns and 63 bytes count, since no more are held.
pub const fn names_needed(relations: usize, columns: usize, name: usize) -> usize {
    const fn least(a: usize, b: usize) -> usize {
        if a < b {
            a
        } else {
            b
        }
    }
    let slots = least(relations, ffi::CACHE_RELATIONS);
    let each = least(columns, ffi::CACHE_COLUMNS / ffi::CACHE_RELATIONS);
    slots * each * least(name, ffi::CACHE_NAMES / ffi::CACHE_COLUMNS)
}

impl RelationCache {
    /// An empty cache with room for all names that can be held.
    pub const fn new() -> RelationCache {
        RelationCache { memory: ffi::CacheMemory::new(), names: [0; ffi::CACHE_NAMES] }
    }

    /// An empty cache on the heap.
    #[cfg(feature = "std")]
    pub fn boxed() -> std::boxed::Box<RelationCache> {
        std::boxed::Box::new(RelationCache::new())
    }
}

impl<N: AsRef<[u8]> + AsMut<[u8]>> RelationCache<N> {
    /// An empty cache whose names lie in these bytes, one after the other: an array, or a slice that is lent. Where they are too few, a Relation is
    /// refused; what they hold before is not read, and bytes past 129,024 are neither read nor written.
    pub const fn with_names(names: N) -> RelationCache<N> {
        RelationCache { memory: ffi::CacheMemory::new(), names }
    }

    /// Holds nothing again, as a stream that begins anew asks for.
    pub fn clear(&mut self) {
        ffi::cache_clear(&mut self.memory);
    }

    /// The row that data hold, with its relation's columns; none where they are a Begin, a Commit or a logical message. A Relation is held from then
    /// on. Refused, the cache is as it was: what [`Row::parse`] refuses (26, 27); a Relation where 64 others are held (28), or with more than 32
    /// columns or a longer name (29); a row whose relation is not held or has another number of columns than one of its tuples (30); a Relation with
    /// which the names of those that are held would be longer than what is lent for them (4).
    ///
    /// After a Relation that was refused with 29 or 4 the former description of its relation stays, and rows with the old number of columns are read under
    /// the old names.
    pub fn row<'a>(&'a mut self, data: &'a [u8]) -> Result<Option<MatchedRow<'a>>, Refusal> {
        let (number, words) = ffi::cache_message(&mut self.memory, self.names.as_mut(), data);
        Refusal::checked(number)?;
        Ok(Row::of_words(&words, data)?.map(|row| self.matched(row)))
    }

    fn matched<'a>(&'a self, row: Row<'a>) -> MatchedRow<'a> {
        let tuple = |relation: u32, tuple: Tuple<'a>| MatchedTuple { columns: self.held(relation), values: tuple.columns() };
        let old = |relation: u32, old: Old<'a>| match old {
            Old::Key(key) => (Which::Key, tuple(relation, key)),
            Old::Row(row) => (Which::Row, tuple(relation, row)),
        };
        match row {
            Row::Relation(relation) => MatchedRow::Relation { id: relation.id, columns: self.held(relation.id) },
            Row::Insert { relation, new } => MatchedRow::Insert { relation, new: tuple(relation, new) },
            Row::Update { relation, old: before, new } => {
                MatchedRow::Update { relation, old: before.map(|before| old(relation, before)), new: tuple(relation, new) }
            }
            Row::Delete { relation, old: before } => {
                let (which, old) = old(relation, before);
                MatchedRow::Delete { relation, which, old }
            }
            other => MatchedRow::Other(other),
        }
    }

    /// The columns of a relation, where it is held.
    pub fn columns(&self, relation: u32) -> Option<HeldColumns<'_>> {
        ffi::cache_count(&self.memory, relation).map(|count| self.first_of(relation, count as usize))
    }

    // Of a relation that a call has just answered, which is held.
    fn held(&self, relation: u32) -> HeldColumns<'_> {
        self.columns(relation).unwrap_or(self.first_of(relation, 0))
    }

    fn first_of(&self, relation: u32, end: usize) -> HeldColumns<'_> {
        HeldColumns { memory: &self.memory, names: self.names.as_ref(), relation, at: 0, end }
    }
}

impl Default for RelationCache {
    fn default() -> Self {
        RelationCache::new()
    }
}

impl<N> fmt::Debug for RelationCache<N> {
    fn fmt(&self, f: &mut fmt::Formatter<'_>) -> fmt::Result {
        f.debug_struct("RelationCache").field("held", &self.memory.held).finish_non_exhaustive()
    }
}

/// A row whose relation is held, with its columns; or what has no tuple.
#[derive(Clone, Debug)]
#[non_exhaustive]
pub enum MatchedRow<'a> {
    /// The description of a relation, which is held now.
    Relation {
        /// Its identifier, by which rows name it.
        id: u32,
        /// Its columns.
        columns: HeldColumns<'a>,
    },
    /// A new row.
    Insert {
        /// The relation that has it.
        relation: u32,
        /// Its columns.
        new: MatchedTuple<'a>,
    },
    /// A row was changed.
    Update {
        /// The relation that has it.
        relation: u32,
        /// What it was before, where the server sends that.
        old: Option<(Which, MatchedTuple<'a>)>,
        /// What it is now.
        new: MatchedTuple<'a>,
    },
    /// A row was deleted.
    Delete {
        /// The relation that had it.
        relation: u32,
        /// Which columns of it are sent.
        which: Which,
        /// What it was.
        old: MatchedTuple<'a>,
    },
    /// A type, an origin, or relations that were emptied.
    Other(Row<'a>),
}

/// Which columns of an old row are sent.
#[derive(Clone, Copy, Debug, PartialEq, Eq, Hash)]
pub enum Which {
    /// Those of the key; all others are null.
    Key,
    /// All of them.
    Row,
}

/// A column of a held relation.
#[derive(Clone, Copy, Debug, PartialEq, Eq, Hash)]
pub struct HeldColumn<'a> {
    /// Its name.
    pub name: &'a [u8],
    /// Whether it belongs to the key.
    pub key: bool,
    /// The identifier of its type.
    pub type_oid: u32,
}

/// A column of a row.
#[derive(Clone, Copy, Debug, PartialEq, Eq, Hash)]
pub struct MatchedColumn<'a> {
    /// Its name.
    pub name: &'a [u8],
    /// Whether it belongs to the key.
    pub key: bool,
    /// The identifier of its type.
    pub type_oid: u32,
    /// Its value.
    pub value: crate::rows::Column<'a>,
}

/// Goes over the columns of a held relation.
#[derive(Clone)]
pub struct HeldColumns<'a> {
    memory: &'a ffi::CacheMemory,
    names: &'a [u8],
    relation: u32,
    at: usize,
    end: usize,
}

impl<'a> Iterator for HeldColumns<'a> {
    type Item = HeldColumn<'a>;

    fn next(&mut self) -> Option<HeldColumn<'a>> {
        if self.at == self.end {
            return None;
        }
        let words = ffi::cache_column(self.memory, self.names, self.relation, self.at);
        self.at += 1;
        Some(HeldColumn {
            name: part(self.names, words[ffi::CACHE_COLUMN_NAME_FROM], words[ffi::CACHE_COLUMN_NAME_LEN]),
            key: words[ffi::CACHE_COLUMN_KEY] != 0,
            type_oid: words[ffi::CACHE_COLUMN_TYPE] as u32,
        })
    }

    fn size_hint(&self) -> (usize, Option<usize>) {
        (self.end - self.at, Some(self.end - self.at))
    }
}

impl ExactSizeIterator for HeldColumns<'_> {}

impl FusedIterator for HeldColumns<'_> {}

impl fmt::Debug for HeldColumns<'_> {
    fn fmt(&self, f: &mut fmt::Formatter<'_>) -> fmt::Result {
        f.debug_list().entries(self.clone()).finish()
    }
}

/// Goes over the columns of a row, each with its relation's description. There are as many of the one as of the other.
#[derive(Clone)]
pub struct MatchedTuple<'a> {
    columns: HeldColumns<'a>,
    values: Columns<'a>,
}

impl<'a> Iterator for MatchedTuple<'a> {
    type Item = MatchedColumn<'a>;

    fn next(&mut self) -> Option<MatchedColumn<'a>> {
        let HeldColumn { name, key, type_oid } = self.columns.next()?;
        let value = self.values.next()?;
        Some(MatchedColumn { name, key, type_oid, value })
    }

    fn size_hint(&self) -> (usize, Option<usize>) {
        self.columns.size_hint()
    }
}

impl ExactSizeIterator for MatchedTuple<'_> {}

impl FusedIterator for MatchedTuple<'_> {}

impl fmt::Debug for MatchedTuple<'_> {
    fn fmt(&self, f: &mut fmt::Formatter<'_>) -> fmt::Result {
        f.debug_list().entries(self.clone()).finish()
    }
}
