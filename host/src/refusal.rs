//! Why a call was refused.

use crate::ffi;
use core::fmt;

macro_rules! refusals {
    ($($number:literal $name:ident $text:literal,)*) => {
        /// Why a call was refused. The number is the one in docs/SCOPE.md, section 7, and in `rufflesquash.h`.
        ///
        /// ```
        /// use rufflesquash::{Kind, Refusal};
        ///
        /// let refusal = Refusal::from_number(8).expect("one of 1 to 35");
        /// assert_eq!((refusal, refusal.kind()), (Refusal::EofInHeader, Kind::Io));
        /// assert_eq!(refusal.to_string(), "the input ended in a message's header");
        /// ```
        #[derive(Clone, Copy, Debug, PartialEq, Eq, Hash)]
        #[non_exhaustive]
        #[repr(u8)]
        pub enum Refusal {
            $(#[doc = $text] $name = $number,)*
            /// an answer that this crate does not know: the archive is not the one that it was made for
            Unknown = 255,
        }

        impl Refusal {
            /// The refusal of a number, where it is the number of one.
            pub fn from_number(number: u64) -> Option<Refusal> {
                match number {
                    $($number => Some(Refusal::$name),)*
                    _ => None,
                }
            }
        }

        impl fmt::Display for Refusal {
            fn fmt(&self, f: &mut fmt::Formatter<'_>) -> fmt::Result {
                f.write_str(match self {
                    $(Refusal::$name => $text,)*
                    Refusal::Unknown => "an answer that this crate does not know: the archive is not the one that it was made for",
                })
            }
        }
    };
}

refusals! {
    1 IntervalTooLong "an interval is above 86,400 seconds",
    2 RunEnded "the run has ended",
    3 PayloadBufferTooShort "the payload buffer is shorter than the limit of a message",
    4 OutputTooShort "the output is shorter than needed",
    5 MomentOutOfOrder "the moment is outside its range or before the last accepted one",
    6 InvalidLength "a message's length is below 4",
    7 MessageTooLarge "a message's payload is over the limit",
    8 EofInHeader "the input ended in a message's header",
    9 EofInPayload "the input ended in a message's payload",
    10 EmptyCopyData "a CopyData message is empty",
    11 XLogDataTooShort "an XLogData message is too short",
    12 KeepaliveTooShort "a keepalive message is too short",
    13 UnknownCopyData "a CopyData message of unknown kind",
    14 TruncatedI8 "a field of 8 bits is cut",
    15 TruncatedI32 "a field of 32 bits is cut",
    16 TruncatedI64 "a field of 64 bits is cut",
    17 UnterminatedPrefix "a logical message's prefix is unterminated",
    18 ContentTooShort "a logical message's content is short or its length negative",
    19 ServerError "the server sent an error",
    20 MalformedDataRow "a data row is malformed",
    21 AuthRequestTooShort "an authentication request is too short",
    22 MissingSlash "a position has no slash",
    23 InvalidHighPart "the part of a position before the slash is not 1 to 8 hexadecimal digits",
    24 InvalidLowPart "the part of a position after the slash is not 1 to 8 hexadecimal digits",
    25 InputTooLong "the lent inputs have more than 1,048,576 bytes together",
    26 FieldCut "a field of a row is cut short, or a count or length in it is negative",
    27 UnknownLetter "a letter stands in a row where it may not",
    28 CacheFull "64 other relations are held",
    29 RelationTooLarge "a relation has more than 32 columns, or a column's name more than 63 bytes",
    30 RowUnmatched "a row's relation is not held, or has another number of columns",
    31 NoSuchFile "the file's number is above 3",
    32 InvalidWindow "a window opens after it closes, or a minute is above 1,440",
    33 OffsetOutOfRange "an offset is outside -840 to 840 minutes",
    34 CalendarMomentOutOfRange "a moment of the calendar is more than 4,611,686,018,427,387,904 microseconds from 2000-01-01",
    35 SeedZero "a load's seed is 0",
}

impl Refusal {
    /// The refusal's number, 1 to 35; 255 for [`Refusal::Unknown`], which no call of the archive that belongs to this crate gives.
    pub fn number(self) -> u8 {
        self as u8
    }

    /// What kind of failure it is. [`Refusal::Unknown`] is one of use: the wrong archive was linked.
    pub fn kind(self) -> Kind {
        match ffi::refusal_kind(u64::from(self.number())) {
            ffi::KIND_IO => Kind::Io,
            ffi::KIND_PROTOCOL => Kind::Protocol,
            ffi::KIND_SERVER => Kind::Server,
            ffi::KIND_MESSAGE_TOO_LARGE => Kind::MessageTooLarge,
            ffi::KIND_PARSE_LSN => Kind::ParseLsn,
            _ => Kind::Usage,
        }
    }

    /// Whether a new connection may help.
    pub fn is_transient(self) -> bool {
        ffi::refusal_is_transient(u64::from(self.number()))
    }

    /// What a number says: 0 that nothing was refused, and one that is no refusal's never that.
    #[inline]
    pub(crate) fn of_word(number: u64) -> Option<Refusal> {
        (number != 0).then(|| Refusal::from_number(number).unwrap_or(Refusal::Unknown))
    }

    /// What a call answered.
    #[inline]
    pub(crate) fn checked(number: u64) -> Result<(), Refusal> {
        match Refusal::of_word(number) {
            None => Ok(()),
            Some(refusal) => Err(refusal),
        }
    }
}

impl core::error::Error for Refusal {}

/// Kinds of refusals.
#[derive(Clone, Copy, Debug, PartialEq, Eq, Hash)]
#[non_exhaustive]
pub enum Kind {
    /// The call was not used as it is to be.
    Usage,
    /// The input ended within a message.
    Io,
    /// The bytes are not what the protocol says.
    Protocol,
    /// The server sent an error.
    Server,
    /// A message is longer than the limit.
    MessageTooLarge,
    /// A text is no position.
    ParseLsn,
}

#[cfg(test)]
mod tests {
    use super::*;

    #[test]
    fn a_number_of_no_refusal_is_no_success() {
        assert_eq!(Refusal::checked(0), Ok(()));
        for number in 1..=35 {
            assert_eq!(Refusal::checked(number).map_err(|r| u64::from(r.number())), Err(number));
        }
        for number in [36, 254, 255, 256, 257, u64::MAX] {
            assert_eq!(Refusal::checked(number), Err(Refusal::Unknown), "{number}");
        }
    }
}
