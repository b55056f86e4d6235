//! The refusals.

use core::fmt;

/// Why the library refused. Each refusal has a number, 1 to 20, and is given exactly when its line says. More may be added: a `match`
/// needs an arm for the rest.
///
/// ```
/// use clomaverift::{Error, Timestamp};
///
/// let error = Timestamp::from_pts_bytes(&[0x21, 0, 0, 0, 0]).unwrap_err();
/// assert_eq!(error, Error::MarkerBitNotSet { bit_number: 23 });
/// assert_eq!(error.number(), 12);
/// assert_eq!(error.to_string(), "marker bit 23 is not set");
/// ```
#[derive(Clone, Copy, Debug, PartialEq, Eq, Hash)]
#[non_exhaustive]
pub enum Error {
    /// 1: a packet that is not 188 bytes long, a run over bytes that are not whole packets, a timestamp of fewer than 5 bytes, a clock
    /// reference of fewer than 6, an empty adaptation field.
    WrongLength,
    /// 2: the first byte of a packet is not 47 hex.
    NoSync,
    /// 3: a PES packet of fewer than 6 bytes.
    ShortHeader,
    /// 4: the first three bytes of a PES packet are not 00 00 01.
    BadStartCode,
    /// 5: fewer than 3 bytes after those 6.
    ShortContents,
    /// 6: the top two bits of the contents are not 10.
    BadCheckBits,
    /// 7: the header data length reaches past the end of the bytes.
    HeaderPastBuffer,
    /// 8: the flagged fields are longer than the header data.
    FieldsPastHeader,
    /// 9: the field's flag is clear; the packet has no payload or no adaptation field.
    FieldNotPresent,
    /// 10: the PTS and DTS flags are 01.
    PtsDtsFlagsInvalid,
    /// 11: the field is truncated in an adaptation field or its extension, or the extension is empty.
    NotEnoughData,
    /// 12: a bit that is always 1 is 0.
    MarkerBitNotSet {
        /// The number of the bit in its field, the first being 0.
        bit_number: u8,
    },
    /// 13: the four prefix bits of a timestamp are not the expected ones.
    IncorrectPrefixBits {
        /// The bits that were expected.
        expected: u8,
        /// The bits that are there.
        actual: u8,
    },
    /// 14: a number that stands for nothing; a state, an event or a log place that is not possible.
    OutOfRange,
    /// 15: a packet's events need more than the free bytes of the log.
    LogFull,
    /// 16: a machine has taken 4,294,967,295 packets.
    IndexFull,
    /// 17: a field of a unit cannot be written.
    BadField,
    /// 18: a unit to be written has too many bytes.
    TooLong,
    /// 19: a unit to be written needs more packets than there is room for.
    NoRoom,
    /// 20: a unit would exceed the store.
    StoreFull,
    /// A number that the library gave and this crate does not know, of a refusal or of a kind: the archives are newer than the crate.
    Unknown(u32),
}

impl Error {
    /// What an entry's word says: nothing for 0, else a refusal.
    #[inline]
    pub(crate) fn from_word(word: u32) -> Option<Error> {
        match word {
            0 => None,
            _ => Some(Error::from_refusal(word)),
        }
    }

    /// A refusal's word is its number, plus 256 times the first and 65,536 times the second number named with it.
    #[inline]
    fn from_refusal(word: u32) -> Error {
        let [number, first, second, _] = word.to_le_bytes();
        match number {
            1 => Error::WrongLength,
            2 => Error::NoSync,
            3 => Error::ShortHeader,
            4 => Error::BadStartCode,
            5 => Error::ShortContents,
            6 => Error::BadCheckBits,
            7 => Error::HeaderPastBuffer,
            8 => Error::FieldsPastHeader,
            9 => Error::FieldNotPresent,
            10 => Error::PtsDtsFlagsInvalid,
            11 => Error::NotEnoughData,
            12 => Error::MarkerBitNotSet { bit_number: first },
            13 => Error::IncorrectPrefixBits { expected: first, actual: second },
            14 => Error::OutOfRange,
            15 => Error::LogFull,
            16 => Error::IndexFull,
            17 => Error::BadField,
            18 => Error::TooLong,
            19 => Error::NoRoom,
            20 => Error::StoreFull,
            _ => Error::Unknown(number.into()),
        }
    }

    /// The number of the refusal, 1 to 20; 0 for [`Error::Unknown`].
    #[must_use]
    pub fn number(&self) -> u32 {
        match self {
            Error::WrongLength => 1,
            Error::NoSync => 2,
            Error::ShortHeader => 3,
            Error::BadStartCode => 4,
            Error::ShortContents => 5,
            Error::BadCheckBits => 6,
            Error::HeaderPastBuffer => 7,
            Error::FieldsPastHeader => 8,
            Error::FieldNotPresent => 9,
            Error::PtsDtsFlagsInvalid => 10,
            Error::NotEnoughData => 11,
            Error::MarkerBitNotSet { .. } => 12,
            Error::IncorrectPrefixBits { .. } => 13,
            Error::OutOfRange => 14,
            Error::LogFull => 15,
            Error::IndexFull => 16,
            Error::BadField => 17,
            Error::TooLong => 18,
            Error::NoRoom => 19,
            Error::StoreFull => 20,
            Error::Unknown(_) => 0,
        }
    }

    fn text(&self) -> &'static str {
        match self {
            Error::WrongLength => "wrong length",
            Error::NoSync => "no sync byte",
            Error::ShortHeader => "truncated PES header",
            Error::BadStartCode => "no PES start code",
            Error::ShortContents => "truncated PES contents",
            Error::BadCheckBits => "wrong check bits",
            Error::HeaderPastBuffer => "the PES header is longer than its bytes",
            Error::FieldsPastHeader => "the flagged fields are longer than the PES header",
            Error::FieldNotPresent => "the field is not present",
            Error::PtsDtsFlagsInvalid => "invalid PTS and DTS flags",
            Error::NotEnoughData => "the field is truncated",
            Error::MarkerBitNotSet { .. } => "a marker bit is not set",
            Error::IncorrectPrefixBits { .. } => "incorrect prefix bits",
            Error::OutOfRange => "out of range",
            Error::LogFull => "the log is full",
            Error::IndexFull => "no packet index is left",
            Error::BadField => "a field cannot be written",
            Error::TooLong => "the unit is too long",
            Error::NoRoom => "no room for the packets",
            Error::StoreFull => "the store is full",
            Error::Unknown(_) => "unknown number",
        }
    }
}

impl fmt::Display for Error {
    fn fmt(&self, f: &mut fmt::Formatter<'_>) -> fmt::Result {
        match self {
            Error::MarkerBitNotSet { bit_number } => write!(f, "marker bit {bit_number} is not set"),
            Error::IncorrectPrefixBits { expected, actual } => {
                write!(f, "prefix bits {actual:04b} instead of {expected:04b}")
            }
            Error::Unknown(number) => write!(f, "the library gave the number {number}, which this crate does not know"),
            other => f.write_str(other.text()),
        }
    }
}

#[cfg(feature = "std")]
impl std::error::Error for Error {}

/// A number that stands for nothing here.
pub(crate) fn unknown(number: u64) -> Error {
    Error::Unknown(number.try_into().unwrap_or(u32::MAX))
}

/// An answer that cannot be a refusal, because what was asked for was checked when its value was made.
#[inline]
pub(crate) fn sure<T>(answer: Result<T, Error>) -> T {
    match answer {
        Ok(value) => value,
        Err(error) => refused(error),
    }
}

#[cold]
fn refused(error: Error) -> ! {
    panic!("refused, although it was checked before: {error}")
}

#[cfg(test)]
mod tests {
    use super::*;

    #[test]
    fn words_and_numbers_agree() {
        assert_eq!(Error::from_word(0), None);
        for number in 1..=20 {
            assert_eq!(Error::from_word(number).unwrap().number(), number);
        }
        assert_eq!(Error::from_word(12 + 256 * 39), Some(Error::MarkerBitNotSet { bit_number: 39 }));
        let prefix = Error::IncorrectPrefixBits { expected: 2, actual: 15 };
        assert_eq!(Error::from_word(13 + 256 * 2 + 65_536 * 15), Some(prefix));
        assert_eq!(prefix.to_string(), "prefix bits 1111 instead of 0010");
    }

    #[test]
    fn other_numbers_are_unknown() {
        for number in 21..=255 {
            let error = Error::from_word(number + 256 * 7).unwrap();
            assert_eq!((error, error.number()), (Error::Unknown(number), 0));
        }
        let text = "the library gave the number 21, which this crate does not know";
        assert_eq!(Error::Unknown(21).to_string(), text);
    }
}
