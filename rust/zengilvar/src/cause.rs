//! Why a call was refused.

use std::fmt;

/// Why a call was refused: the numbers of include/zengilvar.h by name. More may come.
#[derive(Debug, Clone, Copy, PartialEq, Eq, PartialOrd, Ord, Hash)]
#[non_exhaustive]
pub enum Cause {
    TooLong,
    NotText,
    NotRecognised,
    EmptyPattern,
    LongPattern,
    ManyAlternatives,
    NotDigits,
    TooMany,
    ShortBuffer,
    NotAPlate,
    CharacterNotAllowed,
    RoomTooSmall,
    NotAnIndex,
    /// A number that this wrapper does not know.
    Other(u64),
}

/// Each cause with its number and its words, which are those of the header's `dm_words`.
const CAUSES: [(Cause, u64, &str); 13] = [
    (Cause::TooLong, 1, "the rule text has over 65,536 bytes, the name over 256, or the list over 256 names"),
    (Cause::NotText, 2, "not UTF-8, or a zero byte in rule text"),
    (Cause::NotRecognised, 3, "no rule, folding, comment or empty line"),
    (Cause::EmptyPattern, 4, "an empty pattern"),
    (Cause::LongPattern, 5, "a pattern over 16 bytes"),
    (Cause::ManyAlternatives, 6, "a field with over 8 alternatives"),
    (Cause::NotDigits, 7, "an alternative that is not 0 to 6 digits"),
    (Cause::TooMany, 8, "over 1,500 rules, or over 128 folded characters"),
    (Cause::ShortBuffer, 9, "the buffer is shorter than the plate, or than the records found"),
    (Cause::NotAPlate, 10, "the plate is damaged or no plate"),
    (Cause::CharacterNotAllowed, 11, "a character that is neither white space nor below U+0180 nor U+0400 to U+045F"),
    (Cause::RoomTooSmall, 12, "the buffer is too small for the codes, or the name has over 64 codes at some step"),
    (Cause::NotAnIndex, 18, "no index, over 4,096 names in one, or no room for its entries or its report"),
];

impl Cause {
    pub(crate) fn of(number: u64) -> Self {
        CAUSES.iter().find(|known| known.1 == number).map_or(Self::Other(number), |known| known.0)
    }

    /// The number of the refusal.
    pub fn number(self) -> u64 {
        match self {
            Self::Other(number) => number,
            _ => self.known().1,
        }
    }

    /// What the refusal means.
    pub fn words(self) -> &'static str {
        match self {
            Self::Other(_) => "a number that is not known here",
            _ => self.known().2,
        }
    }

    fn known(self) -> (Self, u64, &'static str) {
        *CAUSES.iter().find(|known| known.0 == self).expect("every cause but Other stands in the table")
    }
}

/// The number and the words.
impl fmt::Display for Cause {
    fn fmt(&self, f: &mut fmt::Formatter<'_>) -> fmt::Result {
        write!(f, "{}: {}", self.number(), self.words())
    }
}
