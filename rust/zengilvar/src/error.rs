//! What comes back in the place of an answer, in the shape of rphonetic's errors.

use crate::raw;
use crate::Cause;
use std::error::Error;
use std::fmt;

/// A rule text that is refused.
#[derive(Debug, Clone, PartialEq, Eq, PartialOrd, Ord, Hash)]
#[non_exhaustive]
pub struct ParseError {
    /// The line of the refused item's first byte; 0 where the whole text is refused. Not rphonetic's counter, which is too
    /// high behind a block comment and too low behind a newline inside quotes.
    pub line_number: usize,
    /// None: a text has no file here.
    pub filename: Option<String>,
    /// The text of the line at which the refused item begins. Empty where the whole text is refused.
    pub line_content: String,
    /// What the refusal means.
    pub description: String,
    /// The refusal.
    pub cause: Cause,
}

/// Why there is no answer.
#[derive(Debug, Clone, PartialEq, Eq, PartialOrd, Ord, Hash)]
#[non_exhaustive]
pub enum PhoneticError {
    /// The rule text is refused.
    ParseRuleError(ParseError),
    /// The name is refused, or the plate, or the index.
    Refused(Refusal),
}

/// A name, a plate or an index that is refused.
#[derive(Debug, Clone, Copy, PartialEq, Eq, PartialOrd, Ord, Hash)]
#[non_exhaustive]
pub struct Refusal {
    /// The refusal.
    pub cause: Cause,
    /// The byte of the name at which the first character begins that no name may hold, or the first sequence that is not
    /// UTF-8; none where the refusal is not about one.
    pub place: Option<usize>,
}

impl Refusal {
    pub(crate) fn of_plate() -> Self {
        Self { cause: Cause::NotAPlate, place: None }
    }

    /// Of a list of names, of a name in one, or of an index: they do not tell the place.
    pub(crate) fn without_place(cause: Cause) -> Self {
        Self { cause, place: None }
    }

    pub(crate) fn of_name(coded: raw::Coded) -> Self {
        let cause = Cause::of(coded.number);
        let placed = matches!(cause, Cause::NotText | Cause::CharacterNotAllowed);
        Self { cause, place: placed.then_some(coded.place as usize) }
    }
}

impl PhoneticError {
    /// The refusal.
    pub fn cause(&self) -> Cause {
        match self {
            Self::ParseRuleError(error) => error.cause,
            Self::Refused(refusal) => refusal.cause,
        }
    }

    /// The byte of the name at which its fault begins.
    pub fn place(&self) -> Option<usize> {
        match self {
            Self::ParseRuleError(_) => None,
            Self::Refused(refusal) => refusal.place,
        }
    }

    /// What is wrong with the rule text that was answered so.
    pub(crate) fn of_text(text: &str, built: raw::Built) -> Self {
        let cause = Cause::of(built.number);
        Self::ParseRuleError(ParseError {
            line_number: built.line as usize,
            filename: None,
            line_content: line_content(text, built.line).to_string(),
            description: cause.words().to_string(),
            cause,
        })
    }
}

impl fmt::Display for ParseError {
    fn fmt(&self, f: &mut fmt::Formatter<'_>) -> fmt::Result {
        let filename = self.filename.as_deref().unwrap_or("Unknown");
        write!(f, "{filename}:{} {} : {}", self.line_number, self.description, self.line_content)
    }
}

impl fmt::Display for Refusal {
    fn fmt(&self, f: &mut fmt::Formatter<'_>) -> fmt::Result {
        match self.place {
            None => write!(f, "{}", self.cause),
            Some(place) => write!(f, "{}, at byte {place}", self.cause),
        }
    }
}

impl fmt::Display for PhoneticError {
    fn fmt(&self, f: &mut fmt::Formatter<'_>) -> fmt::Result {
        match self {
            Self::ParseRuleError(error) => write!(f, "Error parsing rule file {error}"),
            Self::Refused(refusal) => write!(f, "Refused with {refusal}"),
        }
    }
}

impl Error for ParseError {}

impl Error for PhoneticError {
    fn source(&self) -> Option<&(dyn Error + 'static)> {
        match self {
            Self::ParseRuleError(error) => Some(error),
            Self::Refused(_) => None,
        }
    }
}

impl From<ParseError> for PhoneticError {
    fn from(error: ParseError) -> Self {
        Self::ParseRuleError(error)
    }
}

/// The text of a line, counted from 1; none for 0.
fn line_content(text: &str, line: u64) -> &str {
    line.checked_sub(1).and_then(|before| text.split('\n').nth(before as usize)).unwrap_or("")
}
