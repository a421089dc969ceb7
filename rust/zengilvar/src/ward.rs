//! A whole list of names in one call, as an iterator over its lines.

use crate::{raw, Cause, PhoneticError, Refusal, LINE_ROOM};

/// The lines of a list of names, in their order: for each name its codes, a bar between two, or why it is refused.
/// `DaitchMokotoffSoundex::ward` makes it.
#[derive(Debug, Clone)]
pub struct Ward {
    lines: Vec<u8>,
    at: usize,
    left: usize,
}

impl Ward {
    /// The list is coded here; the lines are only told apart afterwards.
    pub(crate) fn of(plate: &[u8], names: &[u8]) -> Result<Self, PhoneticError> {
        let count = count(names);
        let mut lines = vec![0; count * LINE_ROOM];
        let written = raw::ward(plate, names, &mut lines);
        if written.number != 0 {
            return Err(PhoneticError::Refused(Refusal::without_place(Cause::of(written.number))));
        }
        lines.truncate(written.length as usize);
        Ok(Self { lines, at: 0, left: count })
    }
}

impl Iterator for Ward {
    type Item = Result<String, PhoneticError>;

    fn next(&mut self) -> Option<Self::Item> {
        let rest = &self.lines[self.at..];
        let end = rest.iter().position(|byte| *byte == b'\n')?;
        self.at += end + 1;
        self.left -= 1;
        Some(line(&rest[..end]))
    }

    fn size_hint(&self) -> (usize, Option<usize>) {
        (self.left, Some(self.left))
    }
}

impl ExactSizeIterator for Ward {}

impl std::iter::FusedIterator for Ward {}

/// How many names there are: those that a newline closes, and a last one if it is not empty.
pub(crate) fn count(names: &[u8]) -> usize {
    let closed = names.iter().filter(|byte| **byte == b'\n').count();
    closed + usize::from(names.last().is_some_and(|last| *last != b'\n'))
}

/// A line: codes, or `!` and a refusal in two digits.
fn line(line: &[u8]) -> Result<String, PhoneticError> {
    match line {
        [b'!', tens, ones] => {
            let number = u64::from(tens - b'0') * 10 + u64::from(ones - b'0');
            Err(PhoneticError::Refused(Refusal::without_place(Cause::of(number))))
        }
        codes => Ok(String::from_utf8_lossy(codes).into_owned()),
    }
}
