//! The coder and its builder.

use crate::{raw, Encoder, PhoneticError, Refusal, Ward, LONGEST_LIST, LONGEST_PLATE};

/// The standard rules, as rule text.
const STANDARD_RULES: &str = include_str!("../../../rules/daitch-mokotoff.txt");

/// Makes a coder from rule text.
#[derive(Clone, Debug)]
pub struct DaitchMokotoffSoundexBuilder<'a> {
    rules: &'a str,
    ascii_folding: bool,
}

/// The standard rules, folding on.
impl Default for DaitchMokotoffSoundexBuilder<'_> {
    fn default() -> Self {
        Self::with_rules(STANDARD_RULES)
    }
}

impl<'a> DaitchMokotoffSoundexBuilder<'a> {
    /// With this rule text, folding on.
    pub fn with_rules(rules: &'a str) -> Self {
        Self { rules, ascii_folding: true }
    }

    /// Folding on or off.
    pub fn ascii_folding(mut self, ascii_folding: bool) -> Self {
        self.ascii_folding = ascii_folding;
        self
    }

    /// The coder, or why there is none.
    pub fn build(self) -> Result<DaitchMokotoffSoundex, PhoneticError> {
        let mut plate = vec![0; LONGEST_PLATE];
        let built = raw::build(self.rules.as_bytes(), self.ascii_folding, &mut plate);
        if built.number != 0 {
            return Err(PhoneticError::of_text(self.rules, built));
        }
        plate.truncate(built.length as usize);
        plate.shrink_to_fit();
        Ok(DaitchMokotoffSoundex { plate })
    }
}

/// A coder: a plate.
#[derive(Clone, Debug, PartialEq, Eq, PartialOrd, Ord, Hash)]
pub struct DaitchMokotoffSoundex {
    plate: Vec<u8>,
}

/// The coder of the standard rules, folding on.
impl Default for DaitchMokotoffSoundex {
    fn default() -> Self {
        DaitchMokotoffSoundexBuilder::default().build().expect("the standard rules are built")
    }
}

impl DaitchMokotoffSoundex {
    /// A coder from a plate that was built before. Bytes that are not a plate are refused.
    pub fn with_plate(plate: Vec<u8>) -> Result<Self, PhoneticError> {
        match raw::is_plate(&plate) {
            true => Ok(Self { plate }),
            false => Err(PhoneticError::Refused(Refusal::of_plate())),
        }
    }

    /// The plate, to keep it.
    pub fn plate(&self) -> &[u8] {
        &self.plate
    }

    /// All codes of the name, a bar between two.
    pub fn soundex(&self, value: &str) -> Result<String, PhoneticError> {
        let mut codes = [0; LONGEST_LIST];
        let count = answered(raw::list(&self.plate, value.as_bytes(), &mut codes))?;
        Ok(written(&codes, count))
    }

    /// A line for each of up to `MOST_NAMES` names, each closed by a newline; a last one without newline counts if it is
    /// not empty. The plate is looked at once for all. Over so many names the whole list is refused; a name that is
    /// refused takes its own line alone.
    pub fn ward(&self, names: &[u8]) -> Result<Ward, PhoneticError> {
        Ward::of(&self.plate, names)
    }

    /// The codes of the name one by one: all of them, or with `branching` off the first.
    pub fn inner_soundex(&self, value: &str, branching: bool) -> Result<Vec<String>, PhoneticError> {
        let codes = if branching { self.soundex(value)? } else { self.encode(value)? };
        Ok(codes.split('|').map(str::to_string).collect())
    }
}

impl Encoder for DaitchMokotoffSoundex {
    /// The name's first code. The first alternative is taken everywhere.
    fn encode(&self, s: &str) -> Result<String, PhoneticError> {
        let mut codes = [0; 6];
        answered(raw::encode(&self.plate, s.as_bytes(), &mut codes))?;
        Ok(written(&codes, 1))
    }
}

/// The count of codes, or the refusal.
fn answered(coded: raw::Coded) -> Result<usize, PhoneticError> {
    match coded.number {
        0 => Ok(coded.count as usize),
        _ => Err(PhoneticError::Refused(Refusal::of_name(coded))),
    }
}

/// The first `count` codes of the buffer, as text.
fn written(codes: &[u8], count: usize) -> String {
    String::from_utf8_lossy(&codes[..7 * count - 1]).into_owned()
}
