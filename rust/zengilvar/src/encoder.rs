//! The trait that a coder meets, in the shape of rphonetic's.

use crate::PhoneticError;

/// A coder of names. The methods are rphonetic's; a name may be refused here, so each answers a `Result`.
pub trait Encoder {
    /// The code of a name.
    fn encode(&self, s: &str) -> Result<String, PhoneticError>;

    /// Whether two names have the same code.
    fn is_encoded_equals(&self, first: &str, second: &str) -> Result<bool, PhoneticError> {
        Ok(self.encode(first)? == self.encode(second)?)
    }
}
