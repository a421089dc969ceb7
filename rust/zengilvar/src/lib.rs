//! A safe wrapper over libzengilvar.a in the shape of rphonetic's interface.
//!
//! ```
//! # fn main() -> Result<(), zengilvar::PhoneticError> {
//! use zengilvar::{DaitchMokotoffSoundex, DaitchMokotoffSoundexBuilder, Encoder};
//!
//! let standard = DaitchMokotoffSoundex::default();
//! assert_eq!(standard.soundex("Peters")?, "734000|739400");
//! assert!(standard.is_encoded_equals("Peters", "Petersen").is_ok());
//!
//! let coder = DaitchMokotoffSoundexBuilder::with_rules("\"c\" \"4|5\" \"4|5\" \"4|5\"\n").build()?;
//! assert_eq!(coder.encode("c")?, "400000");
//! assert_eq!(coder.soundex("c")?, "400000|500000");
//! # Ok(())
//! # }
//! ```
//!
//! What rphonetic answers without fail is a `Result` here: a name may be refused. docs/PORTING.md tells what to change
//! in a program that used rphonetic.

mod cause;
mod daitch_mokotoff;
mod encoder;
mod error;
mod index;
pub mod raw;
mod ward;

pub use cause::Cause;
pub use daitch_mokotoff::{DaitchMokotoffSoundex, DaitchMokotoffSoundexBuilder};
pub use encoder::Encoder;
pub use error::{ParseError, PhoneticError, Refusal};
pub use index::Index;
pub use ward::Ward;

/// The longest rule text, in bytes.
pub const LONGEST_TEXT: usize = 65_536;

/// The longest plate, in bytes.
pub const LONGEST_PLATE: usize = 149_364;

/// The longest plate of edition 1, which every plate of at most 512 rules is.
pub const LONGEST_PLATE_1: usize = 51_428;

/// The longest name, in bytes.
pub const LONGEST_NAME: usize = 256;

/// The longest list of codes, in bytes: 64 codes of six digits, a bar between two.
pub const LONGEST_LIST: usize = 447;

/// The most names of one `ward`.
pub const MOST_NAMES: usize = 256;

/// What `raw::ward` must be lent for each name, in bytes: the longest list and a newline.
pub const LINE_ROOM: usize = 448;

/// The most names of one index, which are its records.
pub const MOST_RECORDS: usize = 4_096;

/// The longest index, in bytes: 64 codes for each of the most names, four bytes an entry.
pub const LONGEST_INDEX: usize = 1_048_576;

/// The longest answer of `raw::index_find`, in bytes: all records, two bytes each.
pub const LONGEST_FOUND: usize = 8_192;
