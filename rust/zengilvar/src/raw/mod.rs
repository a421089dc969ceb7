//! The calls of libzengilvar.a as they are, on slices; a file for each kind of answer. Nothing is demanded of the bytes
//! or the lengths.
//!
//! The declarations must say what include/zengilvar.h says. tests/header.rs holds the constants, numbers and words to
//! the header, and the answers' layout to what tests/c holds of the header's own.

mod build;
mod code;
mod index;
mod is_plate;
mod ward;

pub use build::{build, Built};
pub use code::{encode, list, Coded};
pub use index::{index_add, index_find, index_make, Indexed};
pub use is_plate::is_plate;
pub use ward::{ward, Written};
