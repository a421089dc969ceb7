//! What is held beside the Rust: the archive, or in a control a coder that is wrong on purpose.

use zengilvar::raw::{self, Built, Coded};

pub trait Calls {
    fn build(&self, text: &[u8], folding: bool, plate: &mut [u8]) -> Built;
    fn encode(&self, plate: &[u8], name: &[u8], out: &mut [u8]) -> Coded;
    fn list(&self, plate: &[u8], name: &[u8], out: &mut [u8]) -> Coded;
    fn is_plate(&self, plate: &[u8]) -> bool;
}

/// libzengilvar.a.
pub struct Archive;

impl Calls for Archive {
    fn build(&self, text: &[u8], folding: bool, plate: &mut [u8]) -> Built {
        raw::build(text, folding, plate)
    }

    fn encode(&self, plate: &[u8], name: &[u8], out: &mut [u8]) -> Coded {
        raw::encode(plate, name, out)
    }

    fn list(&self, plate: &[u8], name: &[u8], out: &mut [u8]) -> Coded {
        raw::list(plate, name, out)
    }
    fn is_plate(&self, plate: &[u8]) -> bool {
        raw::is_plate(plate)
    }
}
