//! Whole answers: number, line or count and place, and the bytes written. The bytes behind them are as lent.

use crate::codes::{self, Walked, BRANCHES};
use crate::{plate, text, Content};
use oracle::Coder;

/// The most bytes of a name.
pub const NAME: usize = 256;

/// What build answers.
#[derive(Debug, Clone, PartialEq, Eq)]
pub struct Built {
    pub number: u64,
    pub line: u64,
    pub plate: Vec<u8>,
}

/// What encode or list answers.
#[derive(Debug, Clone, PartialEq, Eq)]
pub struct Coded {
    pub number: u64,
    pub count: u64,
    pub place: u64,
    pub codes: Vec<u8>,
}

/// Why a name is not coded: the number, and the byte at which the fault begins (with 2 and 11; else 0).
#[derive(Debug, Clone, Copy, PartialEq, Eq)]
pub struct Refusal {
    pub number: u64,
    pub place: u64,
}

/// Encode or list.
#[derive(Debug, Clone, Copy, PartialEq, Eq)]
pub enum Call {
    Encode,
    List,
}

/// What a text comes to, whatever the buffer: the plate and what it holds, or the refusal.
pub fn text_answer(text: &[u8], folding: bool) -> Result<(Vec<u8>, Content), text::Fault> {
    let content = text::read(text, folding)?;
    Ok((plate::write(&content), content))
}

/// What build answers for a buffer of this length.
pub fn build(text: &Result<(Vec<u8>, Content), text::Fault>, lent: usize) -> Built {
    match text {
        Err(fault) => Built { number: fault.number, line: fault.line, plate: Vec::new() },
        Ok((plate, _)) if lent < plate.len() => Built { number: 9, line: 0, plate: Vec::new() },
        Ok((plate, _)) => Built { number: 0, line: 0, plate: plate.clone() },
    }
}

/// What a name comes to under a plate, whatever the buffer: how it is walked, or its refusal.
pub fn name_answer(content: Option<&Content>, name: &[u8], call: Call) -> Result<Walked, Refusal> {
    let refused = |number, place: usize| Refusal { number, place: place as u64 };
    let content = content.ok_or(refused(10, 0))?;
    if name.len() > NAME {
        return Err(refused(1, 0));
    }
    let name = std::str::from_utf8(name).map_err(|broken| refused(2, broken.valid_up_to()))?;
    if let Some((place, _)) = name.char_indices().find(|(_, c)| !codes::allowed(*c)) {
        return Err(refused(11, place));
    }
    Ok(codes::walk(content, name, call == Call::List))
}

/// How many branches a buffer of this length has room for.
pub fn room(lent: usize) -> usize {
    BRANCHES.min((lent + 1) / 7)
}

/// What encode or list answers for a buffer of this length.
pub fn code(name: &Result<Walked, Refusal>, lent: usize) -> Coded {
    let refused = |number, place| Coded { number, count: 0, place, codes: Vec::new() };
    match name {
        Err(refusal) => refused(refusal.number, refusal.place),
        Ok(walked) if walked.longest > room(lent) => refused(12, 0),
        Ok(walked) => {
            Coded { number: 0, count: walked.codes.len() as u64, place: 0, codes: walked.codes.join("|").into_bytes() }
        }
    }
}

/// Where the Rust's codes are not those of the walk, though they must be: under patterns of ASCII, for a name that is
/// coded; the doubles of the Rust's list are struck. `None` where there is nothing to compare or all is equal; else the Rust's codes.
pub fn rust_differs(coder: &Coder, name: &[u8], call: Call, walked: &Walked) -> Option<Vec<String>> {
    if walked.foreign || walked.longest > BRANCHES {
        return None;
    }
    let name = std::str::from_utf8(name).ok()?;
    let codes = codes::once(coder.inner_soundex(name, call == Call::List));
    (codes != walked.codes).then_some(codes)
}
