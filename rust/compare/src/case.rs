//! One case: a call with its inputs and the length of the buffer lent to it, and whether its answer is right.

use crate::calls::Calls;
use judge::answers::{self, Call, Refusal};
use judge::codes::Walked;
use judge::text::Fault;
use judge::{plate, Content};
use oracle::Coder;
use std::fmt;
use zengilvar::{raw, LONGEST_LIST};

/// What a text comes to: the plate and what it holds, or the refusal.
pub type TextAnswer = Result<(Vec<u8>, Content), Fault>;

/// What a name comes to: how it is walked, or the refusal.
pub type NameAnswer = Result<Walked, Refusal>;

#[derive(Clone)]
pub enum Rules {
    Text(Vec<u8>, bool),
    Plate(Vec<u8>),
}

#[derive(Clone)]
pub enum Case {
    Build { text: Vec<u8>, folding: bool, lent: usize },
    Code { call: Call, rules: Rules, name: Vec<u8>, lent: usize },
}

/// How often a difference is looked at again to make it smaller.
const TRIES: usize = 5_000;

/// The bytes around a lent buffer that no call may touch.
const AROUND: usize = 16;

/// The byte at a place of a buffer before the call: never a digit or a bar. `turn` makes two fills that differ in
/// every byte.
fn fill(place: usize, turn: bool) -> u8 {
    let byte = 0x80 | (place * 37 % 128) as u8;
    if turn {
        byte ^ 0x41
    } else {
        byte
    }
}

/// Lends a buffer of this length and says what became of it: none if it holds `expected` and is as lent behind it and
/// around it.
fn lend<A>(
    lent: usize,
    turn: bool,
    call: impl FnOnce(&mut [u8]) -> A,
    expected: impl FnOnce(&A) -> Vec<u8>,
) -> (A, Option<String>) {
    let mut memory: Vec<u8> = (0..lent + 2 * AROUND).map(|place| fill(place, turn)).collect();
    let answer = call(&mut memory[AROUND..AROUND + lent]);
    let written = expected(&answer);
    for (place, byte) in memory.iter().enumerate() {
        let right = match place.checked_sub(AROUND).and_then(|place| written.get(place)) {
            Some(byte) => *byte,
            None => fill(place, turn),
        };
        if *byte != right {
            let place = place as isize - AROUND as isize;
            return (answer, Some(format!("byte {place} of the buffer is {byte:02X}, right is {right:02X}")));
        }
    }
    (answer, None)
}

/// What a text comes to, and where the Rust and the judge disagree on it. The Rust says 3; its line is its own counter's
/// and is not asked for (docs/DIFFERENCES.md, M-102). It is not asked about texts that the table refuses with another
/// number before it would come to the end: it panics on an empty pattern.
pub fn text_answer(text: &[u8], folding: bool) -> (TextAnswer, Option<Coder>, Option<String>) {
    let answer = answers::text_answer(text, folding);
    if matches!(answer, Err(Fault { number: 1 | 2 | 4..=8, .. })) {
        return (answer, None, None);
    }
    let rust = oracle::build(std::str::from_utf8(text).expect("the judge has read it"), folding);
    match (&answer, rust) {
        (Ok(_), Ok(coder)) => (answer, Some(coder), None),
        (Err(_), Err(_)) => (answer, None, None),
        (Ok(_), Err(line)) => (answer, None, Some(format!("the Rust refuses line {line}, the paper nothing"))),
        (Err(fault), Ok(_)) => {
            let told = format!("the paper refuses line {}, the Rust nothing", fault.line);
            (answer, None, Some(told))
        }
    }
}

/// What a name comes to, and where the Rust and the judge disagree on it. The codes are the Rust's where it can say them.
pub fn name_answer(
    content: Option<&Content>,
    coder: Option<&Coder>,
    name: &[u8],
    call: Call,
) -> (NameAnswer, Option<String>) {
    let mut answer = answers::name_answer(content, name, call);
    if let (Ok(walked), Some(coder)) = (&mut answer, coder) {
        if let Some(codes) = answers::rust_differs(coder, name, call, walked) {
            let told = format!("the Rust codes {}, the paper {}", codes.join("|"), walked.codes.join("|"));
            walked.codes = codes;
            return (answer, Some(told));
        }
    }
    (answer, None)
}

/// What is wrong with build's answer.
pub fn build_differs(
    calls: &dyn Calls,
    answer: &TextAnswer,
    text: &[u8],
    folding: bool,
    lent: usize,
) -> Option<String> {
    let right = answers::build(answer, lent);
    for turn in [false, true] {
        let (built, told) = lend(lent, turn, |buffer| calls.build(text, folding, buffer), |_| right.plate.clone());
        let wanted = raw::Built { number: right.number, line: right.line, length: right.plate.len() as u64 };
        if built != wanted {
            return Some(format!("answered {built:?}, right is {wanted:?}"));
        }
        if told.is_some() {
            return told;
        }
    }
    None
}

/// What is wrong with encode's or list's answer; in the buffer that takes every list, with is_plate's too.
pub fn code_differs(
    calls: &dyn Calls,
    answer: &NameAnswer,
    call: Call,
    plate: &[u8],
    name: &[u8],
    lent: usize,
) -> Option<String> {
    let right = answers::code(answer, lent);
    let run = |buffer: &mut [u8]| match call {
        Call::Encode => calls.encode(plate, name, buffer),
        Call::List => calls.list(plate, name, buffer),
    };
    let (coded, told) = lend(lent, false, run, |_| right.codes.clone());
    let wanted = raw::Coded { number: right.number, count: right.count, place: right.place };
    if coded != wanted {
        return Some(format!("answered {coded:?}, right is {wanted:?}"));
    }
    if lent == LONGEST_LIST && calls.is_plate(plate) == (right.number == 10) {
        return Some(format!("is_plate and refusal {} do not agree", right.number));
    }
    told
}

impl Case {
    /// What is wrong with the answer to this case, judged afresh.
    pub fn differs(&self, calls: &dyn Calls) -> Option<String> {
        match self {
            Case::Build { text, folding, lent } => {
                let (answer, _, told) = text_answer(text, *folding);
                told.or_else(|| build_differs(calls, &answer, text, *folding, *lent))
            }
            Case::Code { call, rules: Rules::Text(text, folding), name, lent } => {
                let (answer, coder, _) = text_answer(text, *folding);
                let (plate, content) = answer.ok()?;
                let (answer, told) = name_answer(Some(&content), coder.as_ref(), name, *call);
                told.or_else(|| code_differs(calls, &answer, *call, &plate, name, *lent))
            }
            Case::Code { call, rules: Rules::Plate(bytes), name, lent } => {
                let content = plate::read(bytes);
                let (answer, _) = name_answer(content.as_ref(), None, name, *call);
                code_differs(calls, &answer, *call, bytes, name, *lent)
            }
        }
    }

    /// A case that still differs, as small as can be had by leaving out bytes, in a bounded number of tries.
    pub fn smallest(mut self, calls: &dyn Calls) -> Self {
        let mut tries = TRIES;
        loop {
            let before = self.size();
            for part in 0..2 {
                self.shorten(calls, part, &mut tries);
            }
            for lent in 0..*self.lent() {
                let mut less = self.clone();
                *less.lent() = lent;
                if less.still_differs(calls, &mut tries) {
                    self = less;
                    break;
                }
            }
            if self.size() == before || tries == 0 {
                return self;
            }
        }
    }

    /// Leaves out pieces of one input, long ones first, as long as the case still differs.
    fn shorten(&mut self, calls: &dyn Calls, part: usize, tries: &mut usize) {
        let mut width = self.part(part).map_or(0, |bytes| bytes.len());
        while width > 0 {
            let mut at = 0;
            while self.part(part).is_some_and(|bytes| at < bytes.len()) && *tries > 0 {
                let mut less = self.clone();
                if let Some(bytes) = less.part(part) {
                    let end = (at + width).min(bytes.len());
                    bytes.drain(at..end);
                }
                match less.still_differs(calls, tries) {
                    true => *self = less,
                    false => at += width,
                }
            }
            width = if width > 64 { width / 2 } else { width - 1 };
        }
    }

    /// Whether the case differs, at the cost of a try; with no tries left, no.
    fn still_differs(&self, calls: &dyn Calls, tries: &mut usize) -> bool {
        if *tries == 0 {
            return false;
        }
        *tries -= 1;
        self.differs(calls).is_some()
    }

    fn part(&mut self, part: usize) -> Option<&mut Vec<u8>> {
        match (self, part) {
            (Case::Build { text, .. }, 0) => Some(text),
            (Case::Code { rules: Rules::Text(text, _) | Rules::Plate(text), .. }, 0) => Some(text),
            (Case::Code { name, .. }, 1) => Some(name),
            _ => None,
        }
    }

    fn lent(&mut self) -> &mut usize {
        match self {
            Case::Build { lent, .. } | Case::Code { lent, .. } => lent,
        }
    }

    fn size(&mut self) -> usize {
        let parts: usize = (0..2).filter_map(|part| self.part(part).map(|bytes| bytes.len())).sum();
        parts + *self.lent()
    }
}

impl fmt::Display for Case {
    fn fmt(&self, f: &mut fmt::Formatter<'_>) -> fmt::Result {
        match self {
            Case::Build { text, folding, lent } => {
                write!(f, "build, text \"{}\", folding {folding}, {lent} bytes lent", text.escape_ascii())
            }
            Case::Code { call, rules, name, lent } => {
                write!(f, "{call:?}, ")?;
                match rules {
                    Rules::Text(text, folding) => write!(f, "rules \"{}\", folding {folding}", text.escape_ascii())?,
                    Rules::Plate(bytes) => write!(f, "plate {bytes:02X?}")?,
                }
                write!(f, ", name \"{}\", {lent} bytes lent", name.escape_ascii())
            }
        }
    }
}
