//! Runs cases, counts them, and keeps what differs.

use crate::calls::Calls;
use crate::case::{self, Case, NameAnswer, Rules};
use judge::answers::{self, Call};
use judge::codes::BRANCHES;
use judge::{plate, Content};
use oracle::Coder;
use std::collections::BTreeSet;
use std::time::Instant;

/// How many differences are made as small as can be, and how many of the small ones are shown.
const LOOKED_AT: u64 = 200;
const SHOWN: usize = 20;

/// Rules that names are run against: where they come from, the plate, what it holds, the Rust's coder where there is one.
pub struct Ready {
    rules: Rules,
    plate: Vec<u8>,
    pub content: Option<Content>,
    coder: Option<Coder>,
}

pub struct Runs<'a> {
    calls_of: &'a dyn Calls,
    /// In a control nothing is told, and nothing is asked any more once a difference was found.
    control: bool,
    pub differences: u64,
    /// (rules, name) pairs, and those of them whose codes the Rust gave.
    pub pairs: u64,
    with_rust: u64,
    /// Rule texts, and those of them that the Rust refuses too.
    texts: u64,
    refused: u64,
    /// Calls of build, encode and list, all and by the number that is right.
    calls: [u64; 3],
    numbers: [[u64; 13]; 3],
    shown: BTreeSet<String>,
    begun: Instant,
}

impl<'a> Runs<'a> {
    pub fn new(calls_of: &'a dyn Calls, control: bool) -> Self {
        Self {
            calls_of,
            control,
            differences: 0,
            pairs: 0,
            with_rust: 0,
            texts: 0,
            refused: 0,
            calls: [0; 3],
            numbers: [[0; 13]; 3],
            shown: BTreeSet::new(),
            begun: Instant::now(),
        }
    }

    /// Says what the section brought.
    pub fn section(&self, words: &str) {
        if self.control {
            return;
        }
        let calls: u64 = self.calls.iter().sum();
        let seconds = self.begun.elapsed().as_secs_f64();
        println!(
            "{seconds:6.1} s, behind {words}: {} texts, {} pairs ({} coded by the Rust), {calls} calls",
            self.texts, self.pairs, self.with_rust
        );
    }

    /// Whether enough is known: in a control one difference is.
    pub fn is_done(&self) -> bool {
        self.control && self.differences > 0
    }

    /// Builds the text into buffers of many lengths. The rules, if it is built.
    pub fn text(&mut self, text: &[u8], folding: bool) -> Option<Ready> {
        let (answer, coder, told) = case::text_answer(text, folding);
        self.texts += 1;
        let mut lents = BTreeSet::from([0, 4, 64]);
        if let Ok((plate, _)) = &answer {
            let exact = plate.len();
            lents.extend([exact - 2, exact - 1, exact, exact + 1, exact + 100]);
            if self.texts % 16 == 0 {
                lents.extend(0..=8);
                lents.extend([51_427, 51_428, 51_429]);
            }
        }
        if matches!(answer, Err(fault) if fault.number == 3) {
            self.refused += 1;
        }
        let make = |lent| Case::Build { text: text.to_vec(), folding, lent };
        if let Some(told) = told {
            self.difference(make(51_428), told);
        }
        for lent in lents {
            if self.is_done() {
                break;
            }
            self.count(0, answers::build(&answer, lent).number);
            if let Some(told) = case::build_differs(self.calls_of, &answer, text, folding, lent) {
                self.difference(make(lent), told);
            }
        }
        let (plate, content) = answer.ok()?;
        Some(Ready { rules: Rules::Text(text.to_vec(), folding), plate, content: Some(content), coder })
    }

    /// Rules given as a plate, or as bytes that are none.
    pub fn plate(&mut self, bytes: Vec<u8>) -> Ready {
        let content = plate::read(&bytes);
        Ready { rules: Rules::Plate(bytes.clone()), plate: bytes, content, coder: None }
    }

    /// Encodes and lists the name into buffers of many lengths: 0 to 8, around the list's own length, around the length
    /// of the longest branch list, around 447.
    pub fn name(&mut self, ready: &Ready, name: &[u8]) {
        if self.is_done() {
            return;
        }
        self.pairs += 1;
        let listed = self.answer(ready, name, Call::List);
        let mut lents = BTreeSet::from([0, 1, 5, 6, 7, 8, 447]);
        if let Ok(walked) = &listed {
            if self.pairs % 4 == 0 {
                lents.extend(0..=14);
                lents.extend([446, 448, 600]);
            }
            for codes in [walked.codes.len(), walked.longest] {
                let exact = (7 * codes).saturating_sub(1);
                lents.extend([exact.saturating_sub(1), exact, exact + 1]);
            }
        }
        self.lengths(ready, name, Call::List, &listed, lents);
        let encoded = self.answer(ready, name, Call::Encode);
        self.lengths(ready, name, Call::Encode, &encoded, BTreeSet::from([0, 5, 6, 7, 13, 447]));
    }

    /// Lists the name into one buffer that takes every list.
    pub fn name_once(&mut self, ready: &Ready, name: &[u8]) {
        if self.is_done() {
            return;
        }
        self.pairs += 1;
        let listed = self.answer(ready, name, Call::List);
        self.lengths(ready, name, Call::List, &listed, BTreeSet::from([447]));
    }

    fn answer(&mut self, ready: &Ready, name: &[u8], call: Call) -> NameAnswer {
        let (answer, told) = case::name_answer(ready.content.as_ref(), ready.coder.as_ref(), name, call);
        if let Some(told) = told {
            self.difference(Case::Code { call, rules: ready.rules.clone(), name: name.to_vec(), lent: 447 }, told);
        }
        if let (Ok(walked), Some(_), Call::List) = (&answer, &ready.coder, call) {
            self.with_rust += (!walked.foreign && walked.longest <= BRANCHES) as u64;
        }
        answer
    }

    fn lengths(&mut self, ready: &Ready, name: &[u8], call: Call, answer: &NameAnswer, lents: BTreeSet<usize>) {
        for lent in lents {
            self.count(1 + (call == Call::List) as usize, answers::code(answer, lent).number);
            if let Some(told) = case::code_differs(self.calls_of, answer, call, &ready.plate, name, lent) {
                self.difference(Case::Code { call, rules: ready.rules.clone(), name: name.to_vec(), lent }, told);
            }
        }
    }

    fn count(&mut self, call: usize, number: u64) {
        self.calls[call] += 1;
        self.numbers[call][number as usize] += 1;
    }

    fn difference(&mut self, case: Case, told: String) {
        self.differences += 1;
        if self.control {
            return;
        }
        if self.differences <= LOOKED_AT && self.shown.len() < SHOWN {
            let small = case.smallest(self.calls_of);
            let told = small.differs(self.calls_of).unwrap_or(told);
            let words = format!("{small}: {told}");
            if self.shown.insert(words.clone()) {
                println!("DIFFERENCE: {words}");
            }
        }
    }

    /// Prints the counts and, last, how many differences there were.
    pub fn tell(&self) {
        println!("{} rule texts, {} of them refused by the Rust too", self.texts, self.refused);
        println!("{} (rules, name) pairs, the codes of {} of them given by the Rust", self.pairs, self.with_rust);
        for (call, words) in ["build", "encode", "list"].iter().enumerate() {
            let numbers = self.numbers[call].iter().enumerate().filter(|(_, times)| **times > 0);
            let numbers: Vec<String> = numbers.map(|(number, times)| format!("{number}: {times}")).collect();
            println!("{} calls of {words}; by number {}", self.calls[call], numbers.join(", "));
        }
        println!("{} differences", self.differences);
    }
}
