//! The judge: what the right answer is, from the scope paper's own words, for whatever the oracle cannot say.
//!
//! Plainly written, on strings and vectors, with no eye to speed. `text` reads rule text, `plate` writes and reads
//! plates, `codes` walks a name, `answers` puts number, line, count and bytes together. `random` and `made` make inputs.

pub mod answers;
pub mod codes;
pub mod made;
pub mod plate;
pub mod random;
pub mod text;

use std::collections::BTreeMap;

/// A rule: its pattern and its three fields (start, before vowel, default), each a list of alternatives.
#[derive(Debug, Clone, PartialEq, Eq)]
pub struct Rule {
    pub pattern: String,
    pub fields: [Vec<String>; 3],
}

/// What a plate holds.
#[derive(Debug, Clone, PartialEq, Eq, Default)]
pub struct Content {
    pub folding: bool,
    pub foldings: BTreeMap<char, char>,
    pub rules: Vec<Rule>,
}

/// The small text S of the scope paper.
pub const SMALL: &str = "\
à=a
\"a\" \"0\" \"\" \"\"
\"o\" \"0\" \"\" \"\"
\"ie\" \"1\" \"\" \"\"
\"ch\" \"4|5\" \"4|5\" \"4|5\"
\"c\" \"4|5\" \"4|5\" \"4|5\"
\"r\" \"9\" \"9\" \"9\"
\"s\" \"4\" \"4\" \"4\"
\"w\" \"7\" \"7\" \"7\"
\"m\" \"6\" \"6\" \"6\"
\"n\" \"6\" \"6\" \"6\"
\"h\" \"5\" \"5\" \"\"
";

/// The project's standard rules.
pub const STANDARD: &str = include_str!("../../../rules/daitch-mokotoff.txt");
