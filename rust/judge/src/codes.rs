//! From name to codes.

use crate::{Content, Rule};

/// The most branches held side by side.
pub const BRANCHES: usize = 64;

/// The 25 White_Space characters.
pub const WHITE: [char; 25] = [
    '\u{9}', '\u{A}', '\u{B}', '\u{C}', '\u{D}', '\u{20}', '\u{85}', '\u{A0}', '\u{1680}', '\u{2000}', '\u{2001}',
    '\u{2002}', '\u{2003}', '\u{2004}', '\u{2005}', '\u{2006}', '\u{2007}', '\u{2008}', '\u{2009}', '\u{200A}',
    '\u{2028}', '\u{2029}', '\u{202F}', '\u{205F}', '\u{3000}',
];

/// Whether a name may hold the character.
pub fn allowed(c: char) -> bool {
    WHITE.contains(&c) || c < '\u{180}' || ('\u{400}'..='\u{45F}').contains(&c)
}

/// A branch: its digits so far and its last replacement.
#[derive(Debug, Clone, PartialEq, Eq)]
struct Branch {
    digits: String,
    last: String,
}

/// How a name was walked.
#[derive(Debug, Clone, PartialEq, Eq)]
pub struct Walked {
    /// The codes, in order, each once; none if more branches came up than are ever held.
    pub codes: Vec<String>,
    /// The longest branch list, at the start or after some step; the walk ends behind one over 64.
    pub longest: usize,
    /// Whether a pattern outside ASCII was taken. There the Rust counts bytes where characters are meant.
    pub foreign: bool,
}

/// What the rules have for the characters from here on.
enum Found<'a> {
    NoGroup,
    NoMatch,
    Rule { rule: &'a Rule, length: usize },
}

/// Each code once, the first place stays (M-105). The Rust lists doubles: they are struck from its list.
pub fn once(codes: impl IntoIterator<Item = String>) -> Vec<String> {
    let mut listed = Vec::new();
    for code in codes {
        if !listed.contains(&code) {
            listed.push(code);
        }
    }
    listed
}

/// Walks a name whose characters are all allowed.
pub fn walk(content: &Content, name: &str, branching: bool) -> Walked {
    let source = source(content, name);
    let mut branches = vec![Branch { digits: String::new(), last: String::new() }];
    let mut walked = Walked { codes: Vec::new(), longest: 1, foreign: false };
    let mut before: Option<char> = None;
    let mut at = 0;
    while at < source.len() {
        let first = source[at];
        match found(content, &source[at..]) {
            Found::NoGroup => {
                at += 1;
                continue;
            }
            Found::NoMatch => at += 1,
            Found::Rule { rule, length } => {
                at += length;
                let field = match (before, source.get(at)) {
                    (None, _) => &rule.fields[0],
                    (Some(_), Some('a' | 'e' | 'i' | 'o' | 'u')) => &rule.fields[1],
                    _ => &rule.fields[2],
                };
                let field = if branching { &field[..] } else { &field[..1] };
                let anyway = matches!((before, first), (Some('m'), 'n') | (Some('n'), 'm'));
                branches = step(&branches, field, anyway);
                walked.foreign |= !rule.pattern.is_ascii();
                walked.longest = walked.longest.max(branches.len());
                if branches.len() > BRANCHES {
                    return walked;
                }
            }
        }
        before = Some(first);
    }
    walked.codes = once(branches.iter().map(|branch| format!("{:0<6}", branch.digits)));
    walked
}

/// The longest pattern that begins here, of equal patterns the first.
fn found<'a>(content: &'a Content, rest: &[char]) -> Found<'a> {
    let mut found = Found::NoGroup;
    let mut longest = 0;
    for rule in content.rules.iter().filter(|rule| rule.pattern.starts_with(rest[0])) {
        let pattern: Vec<char> = rule.pattern.chars().collect();
        if rest.starts_with(&pattern) && pattern.len() > longest {
            longest = pattern.len();
            found = Found::Rule { rule, length: longest };
        }
        if longest == 0 {
            found = Found::NoMatch;
        }
    }
    found
}

/// The characters of the name, dropped, lowered and folded.
fn source(content: &Content, name: &str) -> Vec<char> {
    let lowered = name.chars().filter(|c| !WHITE.contains(c)).map(lower);
    lowered
        .map(|c| match content.folding {
            true => *content.foldings.get(&c).unwrap_or(&c),
            false => c,
        })
        .collect()
}

fn lower(c: char) -> char {
    match c {
        '\u{130}' => 'i',
        _ => c.to_lowercase().next().unwrap_or(c),
    }
}

/// Each branch, in order, meets each alternative, in order; a branch equal to an earlier one is dropped.
fn step(branches: &[Branch], field: &[String], anyway: bool) -> Vec<Branch> {
    let mut next = Vec::new();
    for branch in branches {
        for alternative in field {
            let mut digits = branch.digits.clone();
            if anyway || !branch.last.ends_with(alternative.as_str()) {
                digits += alternative;
                digits.truncate(6);
            }
            let met = Branch { digits, last: alternative.clone() };
            if !next.contains(&met) {
                next.push(met);
            }
            if next.len() > BRANCHES {
                return next;
            }
        }
    }
    next
}
