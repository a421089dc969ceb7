//! Rule text, item by item.

use crate::{Content, Rule};
use std::collections::{BTreeMap, BTreeSet};

/// The most bytes of a rule text, and of a pattern; the most alternatives, digits, rules and folding keys.
pub const TEXT: usize = 65_536;
pub const PATTERN: usize = 16;
pub const ALTERNATIVES: usize = 8;
pub const DIGITS: usize = 6;
pub const RULES: usize = 1_500;
pub const KEYS: usize = 128;

/// An item of rule text.
enum Item<'a> {
    Rule([&'a str; 4]),
    Folding(char, char),
    LineEnd,
    Comment,
}

/// A refusal: its number, and of an item the line of its first byte, 1 plus the newlines before it.
#[derive(Debug, Clone, Copy, PartialEq, Eq)]
pub struct Fault {
    pub number: u64,
    pub line: u64,
}

/// What the text says, in the order of the plate; or its first fault.
pub fn read(text: &[u8], folding: bool) -> Result<Content, Fault> {
    if text.len() > TEXT {
        return Err(Fault { number: 1, line: 0 });
    }
    let text = match std::str::from_utf8(text) {
        Ok(text) if !text.contains('\0') => text,
        _ => return Err(Fault { number: 2, line: 0 }),
    };
    let mut foldings = BTreeMap::new();
    let mut rules: Vec<Rule> = Vec::new();
    let fault = |number: u64, rest: &str| {
        let before = &text[..text.len() - rest.len()];
        Fault { number, line: 1 + before.matches('\n').count() as u64 }
    };
    let mut rest = text;
    while !rest.is_empty() {
        let Some((item, behind)) = item(rest) else {
            return Err(fault(3, rest));
        };
        match item {
            Item::Rule(parts) => {
                let rule = rule(parts).map_err(|number| fault(number, rest))?;
                if rules.len() == RULES {
                    return Err(fault(8, rest));
                }
                rules.push(rule);
            }
            Item::Folding(key, target) => {
                if foldings.len() == KEYS && !foldings.contains_key(&key) {
                    return Err(fault(8, rest));
                }
                foldings.insert(key, target);
            }
            Item::LineEnd | Item::Comment => {}
        }
        rest = behind;
    }
    // M-107: of equal patterns the first stays; all were counted.
    let mut patterns = BTreeSet::new();
    rules.retain(|rule| patterns.insert(rule.pattern.clone()));
    rules.sort_by(|a, b| {
        let (first, other) = (a.pattern.chars().next(), b.pattern.chars().next());
        first.cmp(&other).then(b.pattern.len().cmp(&a.pattern.len()))
    });
    Ok(Content { folding, foldings, rules })
}

/// The first item of the rest and what stands behind it: the first form that fits.
fn item(rest: &str) -> Option<(Item<'_>, &str)> {
    rule_form(rest)
        .or_else(|| folding_form(rest))
        .or_else(|| line_end(rest).map(|behind| (Item::LineEnd, behind)))
        .or_else(|| comment_form(rest))
}

/// Form 1: four quoted parts, blanks between them, a line end.
fn rule_form(rest: &str) -> Option<(Item<'_>, &str)> {
    let (first, rest) = part(rest)?;
    let (second, rest) = part(blanks(rest)?)?;
    let (third, rest) = part(blanks(rest)?)?;
    let (fourth, rest) = part(blanks(rest)?)?;
    Some((Item::Rule([first, second, third, fourth]), line_end(rest)?))
}

/// A quoted part: its content and what stands behind it.
fn part(rest: &str) -> Option<(&str, &str)> {
    let open = rest.strip_prefix('"')?;
    let length = if open.starts_with("\\\"") { 2 } else { open.find('"')? };
    let behind = open[length..].strip_prefix('"')?;
    Some((&open[..length], behind))
}

/// What stands behind one or more spaces or tabs.
fn blanks(rest: &str) -> Option<&str> {
    let behind = rest.trim_start_matches([' ', '\t']);
    (behind.len() < rest.len()).then_some(behind)
}

/// Form 2: any character, `=`, any character, a line end.
fn folding_form(rest: &str) -> Option<(Item<'_>, &str)> {
    let mut chars = rest.chars();
    let key = chars.next()?;
    if chars.next()? != '=' {
        return None;
    }
    let target = chars.next()?;
    Some((Item::Folding(key, target), line_end(chars.as_str())?))
}

/// Form 3: blanks or none, a `//` comment or none, then newline, CR LF or the end of the text.
fn line_end(rest: &str) -> Option<&str> {
    let rest = rest.trim_start_matches([' ', '\t']);
    let rest = match rest.starts_with("//") {
        true => &rest[rest.find('\n').unwrap_or(rest.len())..],
        false => rest,
    };
    if rest.is_empty() {
        return Some(rest);
    }
    rest.strip_prefix('\n').or_else(|| rest.strip_prefix("\r\n"))
}

/// Form 4: `/*`, up to the first `*/` behind it, a line end.
fn comment_form(rest: &str) -> Option<(Item<'_>, &str)> {
    let (_, behind) = rest.strip_prefix("/*")?.split_once("*/")?;
    Some((Item::Comment, line_end(behind)?))
}

/// The rule of four parts, or the number of its first fault.
fn rule([pattern, fields @ ..]: [&str; 4]) -> Result<Rule, u64> {
    if pattern.is_empty() {
        return Err(4);
    }
    if pattern.len() > PATTERN {
        return Err(5);
    }
    let mut read: [Vec<String>; 3] = Default::default();
    for (field, alternatives) in fields.iter().zip(&mut read) {
        *alternatives = field.split('|').map(str::to_string).collect();
        if alternatives.len() > ALTERNATIVES {
            return Err(6);
        }
        if alternatives.iter().any(|a| a.len() > DIGITS || !a.bytes().all(|b| b.is_ascii_digit())) {
            return Err(7);
        }
    }
    Ok(Rule { pattern: pattern.to_string(), fields: read })
}
