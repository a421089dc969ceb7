//! Plates: bits, most significant first.

use crate::text::{ALTERNATIVES, DIGITS, KEYS, PATTERN, RULES};
use crate::{Content, Rule};

/// An edition: its number, the bits of its rule count, the least and the most rules.
pub struct Edition {
    pub number: usize,
    pub width: usize,
    pub least: usize,
    pub most: usize,
}

pub const EDITIONS: [Edition; 2] =
    [Edition { number: 1, width: 10, least: 0, most: 512 }, Edition { number: 2, width: 11, least: 513, most: RULES }];

/// The bytes of a plate.
pub fn write(content: &Content) -> Vec<u8> {
    let edition = EDITIONS.iter().find(|edition| content.rules.len() <= edition.most).unwrap_or(&EDITIONS[1]);
    write_in(edition, content)
}

/// The bytes of a plate of an edition, whether it may hold so many rules or not.
pub fn write_in(edition: &Edition, content: &Content) -> Vec<u8> {
    let mut bits = Vec::new();
    put(&mut bits, 8, edition.number);
    put(&mut bits, edition.width, content.rules.len());
    put(&mut bits, 8, content.foldings.len());
    put(&mut bits, 1, content.folding as usize);
    put(&mut bits, 15 - edition.width, 0);
    for (key, target) in &content.foldings {
        put(&mut bits, 21, *key as usize);
        put(&mut bits, 21, *target as usize);
    }
    for rule in &content.rules {
        put(&mut bits, 5, rule.pattern.len());
        for byte in rule.pattern.bytes() {
            put(&mut bits, 8, byte as usize);
        }
        for field in &rule.fields {
            put(&mut bits, 4, field.len());
            for alternative in field {
                put(&mut bits, 3, alternative.len());
                for digit in alternative.bytes() {
                    put(&mut bits, 4, (digit - b'0') as usize);
                }
            }
        }
    }
    while bits.len() % 8 != 0 {
        bits.push(false);
    }
    bits.chunks(8).map(|byte| byte.iter().fold(0, |sum, bit| 2 * sum + *bit as u8)).collect()
}

fn put(bits: &mut Vec<bool>, width: usize, value: usize) {
    for place in (0..width).rev() {
        bits.push(value >> place & 1 == 1);
    }
}

/// What the plate holds, or none if these bytes are no plate.
pub fn read(bytes: &[u8]) -> Option<Content> {
    let mut bits = bytes.iter().flat_map(|byte| (0..8).rev().map(move |place| byte >> place & 1));
    let mut take = |width: usize| (0..width).try_fold(0, |sum, _| Some(2 * sum + bits.next()? as usize));
    let number = take(8)?;
    let edition = EDITIONS.iter().find(|edition| edition.number == number)?;
    let rule_count = within(take(edition.width)?, edition.least, edition.most)?;
    let folding_count = within(take(8)?, 0, KEYS)?;
    let mut content = Content { folding: take(1)? == 1, ..Content::default() };
    within(take(15 - edition.width)?, 0, 0)?;
    for _ in 0..folding_count {
        let (key, target) = (scalar(take(21)?)?, scalar(take(21)?)?);
        if content.foldings.last_key_value().is_some_and(|(last, _)| *last >= key) {
            return None;
        }
        content.foldings.insert(key, target);
    }
    for _ in 0..rule_count {
        let length = within(take(5)?, 1, PATTERN)?;
        let pattern: Vec<u8> = (0..length).map(|_| Some(take(8)? as u8)).collect::<Option<_>>()?;
        let pattern = String::from_utf8(pattern).ok()?;
        if pattern.contains('\0') {
            return None;
        }
        let mut fields: [Vec<String>; 3] = Default::default();
        for field in &mut fields {
            for _ in 0..within(take(4)?, 1, ALTERNATIVES)? {
                let digits = within(take(3)?, 0, DIGITS)?;
                let alternative = (0..digits).map(|_| Some((b'0' + within(take(4)?, 0, 9)? as u8) as char));
                field.push(alternative.collect::<Option<_>>()?);
            }
        }
        let rule = Rule { pattern, fields };
        if content.rules.last().is_some_and(|last| falls(last, &rule)) {
            return None;
        }
        content.rules.push(rule);
    }
    let fill: Vec<u8> = bits.collect();
    (fill.len() < 8 && fill.iter().all(|bit| *bit == 0)).then_some(content)
}

/// Whether the two rules may not stand in this order.
fn falls(a: &Rule, b: &Rule) -> bool {
    let (first, next) = (a.pattern.chars().next(), b.pattern.chars().next());
    next < first || (next == first && b.pattern.len() > a.pattern.len())
}

fn within(value: usize, least: usize, most: usize) -> Option<usize> {
    (least <= value && value <= most).then_some(value)
}

fn scalar(value: usize) -> Option<char> {
    char::from_u32(value as u32).filter(|c| *c != '\0')
}

#[cfg(test)]
mod tests {
    use super::{read, write};
    use crate::text;

    #[test]
    fn the_whole_example() {
        let content = text::read(b"\"a\" \"0\" \"\" \"\"\n", true).unwrap();
        assert_eq!(write(&content), [0x01, 0x00, 0x40, 0x20, 0x0B, 0x08, 0x90, 0x10, 0x20]);
        assert_eq!(read(&write(&content)), Some(content));
        assert_eq!(write(&text::read(b"", true).unwrap()), [0x01, 0x00, 0x00, 0x20]);
    }

    #[test]
    fn the_standard_rules_come_back() {
        let content = text::read(crate::STANDARD.as_bytes(), true).unwrap();
        assert_eq!(content.rules.len(), 150);
        assert_eq!(read(&write(&content)), Some(content));
    }
}
