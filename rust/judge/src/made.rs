//! Made inputs: rule texts, names, surnames, damaged copies, plates as long as can be.

use crate::codes::{allowed, WHITE};
use crate::random::Random;
use crate::{Content, Rule};

/// What a rule text is made of.
pub struct Taste {
    /// The letters of its patterns.
    pub letters: Vec<char>,
    /// The digits of its alternatives.
    pub digits: Vec<char>,
    /// The most alternatives that are usual.
    pub alternatives: usize,
    /// Whether patterns may hold letters outside ASCII.
    pub foreign: bool,
}

/// Characters that rule text treats in a way of its own, and a few that it does not.
const ODD: [char; 18] =
    ['=', '/', '*', '\\', '|', ' ', '\t', '\r', '\n', '\'', '-', '.', '1', 'A', 'Z', '\u{1}', '~', '\u{7F}'];

const FOREIGN: [char; 8] = ['ą', 'é', 'ß', 'ţ', 'ț', 'ж', '\u{FEFF}', '\u{10FFFF}'];

pub fn taste(random: &mut Random, foreign: bool) -> Taste {
    let alphabet: Vec<char> = "abcehimnorstuwxyz".chars().collect();
    let mut letters = Vec::new();
    for _ in 0..random.within(2, 7) {
        letters.push(random.one_of(&alphabet));
    }
    if random.once_in(3) {
        letters.extend(['m', 'n']);
    }
    if random.once_in(6) {
        letters.push(random.one_of(&ODD));
    }
    if foreign {
        letters.push(random.one_of(&FOREIGN));
    }
    let digits = match random.below(3) {
        0 => vec!['4', '5'],
        1 => vec!['3', '4', '6'],
        _ => ('0'..='9').collect(),
    };
    Taste { letters, digits, alternatives: random.one_of(&[1, 2, 2, 3, 8]), foreign }
}

/// A rule text within all limits. Its items mostly stand one to a line.
pub fn text(random: &mut Random, taste: &Taste, rules: usize) -> String {
    let mut text = String::new();
    for _ in 0..rules {
        text += &trifle(random);
        text += &rule(random, taste);
        text += &line_end(random);
    }
    if random.once_in(2) {
        for _ in 0..random.within(1, 6) {
            text += &folding(random, taste);
            text += &line_end(random);
        }
    }
    if random.once_in(8) {
        text.pop();
    }
    text
}

fn rule(random: &mut Random, taste: &Taste) -> String {
    let mut parts = vec![pattern(random, taste)];
    for _ in 0..3 {
        parts.push(field(random, taste));
    }
    if random.once_in(3) {
        parts[2] = parts[1].clone();
        parts[3] = parts[1].clone();
    }
    let mut rule = String::new();
    for (place, part) in parts.iter().enumerate() {
        if place > 0 {
            rule += random.one_of(&[" ", " ", " ", "\t", "  ", " \t"]);
        }
        rule += &format!("\"{part}\"");
    }
    rule
}

fn pattern(random: &mut Random, taste: &Taste) -> String {
    if random.once_in(200) {
        return "\\\"".to_string();
    }
    let length = match random.below(40) {
        0 => 16,
        1 => random.within(5, 15),
        _ => random.one_of(&[1, 1, 1, 2, 2, 3, 4]),
    };
    let mut pattern = String::new();
    while pattern.len() < length {
        let letter = random.one_of(&taste.letters);
        if letter.is_ascii() || taste.foreign {
            pattern.push(letter);
        }
    }
    while pattern.len() > 16 {
        pattern.pop();
    }
    pattern
}

fn field(random: &mut Random, taste: &Taste) -> String {
    let count = match random.once_in(3) {
        true => random.within(1, taste.alternatives),
        false => 1,
    };
    let alternatives: Vec<String> = (0..count).map(|_| alternative(random, taste)).collect();
    alternatives.join("|")
}

fn alternative(random: &mut Random, taste: &Taste) -> String {
    let length = match random.below(12) {
        0 => 6,
        1 => random.within(3, 5),
        2 | 3 => 0,
        4 | 5 => 2,
        _ => 1,
    };
    (0..length).map(|_| random.one_of(&taste.digits)).collect()
}

fn folding(random: &mut Random, taste: &Taste) -> String {
    let key = match random.below(8) {
        0 => character(random),
        1 => random.one_of(&ODD),
        2 => random.one_of(&FOREIGN),
        3 => random.one_of(&taste.letters),
        _ => char::from_u32(random.within(0xE0, 0x17F) as u32).unwrap_or('à'),
    };
    let target = match random.below(8) {
        0 => random.one_of(&ODD),
        1 => random.one_of(&FOREIGN),
        2 => random.one_of(&['a', 'e', 'i', 'o', 'u', 'm', 'n']),
        _ => random.one_of(&taste.letters),
    };
    let key = if key == '\0' { 'à' } else { key };
    format!("{key}={target}")
}

fn line_end(random: &mut Random) -> String {
    random.one_of(&["\n", "\n", "\n", "\n", "\n", "\r\n", " \n", "\t // c\n", "// \u{17F} \r\n", "//\n"]).to_string()
}

/// Something that says nothing: mostly nothing at all.
fn trifle(random: &mut Random) -> String {
    let trifle = match random.below(24) {
        0 => "\n",
        1 => "// a=b\n",
        2 => "/* \"a\" */\n",
        3 => "/*\n\n*/ // c\n",
        4 => "  \r\n",
        _ => "",
    };
    trifle.to_string()
}

/// Any character that a name may hold, below U+0180.
fn character(random: &mut Random) -> char {
    char::from_u32(random.below(0x180) as u32).unwrap_or('a')
}

/// A Cyrillic letter that a name may hold.
pub fn cyrillic(random: &mut Random) -> char {
    char::from_u32(random.within(0x400, 0x45F) as u32).unwrap_or('ж')
}

/// A name for these rules: of their letters for the most part, and of all that a name may hold. One in sixty holds a
/// character that it may not.
pub fn name(random: &mut Random, content: &Content) -> String {
    let length = match random.below(40) {
        0 => random.within(40, 270),
        1 => 256,
        2..=5 => random.within(13, 40),
        _ => random.within(0, 12),
    };
    let mut name = String::new();
    while name.len() < length {
        match random.below(16) {
            0 => name.push(character(random)),
            1 => name.push(random.one_of(&WHITE)),
            2 => name.push(random.one_of(&['a', 'e', 'i', 'o', 'u', 'y'])),
            3 => name.push(random.one_of(&['m', 'n', 'M', 'N'])),
            4 if !content.foldings.is_empty() => {
                let keys: Vec<char> = content.foldings.keys().copied().filter(|c| allowed(*c)).collect();
                if !keys.is_empty() {
                    name.push(random.one_of(&keys));
                }
            }
            _ if !content.rules.is_empty() => {
                let pattern = &content.rules[random.below(content.rules.len())].pattern;
                if pattern.chars().all(allowed) {
                    match random.below(6) {
                        0 => name.extend(pattern.chars().take(1)),
                        1 => name.extend(pattern.chars().flat_map(char::to_uppercase)),
                        _ => name += pattern,
                    }
                } else {
                    name.push('x');
                }
            }
            _ => name.push(character(random)),
        }
    }
    while length == 256 && name.len() > 256 {
        name.pop();
    }
    if random.once_in(60) {
        let places: Vec<usize> = name.char_indices().map(|(place, _)| place).chain([name.len()]).collect();
        let beyond = ['\u{180}', '\u{21B}', '\u{301}', '\u{3FF}', '\u{460}', '\u{200B}', '\u{7FF}', '\u{800}', '\u{FEFF}', '\u{10FFFF}'];
        name.insert(random.one_of(&places), random.one_of(&beyond));
    }
    name
}

/// A damaged copy: bytes changed, put in, taken out, doubled, cut off, or swapped for what rule text treats as marks.
pub fn damaged(random: &mut Random, good: &[u8]) -> Vec<u8> {
    let mut bytes = good.to_vec();
    for _ in 0..random.one_of(&[1, 1, 1, 2, 3, 6]) {
        let at = random.below(bytes.len() + 1);
        let mark = random.one_of(b"\"\"\"\"=/*\\| \t\r\n\n0a9\0\xFF\x80\xC3|x");
        match random.below(8) {
            0 => bytes.truncate(at),
            1 => bytes.insert(at, mark),
            2 if at < bytes.len() => bytes[at] = mark,
            3 if at < bytes.len() => bytes[at] ^= 1 << random.below(8),
            4 if at < bytes.len() => {
                bytes.remove(at);
            }
            5 => {
                let end = (at + random.below(20)).min(bytes.len());
                let copy = bytes[at..end].to_vec();
                let to = random.below(bytes.len() + 1);
                bytes.splice(to..to, copy);
            }
            6 => {
                let end = (at + random.below(12)).min(bytes.len());
                bytes.drain(at..end);
            }
            _ => bytes.insert(at, random.below(256) as u8),
        }
    }
    bytes
}

/// A made surname, as the old registers of the east write them.
pub fn surname(random: &mut Random) -> String {
    const FRONT: [&str; 56] = [
        "Ro", "Rosen", "Gold", "Schwar", "Ostro", "Zyl", "Szcze", "Brze", "Trze", "Kowal", "Novo", "Wejn", "Weiss",
        "Moskow", "Ja", "Je", "Ju", "Io", "Auer", "Eu", "Ai", "Ue", "Kra", "Chaj", "Chm", "Czar", "Tsch", "Dzier",
        "Drze", "Mn", "Nm", "Hor", "Haj", "Lip", "Łuk", "Śli", "Żół", "Źre", "Ćwi", "Ős", "Üb", "Öt", "Ág", "Éli",
        "Şer", "Ţep", "Dvoř", "Šim", "Žiž", "Čap", "Bą", "Dę", "Pf", "Ph", "Schtsch", "Str",
    ];
    const MIDDLE: [&str; 40] = [
        "so", "cho", "wa", "wi", "ber", "man", "mn", "nm", "ck", "ch", "cz", "sz", "rz", "rs", "sch", "scht", "szcz",
        "tsch", "dz", "dzh", "zd", "zhd", "ks", "kh", "chs", "au", "ia", "ie", "ui", "ue", "ej", "j", "h", "ę", "ą",
        "ő", "ł", "ń", "tt", "x",
    ];
    const END: [&str; 36] = [
        "ciec", "ski", "sky", "cki", "wicz", "witz", "vitch", "berg", "burg", "stein", "sztajn", "mann", "feld",
        "baum", "blum", "er", "ek", "ak", "uk", "enko", "ov", "ova", "owa", "ia", "escu", "ţa", "ány", "ey", "tz",
        "ts", "th", "dt", "rz", "ński", "", "es",
    ];
    let mut name = random.one_of(&FRONT).to_string();
    for _ in 0..random.below(4) {
        name += random.one_of(&MIDDLE);
    }
    name += random.one_of(&END);
    match random.below(12) {
        0 => name.to_uppercase(),
        1 => name.to_lowercase(),
        2 => format!("{name}-{}", random.one_of(&FRONT)),
        3 => format!("von {name}"),
        _ => name,
    }
}

/// Rules of 16 bytes, eight alternatives of six digits in every field, 128 foldings: 51,428 bytes for 512 rules, 149,364 for 1,500.
pub fn longest_plate(random: &mut Random, rules: usize) -> Content {
    let mut content = Content { folding: true, ..Content::default() };
    content.foldings.extend((0xE0..0x160).filter_map(char::from_u32).map(|key| (key, 'a')));
    for number in 0..rules {
        let first = ["a", "c", "m", "r"][number * 4 / rules];
        let mut field = || (0..8).map(|_| format!("{:06}", random.below(1_000_000))).collect();
        content.rules.push(Rule { pattern: format!("{first}{number:015}"), fields: [field(), field(), field()] });
    }
    content
}

/// Rules that begin with r, the longest first, each pattern several times.
pub fn crowded_plate(random: &mut Random, rules: usize) -> Content {
    let mut content = Content::default();
    for number in 0..rules {
        let mut field = || vec![random.below(10).to_string()];
        let fields = [field(), field(), field()];
        content.rules.push(Rule { pattern: format!("r{}", "o".repeat(15 - number * 16 / rules)), fields });
    }
    content
}

#[cfg(test)]
mod tests {
    use super::*;
    use crate::plate;

    #[test]
    fn the_longest_plate() {
        assert_eq!(plate::write(&longest_plate(&mut Random::new(1), 512)).len(), 51_428);
        assert_eq!(plate::write(&longest_plate(&mut Random::new(1), 1_500)).len(), 149_364);
    }

    #[test]
    fn a_crowded_plate_is_one() {
        for rules in [512, 513, 1_500] {
            let content = crowded_plate(&mut Random::new(1), rules);
            assert_eq!(plate::read(&plate::write(&content)), Some(content));
        }
    }
}
