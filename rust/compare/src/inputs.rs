//! The inputs, section by section.

use crate::runs::{Ready, Runs};
use judge::made;
use judge::random::Random;
use judge::{plate, Rule, SMALL, STANDARD};

pub fn all(runs: &mut Runs, times: usize, seed: u64) {
    examples(runs);
    short_texts(runs);
    short_rules(runs);
    limits(runs);
    orders(runs);
    short_names(runs);
    characters(runs);
    bytes(runs);
    pairs(runs, &mut Random::new(seed), 7_500 * times);
    damaged_texts(runs, &mut Random::new(seed + 1_000), 40_000 * times);
    full_plates(runs, &mut Random::new(seed + 2_000), 12 * times);
    damaged_plates(runs, &mut Random::new(seed + 3_000), 30_000 * times);
    foreign_patterns(runs, &mut Random::new(seed + 4_000), 1_000 * times);
    surnames(runs, &mut Random::new(seed + 5_000), 5_000 * times);
    cyrillic(runs, &mut Random::new(seed + 6_000), 2_000 * times);
}

/// Of each section but the longest a part: what a wrong coder is held to.
pub fn some(runs: &mut Runs) {
    let parts: [fn(&mut Runs); 12] = [
        examples,
        orders,
        |runs| pairs(runs, &mut Random::new(1), 150),
        |runs| surnames(runs, &mut Random::new(2), 100),
        |runs| foreign_patterns(runs, &mut Random::new(3), 50),
        |runs| damaged_texts(runs, &mut Random::new(4), 500),
        |runs| damaged_plates(runs, &mut Random::new(5), 500),
        |runs| full_plates(runs, &mut Random::new(6), 2),
        |runs| cyrillic(runs, &mut Random::new(7), 50),
        limits,
        short_names,
        characters,
    ];
    for part in parts {
        if !runs.is_done() {
            part(runs);
        }
    }
}

fn small(runs: &mut Runs, folding: bool) -> Ready {
    runs.text(SMALL.as_bytes(), folding).expect("the paper's small text is built")
}

/// A name that has 49 branches and then 65, one more than are held: 13 codes, each with five last replacements.
const SIXTY_FIVE: &str = "\"a\" \"111111|222222|333333|444444|555555|666666|7\" \"\" \"\"
\"b\" \"\" \"\" \"10001|10002|10003|10004|10005|10006|10007\"
\"c\" \"\" \"\" \"1|2|3|4|5\"
";

/// The paper's examples, and the smallest inputs of docs/DECISIONS.md.
fn examples(runs: &mut Runs) {
    let crowded = runs.text(SIXTY_FIVE.as_bytes(), false).expect("a text of three rules is built");
    runs.name(&crowded, b"abc");
    for folding in [true, false] {
        let ready = small(runs, folding);
        let long = ["r".repeat(256), "r".repeat(257), " ".repeat(257), "\u{2003}".repeat(85)];
        let names = [
            "",
            "mm",
            "mn",
            "nm",
            "mon",
            "xh",
            "ih",
            "rh",
            "rha",
            "cc",
            "rwrwrwc",
            "Àr",
            "Rosochowaciec",
            "cacacacacaca",
            "cacacacacacac",
            "cacacacacacaca",
            "mxn",
            "min",
            "m\0n",
            "\u{130}e",
            "\u{17F}",
            "\u{180}",
            "\u{2003}r\u{2003}",
            "rr a",
            "hc",
            "\u{1C}",
            "ж",
        ];
        for name in names.into_iter().chain(long.iter().map(String::as_str)) {
            runs.name(&ready, name.as_bytes());
        }
        runs.name(&ready, b"\xC6\x80\xFF");
        runs.name(&ready, b"\xE2\x82");
    }
    let texts = [
        "",
        "\n",
        "\"a\" \"0\" \"\" \"\"\n",
        "\"=\"",
        "\"=\" \"\" \"\" \"\"",
        " =x",
        "\n=x",
        "//\n=x",
        "a=\n",
        "a=\r\n",
        "a=\nb=c",
        "a=b\r",
        "a=\r",
        "a=//",
        "a=///",
        "a= ",
        "\"\\\"\" \"1\" \"1\" \"1\"",
        "\"\\\" \"1\" \"1\" \"1\"",
        "\"a\" \"\\\"\" \"\" \"\"",
        "\"a\\\"\" \"\" \"\" \"\"",
        "\"a\" \"\" \"\" \"\"\r",
        " // c",
        " /* */",
        " \"a\" \"\" \"\" \"\"",
        "\u{FEFF}",
        "\u{FEFF}=a",
        "\"a\" \"\" \"\" \"\n\"b\" \"\" \"\" \"\"",
        "x=\n\n\"\n\" \"1\" \"\" \"\"",
        "/*/",
        "/*/ */",
        "/**/*/",
        "/* */\nx",
        "\"a\" \"x\" \"||||||||\" \"\"",
        "\"a\" \"x|||||||||\" \"\" \"\"",
        "\"a\" \"4|\" \"|\" \"4|4\"",
        "\"\" \"x\" \"\" \"\"",
        "\"a\"\"\" \"\" \"\"",
        "\"a\" \"1234567\" \"\" \"\"",
        "\"a\" \"12345é\" \"\" \"\"",
        "\"a\" \"\" \"||||||||\" \"\"",
        "a\0",
        "\"=x//\" \"1\" \"1\" \"1\"",
        "\"a\" \"1\" \"\" \"\"\n\"a\" \"2\" \"\" \"\"\n\"ab\" \"3\" \"\" \"\"\n\"aé\" \"4\" \"\" \"\"\n",
        "q=A\nw= \nk=ж\n\"A\" \"3\" \"3\" \"3\"\n\" \" \"4\" \"4\" \"4\"\n\"r\" \"9\" \"8\" \"7\"\n",
        "\"x\" \"43\" \"43\" \"43\"\n\"y\" \"3\" \"3\" \"3\"\n\"z\" \"4|4\" \"4|4\" \"4|4\"\n",
        "\"x\" \"123456\" \"123456\" \"123456\"\n\"c\" \"4|5\" \"4|5\" \"4|5\"\n",
        // xxx has 65 branches
        "\"x\" \"2|3||22|13\" \"2|3||22|13\" \"2|3||22|13\"\n",
    ];
    for text in texts {
        for folding in [true, false] {
            if let Some(ready) = runs.text(text.as_bytes(), folding) {
                for name in [
                    "", "a", "ab", "aéb", "q", "w", "k", "x", "xy", "xyx", "xxx", "z", "zz", "xcx", "\\\"", "rr a",
                    "q r k w",
                ] {
                    runs.name(&ready, name.as_bytes());
                }
            }
        }
    }
    runs.section("examples");
}

/// Every text of up to five of eleven bytes that rule text treats in a way of its own.
fn short_texts(runs: &mut Runs) {
    let marks = b"\" \n\r/*=a\\1|";
    for length in 0..=5 {
        words(marks, length, |text| {
            runs.text(text, true);
        });
    }
    runs.section("short texts");
}

/// Every text of up to six pieces out of which rules are made.
fn short_rules(runs: &mut Runs) {
    let pieces: [&[u8]; 8] = [b"\"a\"", b"\"\"", b" ", b"\"", b"\\", b"\"4|\" \"\" ", b"\n", b"//"];
    let places: Vec<u8> = (0..pieces.len() as u8).collect();
    for length in 1..=6 {
        words(&places, length, |word| {
            let text: Vec<u8> = word.iter().flat_map(|place| pieces[*place as usize]).copied().collect();
            runs.text(&text, true);
        });
    }
    runs.section("short rules");
}

/// Calls `each` with every word of this length.
fn words(alphabet: &[u8], length: usize, mut each: impl FnMut(&[u8])) {
    let mut places = vec![0; length];
    loop {
        let word: Vec<u8> = places.iter().map(|place| alphabet[*place]).collect();
        each(&word);
        let Some(at) = places.iter().rposition(|place| place + 1 < alphabet.len()) else {
            return;
        };
        places[at] += 1;
        places[at + 1..].fill(0);
    }
}

/// Every limit: the last that is allowed and the first that is not.
fn limits(runs: &mut Runs) {
    let letter = |place: usize| (b'a' + (place % 26) as u8) as char;
    let line = |pattern: &str, start: &str, vowel: &str, other: &str| {
        format!("\"{pattern}\" \"{start}\" \"{vowel}\" \"{other}\"\n")
    };
    let mut texts: Vec<Vec<u8>> = Vec::new();
    for length in [1, 2, 15, 16, 17, 18, 300] {
        texts.push(line(&"a".repeat(length), "1", "2", "3").into());
        texts.push(line(&"é".repeat(length.div_ceil(2)), "1", "2", "3").into());
    }
    for count in [1, 2, 7, 8, 9, 10, 300] {
        for digits in 0..=8 {
            let field = vec!["123456789"[..digits].to_string(); count].join("|");
            texts.push(line("a", &field, "", "").into());
            texts.push(line("a", "", &field, "x").into());
            texts.push(line("", "x", "", &field).into());
            texts.push(line("ab", "0", "0", &field).into());
        }
    }
    for count in [510, 511, 512, 513, 514, 1_498, 1_499, 1_500, 1_501, 1_502] {
        let rules: String = (0..count)
            .map(|place| line(&format!("{}{}", letter(place), letter(place / 26)), "1", "2", "3|4"))
            .collect();
        texts.push(rules.clone().into());
        texts.push(format!("{rules}/* \n */\n{}", line("a", "1", "x", "")).into());
        texts.push(format!("{rules}{}", line("", "", "", "")).into());
        texts.push(format!("{rules}?").into());
        texts.push(format!("/*\n*/{rules}").into());
    }
    for count in [126, 127, 128, 129, 130] {
        let keys: String =
            (0..count).map(|place| format!("{}=a\n", char::from_u32(0x100 + place).expect("a letter"))).collect();
        texts.push(keys.clone().into());
        texts.push(format!("{keys}{}", keys.replace("=a", "=b")).into());
        texts.push(format!("{keys}a=b").into());
        texts.push(format!("{keys}{keys}?").into());
    }
    for length in [65_535usize, 65_536, 65_537] {
        texts.push(vec![b'\n'; length]);
        texts.push([vec![b'\n'; length - 1], vec![b'x']].concat());
        texts.push([b"//".to_vec(), vec![b'x'; length - 2]].concat());
        texts.push([b"/*".to_vec(), vec![b'\n'; length - 5], b"*/x".to_vec()].concat());
        texts.push([b"/*".to_vec(), vec![b'\n'; length - 6], b"*/\nx".to_vec()].concat());
        texts.push([vec![b'"'], vec![b'a'; length - 1]].concat());
        texts.push([b"\"a\" \"".to_vec(), vec![b'1'; length - 12], b"\" \"\"\n".to_vec()].concat());
        texts.push(vec![0xFF; length]);
        texts.push([vec![b'\n'; length - 1], vec![0]].concat());
        texts.push([vec![b'?'; length - 1], vec![0xC3]].concat());
    }
    for text in texts {
        if let Some(ready) = runs.text(&text, true) {
            for name in ["a", "aa", "ab", "aab", "aaaaaaaaaaaaaaaaa", "ééé", "abcdefghijk", "\u{100}\u{17F}"] {
                runs.name(&ready, name.as_bytes());
            }
        }
    }
    runs.section("limits");
}

/// Several faults at once: which one decides.
fn orders(runs: &mut Runs) {
    let many = "1|2|3|4|5|6|7|8|9";
    let fields = ["1", many, "x", "1|2|3|4|5|6|7|8|x", "1234567"];
    let patterns = ["a", "", "aaaaaaaaaaaaaaaaa"];
    for pattern in patterns {
        for start in fields {
            for vowel in fields {
                for other in fields {
                    let text = format!("\n\"{pattern}\" \"{start}\" \"{vowel}\" \"{other}\"\n");
                    runs.text(text.as_bytes(), true);
                    runs.text(format!("{text}?").as_bytes(), true);
                }
            }
        }
    }
    let rules = "\"b\" \"\" \"\" \"\"\n".repeat(1_500);
    let keys: String =
        (0..128).filter_map(|place| char::from_u32(0x100 + place)).map(|key| format!("{key}=a\n")).collect();
    let faults = [
        "?\n".to_string(),
        "\"\" \"\" \"\" \"\"\n".to_string(),
        "\"aaaaaaaaaaaaaaaaa\" \"\" \"\" \"\"\n".to_string(),
        format!("\"a\" \"\" \"{many}\" \"\"\n"),
        "\"a\" \"\" \"\" \"x\"\n".to_string(),
        format!("{rules}\"a\" \"\" \"\" \"\"\n"),
        format!("{keys}a=b\n"),
        "/* \n */\n".to_string(),
        "\0".to_string(),
    ];
    for first in &faults {
        for second in &faults {
            for third in &faults {
                runs.text(format!("{first}{second}{third}").as_bytes(), false);
            }
        }
    }
    let good = small(runs, true);
    let bad = runs.plate(vec![1, 0, 0, 0x21]);
    for ready in [&good, &bad] {
        for faults in 0..16 {
            let pieces: [&[u8]; 4] = [&[b'r'; 257], b"\xFF", "\u{180}".as_bytes(), b"cacacacacacaca"];
            let chosen = pieces.iter().enumerate().filter(|(place, _)| faults >> place & 1 == 1);
            let mut chosen: Vec<&[u8]> = chosen.map(|(_, piece)| *piece).collect();
            runs.name(ready, &chosen.concat());
            chosen.reverse();
            runs.name(ready, &chosen.concat());
        }
    }
    runs.section("several faults");
}

/// Every name of up to four of thirteen letters, under the paper's small text.
fn short_names(runs: &mut Runs) {
    let ready = small(runs, true);
    for length in 0..=4 {
        words(b"aoiechrswmnx ", length, |name| match length {
            4 => runs.name_once(&ready, name),
            _ => runs.name(&ready, name),
        });
    }
    runs.section("short names");
}

/// Every character up to U+31FF alone and between two others, and every 97th beyond.
fn characters(runs: &mut Runs) {
    let text = format!("{SMALL}\u{131}=i\nſ=s\nÿ=a\n\"e\" \"3\" \"2\" \"1\"\n\"i\" \"2\" \"1\" \"3\"\n");
    let ready = runs.text(text.as_bytes(), true).expect("a good text");
    for c in (0..0x3200).chain((0x3200..=0x10FFFF).step_by(97)).filter_map(char::from_u32) {
        for name in [format!("{c}"), format!("r{c}a"), format!("m{c}n"), format!("{c}h")] {
            match c as u32 {
                0..=0x1FF | 0x3F0..=0x46F => runs.name(&ready, name.as_bytes()),
                _ => runs.name_once(&ready, name.as_bytes()),
            }
        }
    }
    for c in (1..0x180).chain(0x400..0x460).filter_map(char::from_u32) {
        let text = format!("\"{c}\" \"1\" \"2\" \"3\"\n{c}=r\n\"r\" \"9\" \"9\" \"9\"\n");
        for folding in [true, false] {
            if let Some(ready) = runs.text(text.as_bytes(), folding) {
                for name in [format!("{c}r"), format!("r{c}"), format!("r{c}a"), c.to_uppercase().collect()] {
                    runs.name(&ready, name.as_bytes());
                }
            }
        }
    }
    runs.section("characters");
}

/// Every two bytes, and the edges of three and four, as name and as rule text.
fn bytes(runs: &mut Runs) {
    let ready = small(runs, true);
    let edges = [
        0x00, 0x61, 0x7F, 0x80, 0x8F, 0x90, 0x9F, 0xA0, 0xBF, 0xC0, 0xC1, 0xC2, 0xC5, 0xC6, 0xDF, 0xE0, 0xE1, 0xED,
        0xEE, 0xEF, 0xF0, 0xF1, 0xF4, 0xF5, 0xF8, 0xFF,
    ];
    let every: Vec<u8> = (0..=255).collect();
    for length in 0..=2 {
        words(&every, length, |name| runs.name_once(&ready, name));
    }
    for length in 3..=4 {
        words(&edges, length, |name| {
            if name[0] >= 0x80 {
                runs.name_once(&ready, name);
            }
        });
    }
    for length in 1..=3 {
        words(&edges, length, |text| {
            runs.text(&[b"//", text].concat(), true);
        });
    }
    runs.section("bytes");
}

/// Random rules of ASCII patterns within the limits, twenty names each.
fn pairs(runs: &mut Runs, random: &mut Random, texts: usize) {
    for _ in 0..texts {
        let taste = made::taste(random, false);
        let rules = match random.below(50) {
            0 => random.within(100, 400),
            1..=5 => random.within(15, 60),
            _ => random.within(0, 14),
        };
        let text = made::text(random, &taste, rules);
        let folding = !random.once_in(4);
        if let Some(ready) = runs.text(text.as_bytes(), folding) {
            names(runs, random, &ready, 20);
        }
    }
    runs.section("random rules and names");
}

/// Cyrillic names under ASCII patterns and foldings of Cyrillic letters to ASCII.
fn cyrillic(runs: &mut Runs, random: &mut Random, texts: usize) {
    for _ in 0..texts {
        let taste = made::taste(random, false);
        let rules = random.within(1, 14);
        let mut text = made::text(random, &taste, rules);
        for _ in 0..random.within(1, 60) {
            let target = random.one_of(&taste.letters);
            text += &format!("\n{}={target}", made::cyrillic(random));
        }
        let folding = !random.once_in(4);
        if let Some(ready) = runs.text(text.as_bytes(), folding) {
            for _ in 0..12 {
                let mut name = String::new();
                for _ in 0..random.within(1, 14) {
                    name.push(if random.once_in(6) { random.one_of(&taste.letters) } else { made::cyrillic(random) });
                }
                runs.name(&ready, name.as_bytes());
            }
        }
    }
    runs.section("Cyrillic names");
}

/// Random names, one in twelve of them damaged.
fn names(runs: &mut Runs, random: &mut Random, ready: &Ready, count: usize) {
    let content = ready.content.clone().unwrap_or_default();
    for _ in 0..count {
        let name = made::name(random, &content);
        match random.once_in(12) {
            true => runs.name(ready, &made::damaged(random, name.as_bytes())),
            false => runs.name(ready, name.as_bytes()),
        }
    }
}

/// Damaged copies of good texts; two names each for those that are built all the same.
fn damaged_texts(runs: &mut Runs, random: &mut Random, texts: usize) {
    for _ in 0..texts {
        let foreign = random.once_in(4);
        let taste = made::taste(random, foreign);
        let rules = random.within(0, 5);
        let good = match random.once_in(8) {
            true => SMALL.to_string(),
            false => made::text(random, &taste, rules),
        };
        let text = made::damaged(random, good.as_bytes());
        if let Some(ready) = runs.text(&text, random.once_in(2)) {
            names(runs, random, &ready, 2);
        }
    }
    runs.section("damaged texts");
}

/// Plates of either edition as long as can be, plates whose rules all begin with one letter, and plates that hold more or fewer rules than their edition.
fn full_plates(runs: &mut Runs, random: &mut Random, plates: usize) {
    for place in 0..plates {
        let rules = [512, 1_500, 513, random.within(514, 1_499)][place / 2 % 4];
        let content = match place % 2 {
            0 => made::longest_plate(random, rules),
            _ => made::crowded_plate(random, rules),
        };
        let other = &plate::EDITIONS[(rules <= 512) as usize];
        let ready = runs.plate(plate::write_in(other, &content));
        runs.name(&ready, b"ro");
        let bytes = plate::write(&content);
        let ready = runs.plate(bytes.clone());
        names(runs, random, &ready, 6);
        for damaged in [bytes[..bytes.len() - 1].to_vec(), [bytes, vec![0]].concat()] {
            let ready = runs.plate(damaged);
            runs.name(&ready, b"ro");
        }
    }
    runs.section("full plates");
}

/// Plates with a bit turned, cut off, lengthened, with rules in any order or a pattern twice, and bytes that never were a plate.
fn damaged_plates(runs: &mut Runs, random: &mut Random, plates: usize) {
    for _ in 0..plates {
        let foreign = random.once_in(3);
        let taste = made::taste(random, foreign);
        let rules = random.within(0, 4);
        let text = made::text(random, &taste, rules);
        let Ok(mut content) = judge::text::read(text.as_bytes(), random.once_in(2)) else {
            continue;
        };
        let mut bytes = plate::write(&content);
        match random.below(10) {
            0 => bytes.truncate(random.below(bytes.len() + 1)),
            1 => bytes.push([0, 0, 0x80, 1][random.below(4)]),
            2 => bytes = made::damaged(random, &bytes),
            3 => {
                bytes = (0..random.below(40)).map(|_| random.any() as u8).collect();
                if random.once_in(2) && bytes.len() > 4 {
                    bytes[..3].copy_from_slice(&[1, 0, 0x40]);
                }
            }
            4 => {
                if content.rules.len() > 1 {
                    let (a, b) = (random.below(content.rules.len()), random.below(content.rules.len()));
                    content.rules.swap(a, b);
                }
                bytes = plate::write(&content);
            }
            5 => {
                if let Some(rule) = content.rules.first_mut() {
                    rule.pattern = ["\"", "\\", "\"\"", "a\"", "|", "\n"][random.below(6)].to_string();
                }
                bytes = plate::write(&content);
            }
            // M-107: plates of before, in which a pattern stands twice.
            6 | 7 => {
                if let (Some(first), Some(last)) = (content.rules.first().cloned(), content.rules.last().cloned()) {
                    content.rules.insert(1, Rule { pattern: first.pattern, fields: last.fields });
                }
                bytes = plate::write(&content);
            }
            _ => {
                for _ in 0..random.within(1, 2) {
                    let bit = random.below(8 * bytes.len());
                    bytes[bit / 8] ^= 0x80 >> (bit % 8);
                }
            }
        }
        let ready = runs.plate(bytes);
        let content = ready.content.clone().unwrap_or(content);
        let name = made::name(random, &content);
        runs.name(&ready, name.as_bytes());
    }
    runs.section("damaged plates");
}

/// Patterns outside ASCII, where the Rust counts bytes: the paper's words alone say what is right.
fn foreign_patterns(runs: &mut Runs, random: &mut Random, texts: usize) {
    for _ in 0..texts {
        let taste = made::taste(random, true);
        let rules = random.within(1, 12);
        let text = made::text(random, &taste, rules);
        if let Some(ready) = runs.text(text.as_bytes(), !random.once_in(4)) {
            names(runs, random, &ready, 10);
        }
    }
    runs.section("patterns outside ASCII");
}

/// The standard rules and made surnames.
fn surnames(runs: &mut Runs, random: &mut Random, count: usize) {
    for folding in [true, false] {
        let ready = runs.text(STANDARD.as_bytes(), folding).expect("the standard rules are built");
        for _ in 0..count {
            let name = made::surname(random);
            runs.name(&ready, name.as_bytes());
        }
        runs.name(&ready, "Rosochowaciec".as_bytes());
    }
    runs.section("standard rules, made surnames");
}
