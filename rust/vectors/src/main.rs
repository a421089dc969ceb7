//! Writes a fixed list of the Rust's answers, for a program that replays it without Rust at hand.
//!
//! `vectors FOLDER` writes vectors-1.txt, vectors-2.txt and so on, each under 65,536 bytes, so that one buffer of that
//! size takes a file. The form is said in the first lines of each file. The same list is written every time.
//!
//! Codes and counts are the Rust's, later doubles struck (M-105). A list into a short buffer is expected to be refused (12) only where the Rust's own
//! last list is longer than the room. No name is taken whose branch list was longer on the way than the room, none that
//! is refused for another reason, and none that meets a pattern outside ASCII. Plates are written by the crate `judge`.

use judge::answers::{self, Call};
use judge::codes::{once, BRANCHES};
use judge::made;
use judge::random::Random;
use judge::{SMALL, STANDARD};
use std::collections::BTreeSet;
use std::fs;
use std::path::Path;

/// A reader with a buffer of 65,536 bytes cannot tell a file that fills it from a longer one.
const FILE: usize = 65_535;

const HEAD: &str = "\
# Answers of rphonetic 4.0.0, from its own daitch_mokotoff.rs, unchanged. Written by rust/vectors; do not edit.
# Plates are written in document 01's form. A line is a letter, fields, one space between two, a semicolon, a space, bytes.
# p TITLE; PLATE                    the plate of the lines below
# e LENT NUMBER COUNT CODES; NAME   encode: bytes lent, number, count of codes, bytes written (- for none), name
# l LENT NUMBER COUNT CODES; NAME   list, the same
# A backslash and two hex digits stand for one byte, every other byte for itself. A line that ends with the semicolon has no bytes.
";

struct Files {
    done: Vec<String>,
    now: String,
    plate: String,
    records: usize,
}

impl Files {
    /// The lines below are under this plate.
    fn plate(&mut self, title: &str, bytes: &[u8]) {
        self.plate = format!("p {title};{}\n", tail(&hex(bytes)));
        let line = self.plate.clone();
        self.line(&line, false);
    }

    /// The codes, for which this many branches were held.
    fn record(&mut self, call: Call, name: &str, lent: usize, branches: usize, codes: &[String]) {
        let letter = if call == Call::List { 'l' } else { 'e' };
        let (number, count, written) = match branches <= answers::room(lent) {
            true => (0, codes.len(), codes.join("|")),
            false => (12, 0, "-".to_string()),
        };
        self.records += 1;
        self.line(&format!("{letter} {lent} {number} {count} {written};{}\n", tail(&plain(name))), true);
    }

    /// Adds a line. A file that is full ends, and the next one begins with the head and the plate.
    fn line(&mut self, line: &str, with_plate: bool) {
        if self.now.len() + line.len() > FILE {
            self.done.push(std::mem::replace(&mut self.now, HEAD.to_string()));
            if with_plate {
                self.now += &self.plate;
            }
        }
        self.now += line;
    }
}

fn hex(bytes: &[u8]) -> String {
    bytes.iter().map(|byte| format!("\\{byte:02X}")).collect()
}

/// Letters, digits and ASCII's marks as they are; a backslash, blanks and what cannot be seen by their bytes.
fn plain(name: &str) -> String {
    let seen = |c: char| c != '\\' && (c.is_ascii_graphic() || c.is_alphanumeric());
    name.chars().map(|c| if seen(c) { c.to_string() } else { hex(c.to_string().as_bytes()) }).collect()
}

/// What stands behind a line's semicolon.
fn tail(bytes: &str) -> String {
    match bytes {
        "" => String::new(),
        _ => format!(" {bytes}"),
    }
}

/// Rules by text: the Rust's coder and the judge's plate.
struct Rules {
    coder: oracle::Coder,
    content: judge::Content,
}

fn rules(files: &mut Files, title: &str, text: &str, folding: bool) -> Option<Rules> {
    let (plate, content) = answers::text_answer(text.as_bytes(), folding).ok()?;
    let coder = oracle::build(text, folding).ok()?;
    files.plate(title, &plate);
    Some(Rules { coder, content })
}

/// Encode into six bytes, and list into as many as it needs; with `edges` also into one less, into 447, and encode into
/// five and seven.
fn name(files: &mut Files, rules: &Rules, name: &str, edges: bool) {
    let Ok(walked) = answers::name_answer(Some(&rules.content), name.as_bytes(), Call::List) else {
        return;
    };
    if walked.foreign || walked.longest > BRANCHES {
        return;
    }
    let branches = rules.coder.inner_soundex(name, true);
    let exact = 7 * branches.len() - 1;
    let lents = if edges { vec![exact - 1, exact, exact + 1, 447] } else { vec![exact] };
    for lent in lents {
        let room = answers::room(lent);
        if branches.len() > room || walked.longest <= room {
            files.record(Call::List, name, lent, branches.len(), &once(branches.clone()));
        }
    }
    let encoded = rules.coder.inner_soundex(name, false);
    for lent in if edges { vec![5, 6, 7] } else { vec![6] } {
        files.record(Call::Encode, name, lent, 1, &encoded);
    }
}

fn all(files: &mut Files) {
    let examples = [
        "",
        "mm",
        "mn",
        "nm",
        "mon",
        "xh",
        "ih",
        "rh",
        "rha",
        "cc",
        "rwrwrwc",
        "Àr",
        "Rosochowaciec",
        "cacacacacaca",
        "mxn",
        "min",
        "m\0n",
        "rr a",
        "hc",
        "\u{2003}r",
        "\u{1C}h",
    ];
    for folding in [true, false] {
        let title = if folding { "S, flag on" } else { "S, flag off" };
        let small = rules(files, title, SMALL, folding).expect("the paper's small text is built");
        for example in examples {
            name(files, &small, example, true);
        }
        name(files, &small, &"r".repeat(256), true);
        if folding {
            for first in "aoiechrswmnx".chars() {
                for second in "aoiechrswmnx".chars() {
                    name(files, &small, &format!("{first}{second}"), false);
                }
            }
        }
    }
    let text = format!("{SMALL}ı=i\nſ=s\nÿ=a\né=e\n\"e\" \"3\" \"2\" \"1\"\n\"i\" \"2\" \"1\" \"3\"\n");
    let letters = rules(files, "S and foldings and rules of other letters", &text, true).expect("a good text");
    for c in (0..0x180).filter_map(char::from_u32) {
        let listed = letters.coder.inner_soundex(&format!("r{c}a"), true);
        files.record(Call::List, &format!("r{c}a"), 447, listed.len(), &once(listed));
    }
    let mut random = Random::new(1);
    let standard = rules(files, "the standard rules", STANDARD, true).expect("the standard rules are built");
    let mut seen = BTreeSet::new();
    while seen.len() < 300 {
        let surname = made::surname(&mut random);
        if seen.insert(surname.clone()) {
            name(files, &standard, &surname, false);
        }
    }
    for number in 0..90 {
        let taste = made::taste(&mut random, false);
        let count = random.within(1, 8);
        let text = made::text(&mut random, &taste, count);
        let Some(made) = rules(files, &format!("made rules {number}"), &text, !random.once_in(4)) else {
            continue;
        };
        for turn in 0..5 {
            let made_name = made::name(&mut random, &made.content);
            if made_name.len() <= 40 {
                name(files, &made, &made_name, turn == 0);
            }
        }
    }
}

fn main() {
    if !oracle::AT_HAND {
        println!("nothing written: the source of rphonetic was not at hand (RPHONETIC_SRC names its folder)");
        return;
    }
    let folder = std::env::args().nth(1).expect("vectors FOLDER");
    let mut files = Files { done: Vec::new(), now: HEAD.to_string(), plate: String::new(), records: 0 };
    all(&mut files);
    files.done.push(std::mem::take(&mut files.now));
    for (place, text) in files.done.iter().enumerate() {
        let name = format!("vectors-{}.txt", place + 1);
        fs::write(Path::new(&folder).join(&name), text).expect("the folder takes a file");
        println!("{name}: {} bytes", text.len());
    }
    println!("{} records", files.records);
}
