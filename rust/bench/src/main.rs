//! Times the archive and the crate in one run, on the same names. Prints tables for docs/FIGURES.md.
//!
//! Accept is the time of encode for the empty name: the plate is read whole and nothing is coded. The crate has no such
//! work. Its source missing, its columns are empty.
//!
//! `bench [SECONDS]`: how long each figure is measured (0.2). Run it in release.
//! `bench once [WHAT]`: no clock; the surnames once by one side, for a tool that counts instructions (../instructions).

mod indexes;
mod stack;

use judge::answers::Call;
use judge::random::Random;
use judge::{made, plate, text, Content, SMALL, STANDARD};
use oracle::Coder;
use std::hint::black_box;
use std::time::{Duration, Instant};
use zengilvar::{raw, LINE_ROOM, LONGEST_FOUND, LONGEST_INDEX, LONGEST_LIST, LONGEST_PLATE, MOST_RECORDS};

/// How many times a figure is taken; the least of them is told.
const TURNS: usize = 20;

/// Nanoseconds for one of the `each` pieces of work that a run does, over about so many seconds.
fn turn(seconds: f64, each: usize, run: &mut impl FnMut()) -> f64 {
    let begun = Instant::now();
    let mut runs = 0;
    while runs == 0 || begun.elapsed() < Duration::from_secs_f64(seconds) {
        run();
        runs += 1;
    }
    begun.elapsed().as_nanos() as f64 / (runs * each) as f64
}

/// The least of both sides, which take turns: a machine that slows down for a while slows both.
fn in_turns(seconds: f64, each: usize, mut here: impl FnMut(), mut rust: Option<impl FnMut()>) -> (f64, Option<f64>) {
    let slice = seconds / TURNS as f64;
    let mut least = (f64::INFINITY, rust.as_ref().map(|_| f64::INFINITY));
    for _ in 0..TURNS {
        least.0 = least.0.min(turn(slice, each, &mut here));
        if let (Some(rust), Some(time)) = (&mut rust, &mut least.1) {
            *time = time.min(turn(slice, each, rust));
        }
    }
    least
}

/// Rules on both sides: the text, the plate, the crate's coder where its source is at hand.
struct Rules {
    words: String,
    plate: Vec<u8>,
    coder: Option<Coder>,
}

fn rules(words: &str, text: &str, content: &Content) -> Rules {
    let coder = oracle::AT_HAND.then(|| oracle::build(text, content.folding).ok()).flatten();
    Rules { words: words.to_string(), plate: plate::write(content), coder }
}

fn from_text(words: &str, text: &str) -> Rules {
    rules(words, text, &text::read(text.as_bytes(), true).expect("a good text"))
}

/// Rules as text, without a limit on its length.
fn text_of(content: &Content) -> String {
    let mut text: String = content.foldings.iter().map(|(key, target)| format!("{key}={target}\n")).collect();
    for rule in &content.rules {
        let fields: Vec<String> = rule.fields.iter().map(|field| format!("\"{}\"", field.join("|"))).collect();
        text += &format!("\"{}\" {}\n", rule.pattern, fields.join(" "));
    }
    text
}

/// The standard rules and more of their kind behind them, so many in all; with `full` all fields are filled, the
/// foldings are 128 and the plate is the longest of so many rules.
fn large(rules: usize, full: bool) -> Content {
    let mut content = text::read(STANDARD.as_bytes(), true).expect("the standard rules are built");
    let mut number = 0;
    while content.rules.len() < rules {
        let letters = ["qv", "xq", "vw", "jx"][number % 4];
        let mut rule = content.rules[number % 150].clone();
        rule.pattern = format!("{letters}{number:03}");
        content.rules.push(rule);
        number += 1;
    }
    if full {
        for (number, rule) in content.rules.iter_mut().enumerate() {
            rule.pattern = format!("{}{number:0>width$}", rule.pattern, width = 16 - rule.pattern.len());
            for field in &mut rule.fields {
                *field = (0..8).map(|k| format!("{:06}", (number * 8 + k) * 7919 % 1_000_000)).collect();
            }
        }
        let keys = (0x180..).filter_map(char::from_u32);
        let missing = 128 - content.foldings.len();
        content.foldings.extend(keys.take(missing).map(|key| (key, 'a')));
    }
    content.rules.sort_by(|a, b| {
        a.pattern.chars().next().cmp(&b.pattern.chars().next()).then(b.pattern.len().cmp(&a.pattern.len()))
    });
    content
}

fn here<'a>(call: Call, rules: &'a Rules, names: &'a [String]) -> impl FnMut() + 'a {
    let mut out = [0; LONGEST_LIST];
    move || {
        for name in names {
            let coded = match call {
                Call::Encode => raw::encode(black_box(&rules.plate), black_box(name.as_bytes()), &mut out),
                Call::List => raw::list(black_box(&rules.plate), black_box(name.as_bytes()), &mut out),
            };
            black_box(coded);
        }
    }
}

fn there<'a>(call: Call, coder: &'a Coder, names: &'a [String]) -> impl FnMut() + 'a {
    move || {
        for name in names {
            black_box(match call {
                Call::Encode => coder.encode(black_box(name)),
                Call::List => coder.soundex(black_box(name)),
            });
        }
    }
}

/// How many names a call of ward is given, as our program does.
const WARD: usize = 128;

/// The names in lists of so many, each name closed by a newline.
fn lists(names: &[String]) -> Vec<Vec<u8>> {
    names.chunks(WARD).map(|some| some.iter().flat_map(|name| [name.as_bytes(), b"\n"].concat()).collect()).collect()
}

fn wards<'a>(rules: &'a Rules, lists: &'a [Vec<u8>]) -> impl FnMut() + 'a {
    let mut out = [0; WARD * LINE_ROOM];
    move || {
        for list in lists {
            black_box(raw::ward(black_box(&rules.plate), black_box(list), &mut out));
        }
    }
}

fn row(words: &str, (here, rust): (f64, Option<f64>)) {
    match rust {
        Some(rust) => println!("| {words} | {here:.0} | {rust:.0} | {:.2} |", here / rust),
        None => println!("| {words} | {here:.0} | - | - |"),
    }
}

fn head(words: &str) {
    println!("\n| {words} | ns here | ns in the Rust | here / Rust |\n|---|---|---|---|");
}

fn both(seconds: f64, words: &str, call: Call, rules: &Rules, names: &[String]) {
    let rust = rules.coder.as_ref().map(|coder| there(call, coder, names));
    row(words, in_turns(seconds, names.len(), here(call, rules, names), rust));
}

/// A name of no bytes costs what accepting the plate costs.
fn accept(seconds: f64, words: &str, rules: &Rules) {
    let empty = [String::new()];
    row(words, in_turns(seconds, 1, here(Call::Encode, rules, &empty), None::<fn()>));
}

/// One piece of work for each name, and nothing that reads the clock; without a word nothing, so that the difference counts.
fn once(what: Option<&str>, rules: &Rules, names: &[String]) {
    let empty = vec![String::new(); names.len()];
    match (what, &rules.coder) {
        (None, _) => {}
        (Some("list"), _) => here(Call::List, rules, names)(),
        (Some("encode"), _) => here(Call::Encode, rules, names)(),
        (Some("accept"), _) => here(Call::Encode, rules, &empty)(),
        (Some("ward"), _) => wards(rules, &lists(names))(),
        (Some("index"), _) => indexes::made_once(rules, names),
        (Some("index-and-find"), _) => indexes::found_once(rules, names),
        (Some("rust-list"), Some(coder)) => there(Call::List, coder, names)(),
        (Some("rust-encode"), Some(coder)) => there(Call::Encode, coder, names)(),
        (Some(what), _) => panic!("nothing is called {what}, or the crate's source is missing"),
    }
}

fn main() {
    let word = std::env::args().nth(1);
    let mut random = Random::new(1);
    let names: Vec<String> = (0..2_000).map(|_| made::surname(&mut random)).collect();
    let standard = from_text("standard rules", STANDARD);
    if word.as_deref() == Some("once") {
        return once(std::env::args().nth(2).as_deref(), &standard, &names);
    }
    let seconds = word.map_or(0.2, |word| word.parse().expect("SECONDS is a number"));
    let small = from_text("small text S", SMALL);

    head("a name, standard rules, 2,000 made surnames");
    both(seconds, "encode", Call::Encode, &standard, &names);
    both(seconds, "list (soundex)", Call::List, &standard, &names);

    let lists = lists(&names);
    let rust = standard.coder.as_ref().map(|coder| there(Call::List, coder, &names));
    row("ward, 128 names a call, beside soundex", in_turns(seconds, names.len(), wards(&standard, &lists), rust));

    head("a name, small text S, the same surnames");
    both(seconds, "encode", Call::Encode, &small, &names);
    both(seconds, "list (soundex)", Call::List, &small, &names);

    head("once");
    for (words, text) in [("build, standard rules", STANDARD), ("build, small text S", SMALL)] {
        let mut out = vec![0; LONGEST_PLATE];
        let here = || {
            black_box(raw::build(black_box(text.as_bytes()), true, &mut out));
        };
        let rust = || {
            black_box(oracle::build(black_box(text), true).is_ok());
        };
        row(words, in_turns(seconds, 1, here, oracle::AT_HAND.then_some(rust)));
    }
    for rules in [&standard, &small] {
        accept(seconds, &format!("accept, {}", rules.words), rules);
    }

    head("list by plate, `Rosochowaciec`");
    let name = vec!["Rosochowaciec".to_string()];
    let (wide, full, wide_2, full_2) = (large(512, false), large(512, true), large(1_500, false), large(1_500, true));
    let plates = [
        from_text("11 rules", SMALL),
        from_text("150 rules", STANDARD),
        rules("512 rules", &text_of(&wide), &wide),
        rules("512 rules, the longest plate", &text_of(&full), &full),
        rules("1,500 rules", &text_of(&wide_2), &wide_2),
        rules("1,500 rules, the longest plate", &text_of(&full_2), &full_2),
    ];
    for rules in &plates {
        let words = format!("{}, {} bytes", rules.words, rules.plate.len());
        both(seconds, &words, Call::List, rules, &name);
        accept(seconds, &format!("{words}, accept"), rules);
    }

    head("list by length of the name, standard rules, 1 branch");
    for length in [1, 2, 4, 8, 16, 32, 64, 128, 256] {
        let name = vec!["rolawen".chars().cycle().take(length).collect::<String>()];
        both(seconds, &format!("{length} bytes"), Call::List, &standard, &name);
    }

    head("list by branches, small text S");
    for pairs in 0..=6 {
        let name = vec!["ca".repeat(pairs)];
        both(seconds, &format!("{} branches, {} bytes", 1 << pairs, 2 * pairs), Call::List, &small, &name);
    }

    println!("\n| an index of 4,096 names | time |\n|---|---|");
    let many: Vec<String> = (0..MOST_RECORDS).map(|_| made::surname(&mut random)).collect();
    indexes::tell(seconds, "made surnames, standard rules", &standard, &many);
    let most = from_text("64 codes a name", indexes::FULL_RULES);
    indexes::tell(seconds, "64 codes a name", &most, &indexes::full_names());

    println!("\n| deepest stack | bytes |\n|---|---|");
    let mut out = vec![0; LONGEST_PLATE];
    let full_plate = &plates[5].plate;
    let long = "ca".repeat(6) + &"r".repeat(244);
    stack::tell("build, standard rules", || {
        raw::build(STANDARD.as_bytes(), true, &mut out);
    });
    let full = indexes::full_names().join("\n");
    let (mut index, mut report) = (vec![0; LONGEST_INDEX], vec![0; MOST_RECORDS]);
    stack::tell("index of 4,096 names made, 64 codes a name", || {
        raw::index_make(&most.plate, full.as_bytes(), &mut index, &mut report);
    });
    for (words, plate) in [("small text S", &small.plate), ("the longest plate", full_plate)] {
        stack::tell(&format!("encode, 256 bytes, {words}"), || {
            raw::encode(plate, long.as_bytes(), &mut out);
        });
        stack::tell(&format!("list, 256 bytes, 64 branches, {words}"), || {
            raw::list(plate, long.as_bytes(), &mut out);
        });
        stack::tell(&format!("ward of one such name, {words}"), || {
            raw::ward(plate, long.as_bytes(), &mut out);
        });
        stack::tell(&format!("index of one such name made, {words}"), || {
            raw::index_make(plate, long.as_bytes(), &mut out, &mut [0]);
        });
        stack::tell(&format!("such a name added, {words}"), || {
            raw::index_add(plate, long.as_bytes(), &mut out, 0, &mut [0], 0);
        });
        stack::tell(&format!("such a name looked up, {words}"), || {
            raw::index_find(plate, &[], long.as_bytes(), &mut out[..LONGEST_FOUND]);
        });
    }
}
