//! Holds the archive beside the Rust and the scope paper: every number, line, length, count, place, written and unwritten byte.
//!
//! `compare [TIMES] [SEED]`: TIMES as many random inputs as usual (1), from this seed (1).
//! `compare control`: coders that are wrong on purpose in the archive's place, each of which must be noticed.
//!
//! What is right: codes and their order from the Rust's `inner_soundex`; refusal 3 from the Rust's `build`; the line of a
//! refusal, all others, the bytes of the plate and patterns outside ASCII from the paper's words (the crate `judge`).
//! Wherever the Rust and the judge both answer, they too must agree.

mod calls;
mod case;
mod inputs;
mod runs;
mod wrong;

use calls::Archive;
use runs::Runs;
use wrong::{Wrong, MISTAKES};

fn main() {
    if !oracle::AT_HAND {
        println!("not compared: the source of rphonetic was not at hand (RPHONETIC_SRC names its folder)");
        return;
    }
    let given: Vec<String> = std::env::args().skip(1).collect();
    let held = match given.first().map(String::as_str) {
        Some("control") => control(),
        _ => compare(&given),
    };
    if !held {
        std::process::exit(1);
    }
}

/// The archive beside the Rust: no difference.
fn compare(given: &[String]) -> bool {
    let mut given = given.iter().map(|word| word.parse().expect("TIMES and SEED are numbers"));
    let times: u64 = given.next().unwrap_or(1);
    let seed: u64 = given.next().unwrap_or(1);
    println!("seed {seed}, {times} times the usual number of random inputs");
    let mut runs = Runs::new(&Archive, false);
    inputs::all(&mut runs, times as usize, seed);
    runs.tell();
    runs.differences == 0
}

/// Every wrong coder is noticed; and so that this is for its mistake, the same coder without one is not, nor is the
/// archive.
fn control() -> bool {
    let differs = |calls: &dyn calls::Calls| {
        let mut runs = Runs::new(calls, true);
        inputs::some(&mut runs);
        (runs.differences > 0, runs.pairs)
    };
    let missed: Vec<_> = MISTAKES.iter().filter(|(mistake, _)| !differs(&Wrong::new(mistake)).0).collect();
    for (mistake, words) in &missed {
        println!("NOT NOTICED: {mistake}, a coder that {words}");
    }
    let (right, pairs) = differs(&Wrong::new(""));
    let (archive, _) = differs(&Archive);
    for (what, _) in [("without a mistake", right), ("of the archive", archive)].iter().filter(|(_, noticed)| *noticed)
    {
        println!("NOTICED: the coder {what}");
    }
    println!(
        "control: {} wrong coders, {} noticed, on up to {pairs} pairs",
        MISTAKES.len(),
        MISTAKES.len() - missed.len()
    );
    missed.is_empty() && !right && !archive
}
