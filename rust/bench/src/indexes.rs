//! Times of an index of 4,096 names beside coding them alone, and of a lookup beside a scan that codes them all.

use super::{here, in_turns, lists, wards, Rules};
use judge::answers::Call;
use std::hint::black_box;
use zengilvar::{raw, LONGEST_FOUND, LONGEST_INDEX, MOST_RECORDS};

/// By these rules every name of `full_names` has 64 codes: no index has more entries.
pub const FULL_RULES: &str = r#"
"b" "0|1" "0|1" "0|1"
"d" "2|3" "2|3" "2|3"
"g" "4|5" "4|5" "4|5"
"k" "6|7" "6|7" "6|7"
"a" "" "" ""
"#;

/// Six letters of four, a vowel between two: as many names as an index takes.
pub fn full_names() -> Vec<String> {
    let letter = |record: usize, place: usize| ["b", "d", "g", "k"][record >> (10 - 2 * place) & 3];
    (0..MOST_RECORDS).map(|record| [0, 1, 2, 3, 4, 5].map(|place| letter(record, place)).join("a")).collect()
}

/// The least time of a piece of work, in nanoseconds.
fn time(seconds: f64, run: impl FnMut()) -> f64 {
    in_turns(seconds, 1, run, None::<fn()>).0
}

fn make(plate: &[u8], names: &[String], index: &mut [u8], report: &mut [u8]) -> raw::Indexed {
    let names: Vec<u8> = names.iter().flat_map(|name| [name.as_bytes(), b"\n"].concat()).collect();
    raw::index_make(plate, &names, index, report)
}

/// One index of all names.
pub fn made_once(rules: &Rules, names: &[String]) {
    let (mut index, mut report) = (vec![0; LONGEST_INDEX], vec![0; MOST_RECORDS]);
    black_box(make(&rules.plate, names, &mut index, &mut report));
}

/// The same, and a lookup of each name.
pub fn found_once(rules: &Rules, names: &[String]) {
    let (mut index, mut report) = (vec![0; LONGEST_INDEX], vec![0; MOST_RECORDS]);
    let used = make(&rules.plate, names, &mut index, &mut report).index_length as usize;
    let mut out = vec![0; LONGEST_FOUND];
    for name in names {
        black_box(raw::index_find(black_box(&rules.plate), &index[..used], name.as_bytes(), &mut out));
    }
}

/// Adding the last name to an index of all others; the time of copying them into their place is not told with it.
fn added(seconds: f64, rules: &Rules, names: &[String]) -> f64 {
    let (mut index, mut report) = (vec![0; LONGEST_INDEX], vec![0; MOST_RECORDS]);
    let (last, others) = names.split_last().expect("names");
    let made = make(&rules.plate, others, &mut index, &mut report);
    let used = made.index_length as usize;
    let kept = index.clone();
    let both = time(seconds, || {
        index[..used].copy_from_slice(black_box(&kept[..used]));
        let plate = black_box(&rules.plate);
        black_box(raw::index_add(plate, last.as_bytes(), &mut index, used, &mut report, names.len() - 1));
    });
    let copy = time(seconds, || black_box(&mut index)[..used].copy_from_slice(black_box(&kept[..used])));
    both - copy
}

pub fn tell(seconds: f64, words: &str, rules: &Rules, names: &[String]) {
    let (mut index, mut report) = (vec![0; LONGEST_INDEX], vec![0; MOST_RECORDS]);
    let all: Vec<u8> = names.iter().flat_map(|name| [name.as_bytes(), b"\n"].concat()).collect();
    let of_128 = lists(names);
    let mut number = u64::MAX;
    let making = || number = black_box(raw::index_make(black_box(&rules.plate), &all, &mut index, &mut report)).number;
    let (made, ward) = in_turns(seconds, 1, making, Some(wards(rules, &of_128)));
    assert_eq!(number, 0);
    let ward = ward.expect("ward was timed too");
    let list = time(seconds, here(Call::List, rules, names));
    let used = make(&rules.plate, names, &mut index, &mut report).index_length as usize;
    let (mut out, mut at) = (vec![0; LONGEST_FOUND], 0);
    let found = time(seconds, || {
        at = (at + 1) % names.len();
        black_box(raw::index_find(black_box(&rules.plate), &index[..used], names[at].as_bytes(), &mut out));
    });
    let added = added(seconds, rules, names);
    println!("| make, {words}, {} entries | {:.2} ms |", used / 4, made / 1e6);
    println!("| ward of them, 128 a call | {:.2} ms; making takes {:.2} times that |", ward / 1e6, made / ward);
    println!("| list of them | {:.2} ms; making takes {:.2} times that |", list / 1e6, made / list);
    println!("| add the last of them | {:.1} us |", added / 1e3);
    println!(
        "| find one of them | {:.1} us; list of all takes {:.0} times that, ward of all {:.0} times |",
        found / 1e3,
        list / found,
        ward / found
    );
}
