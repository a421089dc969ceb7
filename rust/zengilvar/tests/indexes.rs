//! An index beside list: names added one by one are names made afresh, and a name is found exactly where list gives both
//! a code in common.

use judge::random::Random;
use judge::{made, text, SMALL, STANDARD};
use std::collections::BTreeSet;
use zengilvar::{
    raw, Cause, DaitchMokotoffSoundex, DaitchMokotoffSoundexBuilder, Index, PhoneticError, LONGEST_FOUND,
    LONGEST_INDEX, LONGEST_LIST, MOST_RECORDS,
};

/// How many names are added one by one.
const ADDED: usize = 20_000;

const PAINT: u8 = 0xEE;

fn coder(rules: &str) -> DaitchMokotoffSoundex {
    DaitchMokotoffSoundexBuilder::with_rules(rules).build().expect("a good text")
}

fn cause<T>(answer: Result<T, PhoneticError>) -> Result<T, Cause> {
    answer.map_err(|error| error.cause())
}

/// What list says of a name: its codes as numbers, or its refusal.
fn codes(plate: &[u8], name: &[u8]) -> Result<Vec<u32>, u8> {
    let mut out = [b'x'; LONGEST_LIST];
    let coded = raw::list(plate, name, &mut out);
    match coded.number {
        0 => Ok(out.chunks(7).take(coded.count as usize).map(|code| number(&code[..6])).collect()),
        number => Err(number as u8),
    }
}

fn number(digits: &[u8]) -> u32 {
    digits.iter().fold(0, |number, digit| number * 10 + u32::from(digit - b'0'))
}

/// Index and report of names that were listed, in no other way than by the paper's words.
fn wanted(listed: &[Result<Vec<u32>, u8>]) -> (Vec<u8>, Vec<u8>) {
    let report = listed.iter().map(|codes| codes.as_ref().err().copied().unwrap_or(0)).collect();
    let mut entries = BTreeSet::new();
    for (record, codes) in listed.iter().enumerate() {
        entries.extend(codes.iter().flatten().map(|code| code << 12 | record as u32));
    }
    (entries.iter().flat_map(|entry| entry.to_be_bytes()).collect(), report)
}

/// Names of all kinds, many of which share codes; none holds a newline.
fn name(random: &mut Random, content: &judge::Content) -> Vec<u8> {
    let made = made::name(random, content).into_bytes();
    let mut name = match random.below(10) {
        0 => Vec::new(),
        1 => made::damaged(random, &made),
        2 => "ca".repeat(random.below(9)).into_bytes(),
        3 => b"r".repeat(250 + random.below(10)),
        4 => made,
        _ => made::surname(random).into_bytes(),
    };
    name.retain(|byte| *byte != b'\n');
    name
}

fn joined(names: &[Vec<u8>]) -> Vec<u8> {
    names.iter().flat_map(|name| [&name[..], b"\n"].concat()).collect()
}

/// The records that share a code with a name, by a scan of all.
fn sharing(listed: &[Result<Vec<u32>, u8>], of: &[u32]) -> Vec<usize> {
    let shares = |codes: &Result<Vec<u32>, u8>| codes.iter().flatten().any(|code| of.contains(code));
    (0..listed.len()).filter(|record| shares(&listed[*record])).collect()
}

/// An index of so many names, grown from `first` of them: after each name it is what list says, at some of them also
/// what is made afresh; then names are looked up.
fn grow(random: &mut Random, rules: &str, first: usize, count: usize) {
    let content = text::read(rules.as_bytes(), true).expect("a good text");
    let coder = coder(rules);
    let names: Vec<Vec<u8>> = (0..count).map(|_| name(random, &content)).collect();
    let listed: Vec<_> = names.iter().map(|name| codes(coder.plate(), name)).collect();
    let mut index = Index::make(coder.clone(), &joined(&names[..first])).expect("no more than fit");
    for (record, name) in names.iter().enumerate().skip(first) {
        assert_eq!(index.add(name), Ok(record));
        assert_eq!(index.refusal(record).map(|cause| cause.number() as u8), listed[record].as_ref().err().copied());
        if record < 64 || record % 128 == 0 || record + 1 == count {
            let afresh = Index::make(coder.clone(), &joined(&names[..=record])).expect("no more than fit");
            assert_eq!(index, afresh);
            assert_eq!((index.entries().to_vec(), index.report().to_vec()), wanted(&listed[..=record]));
        }
    }
    assert_eq!(index.len(), count);
    for turn in 0..100 {
        let name = if turn % 2 == 0 && count > 0 { names[random.below(count)].clone() } else { name(random, &content) };
        let right = codes(coder.plate(), &name).map(|codes| sharing(&listed, &codes));
        assert_eq!(cause(index.find(&name)), right.map_err(|number| cause_of(number)));
    }
}

fn cause_of(number: u8) -> Cause {
    let all = [Cause::TooLong, Cause::NotText, Cause::CharacterNotAllowed, Cause::RoomTooSmall];
    all.into_iter().find(|cause| cause.number() == u64::from(number)).expect("a refusal of list")
}

#[test]
fn added_one_by_one_is_made_afresh() {
    let mut random = Random::new(108);
    let mut added = 0;
    while added < ADDED {
        let rules = if random.below(2) == 0 { STANDARD } else { SMALL };
        let count = [1, 2, 65, 500, 2_000, MOST_RECORDS][random.below(6)].min(ADDED - added);
        grow(&mut random, rules, 0, count);
        added += count;
    }
}

#[test]
fn some_made_and_some_added() {
    let mut random = Random::new(4_096);
    for (first, count) in
        [(0, 0), (1, 1), (1, 2), (100, 300), (MOST_RECORDS - 1, MOST_RECORDS), (MOST_RECORDS, MOST_RECORDS)]
    {
        grow(&mut random, STANDARD, first, count);
    }
}

#[test]
fn beyond_the_most_records() {
    let small = coder(SMALL);
    let many = b"r\n".repeat(MOST_RECORDS + 1);
    assert_eq!(cause(Index::make(small.clone(), &many)), Err(Cause::NotAnIndex));
    let mut index = Index::make(small, &many[2..]).expect("as many as fit");
    let before = index.clone();
    assert_eq!(cause(index.add(b"m")), Err(Cause::NotAnIndex));
    assert_eq!(cause(index.add(b"\xFF")), Err(Cause::NotAnIndex));
    assert_eq!(index, before);
    assert_eq!(index.find(b"r"), Ok((0..MOST_RECORDS).collect()));
    assert_eq!(index.find(b"m"), Ok(vec![]));
}

#[test]
fn names_that_are_refused() {
    let mut index = Index::make(coder(SMALL), "cc\nƀ\n\ncacacacacacac\nr\r\nmn".as_bytes()).expect("six names");
    let report = [None, Some(Cause::CharacterNotAllowed), None, Some(Cause::RoomTooSmall), None, None];
    assert_eq!((0..6).map(|record| index.refusal(record)).collect::<Vec<_>>(), report);
    assert_eq!(index.add(&[b'r'; 257]), Ok(6));
    assert_eq!((index.len(), index.refusal(6), index.refusal(7)), (7, Some(Cause::TooLong), None));
    assert_eq!(cause(index.find(b"\xE2")), Err(Cause::NotText));
    assert_eq!(cause(index.find("ƀ".as_bytes())), Err(Cause::CharacterNotAllowed));
    assert_eq!(index.find(b"w"), Ok(vec![]));
    assert_eq!(index.find(b"ca"), Ok(vec![0]));
    assert_eq!(index.find(b"c c"), Ok(vec![0]));
    assert_eq!(index.find(b""), Ok(vec![2]));
}

#[test]
fn kept_indexes() {
    let small = coder(SMALL);
    let index = Index::make(small.clone(), b"cc\nr\nmm\nr\n").expect("four names");
    let (entries, report) = (index.entries().to_vec(), index.report().to_vec());
    assert!(!index.is_empty() && index.coder() == &small);
    let kept =
        |entries: &[u8], report: &[u8]| cause(Index::with_kept(small.clone(), entries.to_vec(), report.to_vec()));
    assert_eq!(kept(&entries, &report), Ok(index));
    assert_eq!(kept(&[], &[]).map(|index| index.is_empty()), Ok(true));
    let doubled = [&entries[..4], &entries].concat();
    let falling = [&entries[4..8], &entries[..4]].concat();
    let above = [&entries[..], &(1_000_000u32 << 12).to_be_bytes()].concat();
    for damaged in [&entries[1..], &entries[..entries.len() - 1], &doubled, &falling, &above] {
        assert_eq!(kept(damaged, &report), Err(Cause::NotAnIndex));
    }
    assert_eq!(kept(&entries, &report[1..]), Err(Cause::NotAnIndex));
    assert_eq!(kept(&entries, &[0; MOST_RECORDS + 1]), Err(Cause::NotAnIndex));
}

/// The bytes of all three buffers in the bare calls: what is not written is as lent, and refused, all of it.
#[test]
fn bytes_beside() {
    let mut random = Random::new(18);
    let content = text::read(SMALL.as_bytes(), true).expect("a good text");
    let plate = coder(SMALL).plate().to_vec();
    for _ in 0..300 {
        let count = random.below(40);
        let names: Vec<Vec<u8>> = (0..count).map(|_| name(&mut random, &content)).collect();
        let listed: Vec<_> = names.iter().map(|name| codes(&plate, name)).collect();
        let (entries, report) = wanted(&listed);
        let (mut index, mut notes) = (vec![PAINT; entries.len() + 9], vec![PAINT; count + 9]);
        let (short, few) = (entries.len().saturating_sub(1), count.saturating_sub(1));
        if count > 0 && !entries.is_empty() {
            let refused = raw::Indexed { number: 18, index_length: 0, report_length: 0 };
            assert_eq!(raw::index_make(&plate, &joined(&names), &mut index[..short], &mut notes), refused);
            assert_eq!(raw::index_make(&plate, &joined(&names), &mut index, &mut notes[..few]), refused);
            assert!(index.iter().chain(&notes).all(|byte| *byte == PAINT));
        }
        let answer = raw::index_make(&plate, &joined(&names), &mut index[..entries.len()], &mut notes[..count]);
        assert_eq!(answer, raw::Indexed { number: 0, index_length: entries.len() as u64, report_length: count as u64 });
        assert_eq!((&index[..entries.len()], &notes[..count]), (&entries[..], &report[..]));
        assert!(index[entries.len()..].iter().chain(&notes[count..]).all(|byte| *byte == PAINT));
        let mut out = [PAINT; LONGEST_FOUND];
        let found = raw::index_find(&plate, &entries, b"cr", &mut out);
        assert_eq!(found.number, 0);
        assert!(out[found.length as usize..].iter().all(|byte| *byte == PAINT));
    }
}

/// 4,096 names with 64 codes each.
#[test]
fn the_longest_index() {
    let rules = [("b", "0|1"), ("d", "2|3"), ("g", "4|5"), ("k", "6|7"), ("a", "")];
    let rules: String =
        rules.map(|(pattern, field)| format!("\"{pattern}\" \"{field}\" \"{field}\" \"{field}\"\n")).concat();
    let letter = |record: usize, place: usize| ["b", "d", "g", "k"][record >> (10 - 2 * place) & 3];
    let name = |record| [0, 1, 2, 3, 4, 5].map(|place| letter(record, place)).join("a");
    let names: String = (0..MOST_RECORDS).map(|record| name(record) + "\n").collect();
    let index = Index::make(coder(&rules), names.as_bytes()).expect("as many as fit");
    assert_eq!((index.len(), index.entries().len()), (MOST_RECORDS, LONGEST_INDEX));
    for record in [0, 1, 1_000, MOST_RECORDS - 1] {
        assert_eq!(index.find(name(record).as_bytes()), Ok(vec![record]));
    }
}
