//! A ward list beside list: each line is what a call of list with 447 bytes gives, whatever else is in the list.

use judge::random::Random;
use judge::{made, text, SMALL, STANDARD};
use zengilvar::{
    raw, Cause, DaitchMokotoffSoundex, DaitchMokotoffSoundexBuilder, PhoneticError, LINE_ROOM, LONGEST_LIST, MOST_NAMES,
};

/// How many names are coded both ways.
const NAMES: usize = 100_000;

const PAINT: u8 = 0xEE;

fn coder(rules: &str) -> DaitchMokotoffSoundex {
    DaitchMokotoffSoundexBuilder::with_rules(rules).build().expect("a good text")
}

/// The line of a name, from a list call of its own; the bytes lent are not those that ward was lent.
fn line(plate: &[u8], name: &[u8]) -> Vec<u8> {
    let mut out = [b'x'; LONGEST_LIST];
    let coded = raw::list(plate, name, &mut out);
    match coded.number {
        0 => out[..7 * coded.count as usize - 1].to_vec(),
        number => format!("!{number:02}").into_bytes(),
    }
}

/// Names of all kinds: surnames, names made for the rules, damaged ones, empty ones, long ones. None holds a newline.
fn name(random: &mut Random, content: &judge::Content) -> Vec<u8> {
    let made = made::name(random, content).into_bytes();
    let mut name = match random.below(8) {
        0 => Vec::new(),
        1 => made::damaged(random, &made),
        2 => [made, b"\r".to_vec()].concat(),
        3 => "ca".repeat(random.below(9)).into_bytes(),
        4 => b"r".repeat(250 + random.below(10)),
        5 => made,
        _ => made::surname(random).into_bytes(),
    };
    name.retain(|byte| *byte != b'\n');
    name
}

#[test]
fn every_line_is_lists() {
    let mut random = Random::new(103);
    let mut coded = 0;
    while coded < NAMES {
        let rules = if random.below(2) == 0 { STANDARD } else { SMALL };
        let content = text::read(rules.as_bytes(), true).expect("a good text");
        let plate = coder(rules).plate().to_vec();
        let count = [0, 1, 2, 127, 128, 129, 255, 256][random.below(8)];
        let names: Vec<Vec<u8>> = (0..count).map(|_| name(&mut random, &content)).collect();
        let mut list: Vec<u8> = names.iter().flat_map(|name| [&name[..], b"\n"].concat()).collect();
        if names.last().is_some_and(|last| !last.is_empty()) && random.below(2) == 0 {
            list.pop();
        }
        let wanted: Vec<u8> = names.iter().flat_map(|name| [line(&plate, name), b"\n".to_vec()].concat()).collect();
        let mut out = vec![PAINT; count * LINE_ROOM + random.below(3)];
        let written = raw::ward(&plate, &list, &mut out);
        assert_eq!(written, raw::Written { number: 0, length: wanted.len() as u64 });
        assert_eq!(out[..wanted.len()], wanted[..]);
        assert!(out[wanted.len()..].iter().all(|byte| *byte == PAINT));
        coded += count;
    }
}

#[test]
fn whole_lists_are_refused() {
    let plate = coder(SMALL).plate().to_vec();
    let mut out = vec![PAINT; (MOST_NAMES + 1) * LINE_ROOM];
    for count in [1, 2, MOST_NAMES - 1, MOST_NAMES] {
        let names = b"r\n".repeat(count);
        let short = count * LINE_ROOM - 1;
        assert_eq!(raw::ward(&plate, &names, &mut out[..short]), raw::Written { number: 12, length: 0 });
        assert_eq!(raw::ward(&[], &names, &mut out), raw::Written { number: 10, length: 0 });
        assert!(out.iter().all(|byte| *byte == PAINT));
        assert_eq!(raw::ward(&plate, &names, &mut out[..short + 1]).length, 7 * count as u64);
        out.fill(PAINT);
    }
    let many = b"\n".repeat(MOST_NAMES + 1);
    assert_eq!(raw::ward(&plate, &many, &mut []), raw::Written { number: 1, length: 0 });
    assert_eq!(raw::ward(&plate, &many, &mut out), raw::Written { number: 1, length: 0 });
    assert!(out.iter().all(|byte| *byte == PAINT));
}

#[test]
fn lines_one_by_one() {
    let small = coder(SMALL);
    let cause = |line: Result<String, PhoneticError>| line.map_err(|error| error.cause());
    let mut ward = small.ward("cc\nƀ\n\ncacacacacacac\nr\r\nmn".as_bytes()).expect("six names");
    assert_eq!(ward.len(), 6);
    assert_eq!(ward.next().map(cause), Some(Ok("400000|450000|540000|500000".to_string())));
    assert_eq!(ward.next().map(cause), Some(Err(Cause::CharacterNotAllowed)));
    assert_eq!(ward.next().map(cause), Some(Ok("000000".to_string())));
    assert_eq!(ward.next().map(cause), Some(Err(Cause::RoomTooSmall)));
    assert_eq!(ward.len(), 2);
    assert_eq!(ward.map(cause).collect::<Vec<_>>(), [Ok("900000".to_string()), Ok("660000".to_string())]);
    let broken: Vec<_> = small.ward(b"\xE2\n\x82").expect("two names").map(cause).collect();
    assert_eq!(broken, [Err(Cause::NotText), Err(Cause::NotText)]);
    assert_eq!(small.ward(b"").expect("no names").count(), 0);
    assert_eq!(small.ward(b"\n").expect("one name").map(cause).collect::<Vec<_>>(), [Ok("000000".to_string())]);
    let many = b"\n".repeat(MOST_NAMES + 1);
    assert_eq!(small.ward(&many).map(|ward| ward.len()).map_err(|error| error.cause()), Err(Cause::TooLong));
    assert_eq!(small.ward(&many[1..]).map(|ward| ward.len()), Ok(MOST_NAMES));
}
