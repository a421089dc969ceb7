//! The wrapper says what include/zengilvar.h says: numbers, words, constants, version, layout.

use std::mem::{offset_of, size_of};
use zengilvar::{
    raw, Cause, LINE_ROOM, LONGEST_FOUND, LONGEST_INDEX, LONGEST_LIST, LONGEST_NAME, LONGEST_PLATE, LONGEST_PLATE_1,
    LONGEST_TEXT, MOST_NAMES, MOST_RECORDS,
};

const HEADER: &str = include_str!("../../../include/zengilvar.h");

/// What stands behind these words in the header, up to the next of the marks.
fn behind(words: &str, marks: &[char]) -> &'static str {
    let at = HEADER.find(words).unwrap_or_else(|| panic!("the header has no {words:?}")) + words.len();
    HEADER[at..].split(marks).next().unwrap_or("")
}

fn defined(name: &str) -> usize {
    behind(&format!("#define {name} "), &[' ', '\n']).parse().expect("a number")
}

/// Every cause, its number, the header's name of it, and its words.
const CAUSES: [(Cause, u64, &str, &str); 13] = [
    (Cause::TooLong, 1, "TOO_LONG", "the rule text has over 65,536 bytes, the name over 256, or the list over 256 names"),
    (Cause::NotText, 2, "NOT_TEXT", "not UTF-8, or a zero byte in rule text"),
    (Cause::NotRecognised, 3, "NOT_RECOGNISED", "no rule, folding, comment or empty line"),
    (Cause::EmptyPattern, 4, "EMPTY_PATTERN", "an empty pattern"),
    (Cause::LongPattern, 5, "LONG_PATTERN", "a pattern over 16 bytes"),
    (Cause::ManyAlternatives, 6, "MANY_ALTERNATIVES", "a field with over 8 alternatives"),
    (Cause::NotDigits, 7, "NOT_DIGITS", "an alternative that is not 0 to 6 digits"),
    (Cause::TooMany, 8, "TOO_MANY", "over 1,500 rules, or over 128 folded characters"),
    (Cause::ShortBuffer, 9, "SHORT_BUFFER", "the buffer is shorter than the plate, or than the records found"),
    (Cause::NotAPlate, 10, "NOT_A_PLATE", "the plate is damaged or no plate"),
    (
        Cause::CharacterNotAllowed,
        11,
        "CHARACTER_NOT_ALLOWED",
        "a character that is neither white space nor below U+0180 nor U+0400 to U+045F",
    ),
    (
        Cause::RoomTooSmall,
        12,
        "ROOM_TOO_SMALL",
        "the buffer is too small for the codes, or the name has over 64 codes at some step",
    ),
    (
        Cause::NotAnIndex,
        18,
        "NOT_AN_INDEX",
        "no index, over 4,096 names in one, or no room for its entries or its report",
    ),
];

#[test]
fn numbers_and_words() {
    for (cause, number, name, words) in CAUSES {
        assert_eq!((cause.number(), cause.words()), (number, words));
        assert_eq!(cause.to_string(), format!("{number}: {words}"));
        assert_eq!(behind(&format!(" DM_{name} = "), &[',', '\n']), number.to_string());
        assert_eq!(behind(&format!("case DM_{name}: return \""), &['"']), words);
    }
    assert_eq!(HEADER.matches("case DM_").count(), 1 + CAUSES.len());
    assert_eq!((Cause::Other(99).number(), Cause::Other(99).words()), (99, behind("default: return \"", &['"'])));
}

#[test]
fn constants() {
    assert_eq!(LONGEST_TEXT, defined("DM_TEXT_MOST"));
    assert_eq!(LONGEST_PLATE, defined("DM_PLATE_MOST"));
    assert_eq!(LONGEST_PLATE_1, defined("DM_PLATE_MOST_1"));
    assert_eq!(LONGEST_NAME, defined("DM_NAME_MOST"));
    assert_eq!(LONGEST_LIST, defined("DM_LIST_MOST"));
    assert_eq!(MOST_NAMES, defined("DM_WARD_NAMES"));
    assert_eq!(LINE_ROOM, defined("DM_WARD_LINE"));
    assert_eq!(MOST_RECORDS, defined("DM_RECORDS_MOST"));
    assert_eq!(LONGEST_INDEX, defined("DM_INDEX_MOST"));
    assert_eq!(LONGEST_FOUND, defined("DM_FOUND_MOST"));
    assert_eq!(env!("CARGO_PKG_VERSION"), behind("#define DM_VERSION \"", &['"']));
}

/// As tests/c/words.c says of the header's own.
#[test]
fn layout() {
    assert_eq!((size_of::<raw::Built>(), size_of::<raw::Coded>()), (24, 24));
    assert_eq!(size_of::<raw::Indexed>(), 24);
    assert_eq!((offset_of!(raw::Indexed, index_length), offset_of!(raw::Indexed, report_length)), (8, 16));
    assert_eq!((size_of::<raw::Written>(), offset_of!(raw::Written, length)), (16, 8));
    assert_eq!((offset_of!(raw::Built, line), offset_of!(raw::Built, length)), (8, 16));
    assert_eq!((offset_of!(raw::Coded, count), offset_of!(raw::Coded, place)), (8, 16));
}
