//! The scope paper's examples, through the wrapper.

use judge::SMALL;
use std::error::Error;
use zengilvar::{raw, Cause, DaitchMokotoffSoundex, DaitchMokotoffSoundexBuilder, Encoder, PhoneticError};

fn coder(text: &str) -> DaitchMokotoffSoundex {
    DaitchMokotoffSoundexBuilder::with_rules(text).build().expect("a good text")
}

/// A refusal: its cause, and the byte of the name at which the fault begins.
type Told = Option<(Cause, Option<usize>)>;

fn refused(cause: Cause) -> Told {
    Some((cause, None))
}

fn told<T>(answer: Result<T, PhoneticError>) -> Told {
    answer.err().map(|error| (error.cause(), error.place()))
}

#[test]
fn codes() {
    let small = coder(SMALL);
    let examples = [
        ("", "000000"),
        ("mm", "600000"),
        ("mn", "660000"),
        ("nm", "660000"),
        ("mon", "660000"),
        ("xh", "500000"),
        ("ih", "000000"),
        ("rh", "900000"),
        ("rha", "950000"),
        ("cc", "400000|450000|540000|500000"),
        ("rwrwrwc", "979797"),
        ("Àr", "090000"),
        ("Rosochowaciec", "944744|944745|944754|944755|945744|945745|945754|945755"),
    ];
    for (name, codes) in examples {
        assert_eq!(small.soundex(name).as_deref(), Ok(codes), "{name}");
        assert_eq!(small.encode(name).as_deref(), Ok(&codes[..6]), "{name}");
        let one_by_one: Vec<&str> = codes.split('|').collect();
        assert_eq!(small.inner_soundex(name, true).expect("coded"), one_by_one, "{name}");
        assert_eq!(small.inner_soundex(name, false).expect("coded"), one_by_one[..1], "{name}");
    }
    assert_eq!(small.encode(&"r".repeat(256)).as_deref(), Ok("900000"));
    assert_eq!(small.soundex("cacacacacaca").map(|codes| codes.len()), Ok(447));
    let bare = DaitchMokotoffSoundexBuilder::with_rules(SMALL).ascii_folding(false).build().expect("a good text");
    assert_eq!(bare.soundex("Àr").as_deref(), Ok("900000"));
    assert_eq!(coder(&format!("{SMALL}\"z\" \"4|4\" \"4|4\" \"4|4\"\n")).soundex("z").as_deref(), Ok("400000"));
    assert_eq!(coder(&format!("{SMALL}\"ą\" \"6\" \"6\" \"6\"\n")).soundex("ąr").as_deref(), Ok("690000"));
}

#[test]
fn the_standard_rules() {
    let standard = DaitchMokotoffSoundex::default();
    assert_eq!(standard, coder(include_str!("../../../rules/daitch-mokotoff.txt")));
    assert_eq!(standard.encode("Rosochowaciec").as_deref(), Ok("944744"));
    let codes = "944744|944745|944754|944755|945744|945745|945754|945755";
    assert_eq!(standard.soundex("Rosochowaciec").as_deref(), Ok(codes));
    assert_eq!(standard.soundex("sjs").as_deref(), Ok("440000|400000"));
    let flat = DaitchMokotoffSoundexBuilder::default().ascii_folding(false).build().expect("the standard rules");
    assert_ne!(flat.encode("Ábel"), standard.encode("Ábel"));
}

#[test]
fn a_plate_is_checked_when_taken() {
    let small = coder(SMALL);
    assert_eq!(DaitchMokotoffSoundex::with_plate(small.plate().to_vec()), Ok(small.clone()));
    let mut longer = small.plate().to_vec();
    longer.push(0);
    for bytes in [vec![], vec![2], longer, SMALL.as_bytes().to_vec()] {
        assert_eq!(told(DaitchMokotoffSoundex::with_plate(bytes)), refused(Cause::NotAPlate));
    }
}

#[test]
fn refused_names() {
    let small = coder(SMALL);
    for (name, cause, place) in [
        ("r".repeat(257).as_str(), Cause::TooLong, None),
        ("\u{180}", Cause::CharacterNotAllowed, Some(0)),
        ("ab\u{180}", Cause::CharacterNotAllowed, Some(2)),
        ("\u{2003}\u{460}", Cause::CharacterNotAllowed, Some(3)),
        ("cacacacacacac", Cause::RoomTooSmall, None),
        ("cacacacacacaca", Cause::RoomTooSmall, None),
    ] {
        let refused = Some((cause, place));
        assert_eq!(told(small.soundex(name)), refused, "{name}");
        assert_eq!(told(small.inner_soundex(name, true)), refused, "{name}");
        if cause != Cause::RoomTooSmall {
            assert_eq!(told(small.encode(name)), refused, "{name}");
            assert_eq!(told(small.inner_soundex(name, false)), refused, "{name}");
            assert_eq!(told(small.is_encoded_equals("r", name)), refused, "{name}");
            assert_eq!(told(small.is_encoded_equals(name, "r")), refused, "{name}");
        }
    }
    assert_eq!(small.is_encoded_equals("mn", "nm"), Ok(true));
    assert_eq!(small.is_encoded_equals("mn", "mm"), Ok(false));
}

#[test]
fn refusals_in_words() {
    let words = |name: &str| coder(SMALL).encode(name).map_err(|error| error.to_string());
    let strange = "Refused with 11: a character that is neither white space nor below U+0180 nor U+0400 to U+045F, at byte 2";
    assert_eq!(words("ab\u{180}"), Err(strange.to_string()));
    let long = "Refused with 1: the rule text has over 65,536 bytes, the name over 256, or the list over 256 names";
    assert_eq!(words(&"r".repeat(257)), Err(long.to_string()));
}

/// What the wrapper, which takes text alone, never meets: broken bytes.
#[test]
fn broken_names() {
    let small = coder(SMALL);
    let cut = [&[b'r'; 255][..], b"\xC3"].concat();
    for (name, place) in [
        (&b"a\xE2\x82a"[..], 1),
        (b"\xC6\x80\xFF", 2),
        (b"rr\xED\xA0\x80", 2),
        (b"\xC3", 0),
        (&cut, 255),
    ] {
        let refused = raw::Coded { number: 2, count: 0, place };
        let mut out = [0xEE; 6];
        assert_eq!((raw::list(small.plate(), name, &mut out), out), (refused, [0xEE; 6]), "{name:?}");
        assert_eq!((raw::encode(small.plate(), name, &mut out), out), (refused, [0xEE; 6]), "{name:?}");
    }
}

#[test]
fn refused_texts() {
    let many = "\"a\" \"\" \"\" \"\"\n".repeat(1_501);
    let long = "\n".repeat(65_537);
    let texts = [
        (long.as_str(), Cause::TooLong, 0, ""),
        ("x\0", Cause::NotText, 0, ""),
        ("x", Cause::NotRecognised, 1, "x"),
        ("/* */\nx y\r\nz", Cause::NotRecognised, 2, "x y\r"),
        ("/*\n\n*/\n\"a\n\" \"1\" \"1\" \"1\"\n\n/* never closed\n", Cause::NotRecognised, 7, "/* never closed"),
        ("a=\nb=c", Cause::NotRecognised, 1, "a="),
        ("// c\n=x\n", Cause::NotRecognised, 2, "=x"),
        ("\n=x\ny", Cause::NotRecognised, 3, "y"),
        ("a=\n\ny", Cause::NotRecognised, 3, "y"),
        ("\"a\nb\" \"\" \"\" \"\"\n?", Cause::NotRecognised, 3, "?"),
        ("\"a\" \"1\n\" \"\" \"\"\n", Cause::NotDigits, 1, "\"a\" \"1"),
        ("\"a\" \"\" \"\" \"\n\"b\" \"\" \"\" \"\"", Cause::NotRecognised, 1, "\"a\" \"\" \"\" \""),
        ("\"\" \"\" \"\" \"\"", Cause::EmptyPattern, 1, "\"\" \"\" \"\" \"\""),
        ("\n\"aaaaaaaaaaaaaaaaa\" \"\" \"\" \"\"", Cause::LongPattern, 2, "\"aaaaaaaaaaaaaaaaa\" \"\" \"\" \"\""),
        ("\"a\" \"||||||||\" \"x\" \"\"", Cause::ManyAlternatives, 1, "\"a\" \"||||||||\" \"x\" \"\""),
        ("é=e\n\"a\" \"x\" \"||||||||\" \"\"", Cause::NotDigits, 2, "\"a\" \"x\" \"||||||||\" \"\""),
        (many.as_str(), Cause::TooMany, 1_501, "\"a\" \"\" \"\" \"\""),
    ];
    for (text, cause, line, content) in texts {
        let Err(PhoneticError::ParseRuleError(error)) = DaitchMokotoffSoundexBuilder::with_rules(text).build() else {
            panic!("refused by another error, or not at all: {text:?}");
        };
        let told = (error.cause, error.line_number, error.line_content.as_str());
        assert_eq!(told, (cause, line, content), "{text:?}");
        assert_eq!((error.description.as_str(), error.filename.as_deref()), (cause.words(), None));
        assert_eq!(error.to_string(), format!("Unknown:{line} {} : {content}", cause.words()));
        let outer = PhoneticError::from(error.clone());
        assert_eq!((outer.to_string(), outer.cause()), (format!("Error parsing rule file {error}"), cause));
        assert_eq!(outer.source().map(|inner| inner.to_string()), Some(error.to_string()));
    }
}

#[test]
fn raw_calls() {
    let mut plate = [0xEE; 10];
    let built = raw::build(b"\"a\" \"0\" \"\" \"\"\n", true, &mut plate);
    assert_eq!(built, raw::Built { number: 0, line: 0, length: 9 });
    assert_eq!(plate, [0x01, 0x00, 0x40, 0x20, 0x0B, 0x08, 0x90, 0x10, 0x20, 0xEE]);
    let mut short = [0xEE; 8];
    assert_eq!(raw::build(b"\"a\" \"0\" \"\" \"\"\n", true, &mut short), raw::Built { number: 9, line: 0, length: 0 });
    assert_eq!(short, [0xEE; 8]);
    let small = coder(SMALL);
    let mut out = [0xEE; 8];
    assert_eq!(raw::encode(small.plate(), b"mm", &mut out), raw::Coded { number: 0, count: 1, place: 0 });
    assert_eq!(&out, b"600000\xEE\xEE");
    let mut out = [0xEE; 54];
    assert_eq!(raw::list(small.plate(), b"Rosochowaciec", &mut out), raw::Coded { number: 12, count: 0, place: 0 });
    assert_eq!(out, [0xEE; 54]);
    assert_eq!(raw::list(small.plate(), b"r\xFF", &mut out), raw::Coded { number: 2, count: 0, place: 1 });
    assert!(raw::is_plate(small.plate()) && !raw::is_plate(&[]));
}
