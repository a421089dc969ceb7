//! The wrapper's constants: at their sizes there is an answer, beyond them a refusal.

use judge::random::Random;
use judge::{made, plate, SMALL};
use zengilvar::{
    raw, Cause, DaitchMokotoffSoundex, DaitchMokotoffSoundexBuilder, Encoder, LONGEST_LIST, LONGEST_NAME,
    LONGEST_PLATE, LONGEST_PLATE_1, LONGEST_TEXT,
};

fn small() -> DaitchMokotoffSoundex {
    DaitchMokotoffSoundexBuilder::with_rules(SMALL).build().expect("a good text")
}

#[test]
fn the_longest_plates() {
    for (rules, longest) in [(512, LONGEST_PLATE_1), (1_500, LONGEST_PLATE)] {
        let content = made::longest_plate(&mut Random::new(1), rules);
        let bytes = plate::write(&content);
        assert_eq!(bytes.len(), longest);
        let coder = DaitchMokotoffSoundex::with_plate(bytes.clone()).expect("a plate");
        let rule = &content.rules[rules - 1];
        assert_eq!(coder.soundex(&rule.pattern), Ok(rule.fields[0].join("|")));
        assert_eq!(coder.encode(&rule.pattern).as_ref(), Ok(&rule.fields[0][0]));
        let longer = [bytes.clone(), vec![0]].concat();
        for damaged in [longer, bytes[..longest - 1].to_vec()] {
            assert_eq!(DaitchMokotoffSoundex::with_plate(damaged).map_err(|error| error.cause()), Err(Cause::NotAPlate));
        }
    }
}

/// The largest plate that a text can give fills a text of nearly its longest.
#[test]
fn the_longest_text() {
    let field = ["123456"; 8].join("|");
    let mut text = String::new();
    for number in 0..339 {
        text += &format!("\"aaaaaaaaaaaaa{number:03}\" \"{field}\" \"{field}\" \"{field}\"\n");
    }
    text += &"\n".repeat(LONGEST_TEXT - text.len());
    let coder = DaitchMokotoffSoundexBuilder::with_rules(&text).build().expect("a text of the longest length");
    assert_eq!(coder.soundex("aaaaaaaaaaaaa338").as_deref(), Ok("123456"));
    let refused = DaitchMokotoffSoundexBuilder::with_rules(&format!("{text}\n")).build();
    assert_eq!(refused.map_err(|error| error.cause()), Err(Cause::TooLong));
}

#[test]
fn the_longest_name() {
    assert_eq!(small().encode(&"r".repeat(LONGEST_NAME)).as_deref(), Ok("900000"));
    assert_eq!(small().encode(&"r".repeat(LONGEST_NAME + 1)).map_err(|error| error.cause()), Err(Cause::TooLong));
}

#[test]
fn the_longest_list() {
    let wanted: Vec<String> = (0..64).map(|k| format!("{k:06b}").replace('0', "4").replace('1', "5")).collect();
    assert_eq!(small().inner_soundex("cacacacacaca", true), Ok(wanted.clone()));
    assert_eq!(small().soundex("cacacacacaca"), Ok(wanted.join("|")));
    let mut out = [0xEE; LONGEST_LIST];
    let less = LONGEST_LIST - 1;
    let refused = raw::list(small().plate(), b"cacacacacaca", &mut out[..less]);
    assert_eq!((refused, out), (raw::Coded { number: 12, count: 0, place: 0 }, [0xEE; LONGEST_LIST]));
    let listed = raw::list(small().plate(), b"cacacacacaca", &mut out);
    assert_eq!((listed, &out[..]), (raw::Coded { number: 0, count: 64, place: 0 }, wanted.join("|").as_bytes()));
}
