//! rphonetic's own examples with the crate's name changed. What more had to be changed is marked: the `?` behind a call
//! that codes a name.

use judge::made;
use judge::random::Random;
use zengilvar::{DaitchMokotoffSoundex, DaitchMokotoffSoundexBuilder, Encoder, ParseError, PhoneticError};

const COMMONS_CODEC_RULES: &str = include_str!("../../../rules/daitch-mokotoff.txt");

#[test]
fn the_description() -> Result<(), PhoneticError> {
    let rules = "/*
This
is
a
multiline
comment
 */

// This is a single line comment.

à=a // You can put a one line comment at the end of a rule. This rule is for ASCII folding.
/*
This rule converts the substring `sh` into
 - `0` if at the start of the word
 - an empty string if before a vowel
 - otherwise it does a branching with code `0` and code `1`
 */
\"sh\" \"0\" \"\" \"0|1\"";
    let daitch_mokotoff: DaitchMokotoffSoundex = DaitchMokotoffSoundexBuilder::with_rules(rules).build()?;
    assert_eq!(daitch_mokotoff.encode("sh") /* changed */?, "000000");
    Ok(())
}

#[test]
fn encode() -> Result<(), PhoneticError> {
    let encoder = DaitchMokotoffSoundexBuilder::with_rules(COMMONS_CODEC_RULES).build()?;

    assert_eq!(encoder.encode("Rosochowaciec") /* changed */?, "944744");
    Ok(())
}

#[test]
fn soundex() -> Result<(), PhoneticError> {
    let encoder = DaitchMokotoffSoundexBuilder::with_rules(COMMONS_CODEC_RULES).build()?;

    let codes = "944744|944745|944754|944755|945744|945745|945754|945755";
    assert_eq!(encoder.soundex("Rosochowaciec") /* changed */?, codes);
    Ok(())
}

#[test]
fn inner_soundex() -> Result<(), PhoneticError> {
    let encoder = DaitchMokotoffSoundexBuilder::with_rules(COMMONS_CODEC_RULES).build()?;

    // With branching
    assert_eq!(
        encoder.inner_soundex("Rosochowaciec", true) /* changed */?,
        vec!["944744", "944745", "944754", "944755", "945744", "945745", "945754", "945755"]
    );

    // Without branching
    assert_eq!(encoder.inner_soundex("Rosochowaciec", false) /* changed */?, vec!["944744"]);
    Ok(())
}

/// What else a caller may have written: defaults, a generic bound, the trait as an object, an error taken apart.
#[test]
fn around_the_examples() -> Result<(), Box<dyn std::error::Error>> {
    fn same<E: Encoder>(encoder: &E, first: &str, second: &str) -> bool {
        encoder
            .is_encoded_equals(first, second) /* changed */
            .unwrap_or(false)
    }
    let encoder = DaitchMokotoffSoundex::default();
    assert!(same(&encoder, "Moskowitz", "Moskovitz"));
    assert!(!same(&encoder, "Peters", "Moskovitz"));
    let any: Box<dyn Encoder> = Box::new(encoder.clone());
    assert_eq!(any.encode("Peters") /* changed */?, "734000");
    let flat = DaitchMokotoffSoundexBuilder::default().ascii_folding(false).build()?;
    assert_ne!(flat, encoder);

    match DaitchMokotoffSoundexBuilder::with_rules("// good\nbad").build() {
        Err(PhoneticError::ParseRuleError(ParseError { line_number, line_content, .. })) => {
            assert_eq!((line_number, line_content.as_str()), (2, "bad"));
        }
        other => panic!("{other:?}"),
    }
    Ok(())
}

/// The text of an error's line is rphonetic's own, on damaged texts, and stands at the line that is told. rphonetic's
/// counter is elsewhere, above and below.
#[test]
fn lines_of_errors() {
    if !oracle::AT_HAND {
        return;
    }
    let mut random = Random::new(1);
    let (mut compared, mut above, mut below) = (0, 0, 0);
    for _ in 0..20_000 {
        let taste = made::taste(&mut random, false);
        let rules = random.within(0, 6);
        let good = made::text(&mut random, &taste, rules).into_bytes();
        let Ok(text) = String::from_utf8(made::damaged(&mut random, &good)) else {
            continue;
        };
        let Err(PhoneticError::ParseRuleError(error)) = DaitchMokotoffSoundexBuilder::with_rules(&text).build() else {
            continue;
        };
        if error.cause.number() == 3 {
            let (line, content) = oracle::refusal(&text).expect("refused by both");
            assert_eq!(error.line_content, content, "{text:?}");
            assert_eq!(text.split('\n').nth(error.line_number - 1), Some(content.as_str()), "{text:?}");
            compared += 1;
            above += (line > error.line_number) as u64;
            below += (line < error.line_number) as u64;
        }
    }
    assert!(compared > 1_000 && above > 0 && below > 0, "{compared}, {above} above, {below} below");
}
