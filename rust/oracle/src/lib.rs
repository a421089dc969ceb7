//! The oracle: rphonetic's own daitch_mokotoff.rs, rules_parser.rs and helper.rs, compiled unchanged where they stand
//! (build.rs finds them). ParseError, PhoneticError, build_error and Encoder are taken unchanged out of its lib.rs.
//! Below them stand small crates in the places of nom, serde and thiserror.

/// Whether the source was at hand when this was compiled. If not, `build` must not be called.
pub const AT_HAND: bool = cfg!(rphonetic);

#[cfg(rphonetic)]
mod at_hand {
    use crate::daitch_mokotoff::{DaitchMokotoffSoundex, DaitchMokotoffSoundexBuilder};
    use crate::{Encoder, PhoneticError};

    /// The crate's coder.
    pub struct Coder(DaitchMokotoffSoundex);

    /// The crate's coder for this rule text, or the line of its error. An empty pattern makes it panic.
    pub fn build(text: &str, folding: bool) -> Result<Coder, usize> {
        let built = DaitchMokotoffSoundexBuilder::with_rules(text).ascii_folding(folding).build();
        match built {
            Ok(coder) => Ok(Coder(coder)),
            Err(PhoneticError::ParseRuleError(error)) => Err(error.line_number),
            Err(PhoneticError::BMError(_)) => unreachable!("the Beider-Morse coder is not taken"),
        }
    }

    /// The line of the crate's error and its text of that line; none for a text that it takes.
    pub fn refusal(text: &str) -> Option<(usize, String)> {
        match DaitchMokotoffSoundexBuilder::with_rules(text).build() {
            Err(PhoneticError::ParseRuleError(error)) => Some((error.line_number, error.line_content)),
            _ => None,
        }
    }

    impl Coder {
        pub fn encode(&self, name: &str) -> String {
            self.0.encode(name)
        }

        pub fn soundex(&self, name: &str) -> String {
            self.0.soundex(name)
        }

        pub fn inner_soundex(&self, name: &str, branching: bool) -> Vec<String> {
            self.0.inner_soundex(name, branching)
        }
    }
}

#[cfg(not(rphonetic))]
mod at_hand {
    /// Stands in the place of the crate's coder; none is ever made.
    pub struct Coder(());

    pub fn build(_: &str, _: bool) -> Result<Coder, usize> {
        missing()
    }

    pub fn refusal(_: &str) -> Option<(usize, String)> {
        missing()
    }

    fn missing() -> ! {
        panic!("the source of rphonetic was not at hand when this was compiled")
    }

    impl Coder {
        pub fn encode(&self, _: &str) -> String {
            missing()
        }

        pub fn soundex(&self, _: &str) -> String {
            missing()
        }

        pub fn inner_soundex(&self, _: &str, _: bool) -> Vec<String> {
            missing()
        }
    }
}

pub use at_hand::{build, refusal, Coder};

#[cfg(rphonetic)]
use {
    rules_parser::*,
    serde::{Deserialize, Serialize},
    thiserror::Error,
};

#[cfg(rphonetic)]
include!(concat!(env!("OUT_DIR"), "/rphonetic.rs"));

/// Stands in the place of the error of the Beider-Morse coder, which is not taken.
#[derive(Debug, Clone, PartialEq)]
pub struct BMError;

#[cfg(all(test, rphonetic))]
mod tests {
    use super::build;

    const S: &str = "à=a\n\"a\" \"0\" \"\" \"\"\n\"o\" \"0\" \"\" \"\"\n\"ie\" \"1\" \"\" \"\"\n\"ch\" \"4|5\" \"4|5\" \"4|5\"\n\"c\" \"4|5\" \"4|5\" \"4|5\"\n\"r\" \"9\" \"9\" \"9\"\n\"s\" \"4\" \"4\" \"4\"\n\"w\" \"7\" \"7\" \"7\"\n\"m\" \"6\" \"6\" \"6\"\n\"n\" \"6\" \"6\" \"6\"\n\"h\" \"5\" \"5\" \"\"\n";

    #[test]
    fn the_crates_own_example() {
        let coder = build(S, true).ok().unwrap();
        assert_eq!(coder.encode("Rosochowaciec"), "944744");
        assert_eq!(coder.soundex("Rosochowaciec"), "944744|944745|944754|944755|945744|945745|945754|945755");
    }

    #[test]
    fn the_line_of_an_error() {
        assert_eq!(build("/* */\nx", true).err(), Some(3), "its own counter: x stands in line 2");
        assert_eq!(build("\"a\nb\" \"\" \"\" \"\"\n?", true).err(), Some(2), "its own counter: ? stands in line 3");
        assert_eq!(build("\n=x\n?", true).err(), Some(2), "its own counter: ? stands in line 3");
        assert_eq!(build("a=b\r", true).err(), Some(1));
        assert!(build("\n =x\n// c\r\na=\r", true).is_ok());
    }
}
