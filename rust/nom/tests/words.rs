//! What nom's documentation says of each parser, on the smallest inputs.

use nom::branch::alt;
use nom::bytes::complete::{is_not, tag, take_till1, take_until, take_while1};
use nom::character::complete::{alpha1, anychar, char, crlf, space1};
use nom::combinator::{eof, map, map_opt, opt, value};
use nom::error::Error;
use nom::sequence::{delimited, pair, preceded, separated_pair, terminated};
use nom::Parser;

/// The rest and the value, or none.
fn run<'a, P>(mut parser: P, input: &'a str) -> Option<(&'a str, P::Output)>
where
    P: Parser<&'a str, Error = Error<&'a str>>,
{
    parser.parse(input).ok()
}

#[test]
fn bytes() {
    assert_eq!(run(tag("//"), "//a"), Some(("a", "//")));
    assert_eq!(run(tag("//"), "/"), None);
    assert_eq!(run(is_not("\n"), "a\r\nb"), Some(("\nb", "a\r")));
    assert_eq!(run(is_not("\n"), "\n"), None);
    assert_eq!(run(is_not("\n"), ""), None);
    assert_eq!(run(is_not("\n"), "a"), Some(("", "a")));
    assert_eq!(run(take_until("*/"), "*/"), Some(("*/", "")));
    assert_eq!(run(take_until("*/"), "a*/*/"), Some(("*/*/", "a")));
    assert_eq!(run(take_until("*/"), "a*"), None);
    assert_eq!(run(take_till1(|c| c == ' '), "a b"), Some((" b", "a")));
    assert_eq!(run(take_till1(|c| c == ' '), " b"), None);
    assert_eq!(run(take_while1(|c: char| c == 'a'), "aab"), Some(("b", "aa")));
    assert_eq!(run(take_while1(|c: char| c == 'a'), "b"), None);
}

#[test]
fn characters() {
    assert_eq!(run(anychar, "éa"), Some(("a", 'é')));
    assert_eq!(run(anychar, ""), None);
    assert_eq!(run(char('='), "=a"), Some(("a", '=')));
    assert_eq!(run(char('='), "a"), None);
    assert_eq!(run(crlf, "\r\n\n"), Some(("\n", "\r\n")));
    assert_eq!(run(crlf, "\n"), None);
    assert_eq!(run(crlf, "\r"), None);
    assert_eq!(run(space1, " \t\u{A0}"), Some(("\u{A0}", " \t")));
    assert_eq!(run(space1, "\n"), None);
    assert_eq!(run(alpha1, "aZé"), Some(("é", "aZ")));
}

#[test]
fn together() {
    assert_eq!(run(eof, ""), Some(("", "")));
    assert_eq!(run(eof, "a"), None);
    assert_eq!(run(opt(tag("a")), "ab"), Some(("b", Some("a"))));
    assert_eq!(run(opt(tag("a")), "b"), Some(("b", None)));
    assert_eq!(run(opt((tag("a"), tag("b"))), "ac"), Some(("ac", None)));
    assert_eq!(run(alt((tag("a"), tag("ab"))), "ab"), Some(("b", "a")));
    assert_eq!(run(alt((eof, tag("\n"), crlf)), "\r\n"), Some(("", "\r\n")));
    assert_eq!(run((alt((tag("a"), tag("ab"))), tag("c")), "abc"), None);
    assert_eq!(run(map(tag("a"), str::len), "a"), Some(("", 1)));
    assert_eq!(run(map_opt(anychar, |c| c.to_digit(10)), "7"), Some(("", 7)));
    assert_eq!(run(map_opt(anychar, |c| c.to_digit(10)), "x"), None);
    assert_eq!(run(value(1, tag("a")), "a"), Some(("", 1)));
    assert_eq!(run(delimited(char('('), tag("a"), char(')')), "(a)"), Some(("", "a")));
    assert_eq!(run(pair(anychar, anychar), "abc"), Some(("c", ('a', 'b'))));
    assert_eq!(run(preceded(tag("a"), tag("b")), "ab"), Some(("", "b")));
    assert_eq!(run(terminated(tag("a"), tag("b")), "ab"), Some(("", "a")));
    assert_eq!(run(separated_pair(anychar, char('='), anychar), "a=="), Some(("", ('a', '='))));
}
