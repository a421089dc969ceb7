//! A stand-in for the parts of the crate nom (8) that rphonetic's rules_parser.rs and daitch_mokotoff.rs name.
//!
//! It is not nom. It reads `&str` only, and each parser does what nom's documentation says of the one with its name.
//! nom's Incomplete and Failure are missing: the parsers named are the complete ones, and nothing that the two files
//! call makes a Failure, so every error is one that `alt` and `opt` may go on from.

/// What a parser answers: the rest and the value, or an error.
pub type IResult<I, O, E = error::Error<I>> = Result<(I, O), Err<E>>;

/// An error that `alt` and `opt` may go on from.
#[derive(Debug, Clone, PartialEq)]
pub enum Err<E> {
    Error(E),
}

/// Something that reads the front of the input.
pub trait Parser<I> {
    type Output;
    type Error: error::ParseError<I>;

    fn parse(&mut self, input: I) -> IResult<I, Self::Output, Self::Error>;
}

impl<I, O, E, F> Parser<I> for F
where
    F: FnMut(I) -> IResult<I, O, E>,
    E: error::ParseError<I>,
{
    type Output = O;
    type Error = E;

    fn parse(&mut self, input: I) -> IResult<I, O, E> {
        self(input)
    }
}

macro_rules! one_behind_the_other {
    ($($parser:ident $value:ident),+) => {
        impl<I, E, $($parser),+> Parser<I> for ($($parser,)+)
        where
            E: error::ParseError<I>,
            $($parser: Parser<I, Error = E>),+
        {
            type Output = ($($parser::Output,)+);
            type Error = E;

            #[allow(non_snake_case)]
            fn parse(&mut self, input: I) -> IResult<I, Self::Output, E> {
                let ($($parser,)+) = self;
                $(let (input, $value) = $parser.parse(input)?;)+
                Ok((input, ($($value,)+)))
            }
        }
    };
}

one_behind_the_other!(A a, B b);
one_behind_the_other!(A a, B b, C c);
one_behind_the_other!(A a, B b, C c, D d);

pub mod error {
    /// What went wrong, made from the place where it did.
    pub trait ParseError<I>: Sized {
        fn at(input: I) -> Self;
    }

    /// The place of an error. nom's also names the parser.
    #[derive(Debug, Clone, PartialEq)]
    pub struct Error<I> {
        pub input: I,
    }

    impl<I> ParseError<I> for Error<I> {
        fn at(input: I) -> Self {
            Self { input }
        }
    }
}

/// The error of a parser that does not fit at `input`.
fn no<I, O, E: error::ParseError<I>>(input: I) -> IResult<I, O, E> {
    Err(Err::Error(E::at(input)))
}

/// The first `length` bytes as the value, the others as the rest.
fn cut<E>(input: &str, length: usize) -> IResult<&str, &str, E> {
    Ok((&input[length..], &input[..length]))
}

/// As many characters as pass the test, one at least.
fn some_while<'a, E: error::ParseError<&'a str>>(
    input: &'a str,
    test: impl Fn(char) -> bool,
) -> IResult<&'a str, &'a str, E> {
    match input.find(|c| !test(c)).unwrap_or(input.len()) {
        0 => no(input),
        length => cut(input, length),
    }
}

pub mod branch {
    use super::{error::ParseError, IResult, Parser};

    /// The parsers that `alt` tries.
    pub struct Choice<List>(List);

    /// The first parser that fits.
    pub fn alt<List>(list: List) -> Choice<List> {
        Choice(list)
    }

    impl<I: Clone, O, E, A, B> Parser<I> for Choice<(A, B)>
    where
        E: ParseError<I>,
        A: Parser<I, Output = O, Error = E>,
        B: Parser<I, Output = O, Error = E>,
    {
        type Output = O;
        type Error = E;

        fn parse(&mut self, input: I) -> IResult<I, O, E> {
            let (a, b) = &mut self.0;
            a.parse(input.clone()).or_else(|_| b.parse(input))
        }
    }

    impl<I: Clone, O, E, A, B, C> Parser<I> for Choice<(A, B, C)>
    where
        E: ParseError<I>,
        A: Parser<I, Output = O, Error = E>,
        B: Parser<I, Output = O, Error = E>,
        C: Parser<I, Output = O, Error = E>,
    {
        type Output = O;
        type Error = E;

        fn parse(&mut self, input: I) -> IResult<I, O, E> {
            let (a, b, c) = &mut self.0;
            a.parse(input.clone()).or_else(|_| b.parse(input.clone())).or_else(|_| c.parse(input))
        }
    }
}

pub mod bytes {
    pub mod complete {
        use crate::{cut, error::ParseError, no, some_while, IResult};

        /// The characters before the first one of `list`, one at least.
        pub fn is_not<'a, E: ParseError<&'a str>>(
            list: &'static str,
        ) -> impl FnMut(&'a str) -> IResult<&'a str, &'a str, E> {
            move |input| some_while(input, |c| !list.contains(c))
        }

        /// This text.
        pub fn tag<'a, E: ParseError<&'a str>>(
            text: &'static str,
        ) -> impl FnMut(&'a str) -> IResult<&'a str, &'a str, E> {
            move |input| match input.starts_with(text) {
                true => cut(input, text.len()),
                false => no(input),
            }
        }

        /// The characters before the first that passes the test, one at least.
        pub fn take_till1<'a, E: ParseError<&'a str>>(
            test: impl Fn(char) -> bool,
        ) -> impl FnMut(&'a str) -> IResult<&'a str, &'a str, E> {
            move |input| some_while(input, |c| !test(c))
        }

        /// What stands before the first `text`; it may be empty. No `text`, no value.
        pub fn take_until<'a, E: ParseError<&'a str>>(
            text: &'static str,
        ) -> impl FnMut(&'a str) -> IResult<&'a str, &'a str, E> {
            move |input| match input.find(text) {
                Some(length) => cut(input, length),
                None => no(input),
            }
        }

        /// The characters that pass the test, one at least.
        pub fn take_while1<'a, E: ParseError<&'a str>>(
            test: impl Fn(char) -> bool,
        ) -> impl FnMut(&'a str) -> IResult<&'a str, &'a str, E> {
            move |input| some_while(input, &test)
        }
    }
}

pub mod character {
    pub mod complete {
        use crate::{cut, error::ParseError, no, some_while, IResult};

        /// Letters of ASCII, one at least.
        pub fn alpha1<'a, E: ParseError<&'a str>>(input: &'a str) -> IResult<&'a str, &'a str, E> {
            some_while(input, |c| c.is_ascii_alphabetic())
        }

        /// Any one character.
        pub fn anychar<'a, E: ParseError<&'a str>>(input: &'a str) -> IResult<&'a str, char, E> {
            match input.chars().next() {
                Some(c) => Ok((&input[c.len_utf8()..], c)),
                None => no(input),
            }
        }

        /// This one character.
        pub fn char<'a, E: ParseError<&'a str>>(c: char) -> impl FnMut(&'a str) -> IResult<&'a str, char, E> {
            move |input| match input.strip_prefix(c) {
                Some(rest) => Ok((rest, c)),
                None => no(input),
            }
        }

        /// CR and LF.
        pub fn crlf<'a, E: ParseError<&'a str>>(input: &'a str) -> IResult<&'a str, &'a str, E> {
            match input.starts_with("\r\n") {
                true => cut(input, 2),
                false => no(input),
            }
        }

        /// Spaces and tabs, one at least.
        pub fn space1<'a, E: ParseError<&'a str>>(input: &'a str) -> IResult<&'a str, &'a str, E> {
            some_while(input, |c| c == ' ' || c == '\t')
        }
    }
}

pub mod combinator {
    use super::{error::ParseError, no, IResult, Parser};

    /// The end of the input.
    pub fn eof<'a, E: ParseError<&'a str>>(input: &'a str) -> IResult<&'a str, &'a str, E> {
        match input.is_empty() {
            true => Ok((input, input)),
            false => no(input),
        }
    }

    /// The value, changed.
    pub fn map<I, O, E: ParseError<I>, F: Parser<I, Error = E>>(
        mut parser: F,
        mut change: impl FnMut(F::Output) -> O,
    ) -> impl FnMut(I) -> IResult<I, O, E> {
        move |input| {
            let (rest, value) = parser.parse(input)?;
            Ok((rest, change(value)))
        }
    }

    /// The value, changed, or an error where the change gives nothing.
    pub fn map_opt<I: Clone, O, E: ParseError<I>, F: Parser<I, Error = E>>(
        mut parser: F,
        mut change: impl FnMut(F::Output) -> Option<O>,
    ) -> impl FnMut(I) -> IResult<I, O, E> {
        move |input: I| {
            let (rest, value) = parser.parse(input.clone())?;
            match change(value) {
                Some(changed) => Ok((rest, changed)),
                None => no(input),
            }
        }
    }

    /// The value if the parser fits, else none, and nothing is read.
    pub fn opt<I: Clone, E: ParseError<I>, F: Parser<I, Error = E>>(
        mut parser: F,
    ) -> impl FnMut(I) -> IResult<I, Option<F::Output>, E> {
        move |input: I| match parser.parse(input.clone()) {
            Ok((rest, value)) => Ok((rest, Some(value))),
            Err(_) => Ok((input, None)),
        }
    }

    /// This value if the parser fits.
    pub fn value<I, O: Clone, E: ParseError<I>, F: Parser<I, Error = E>>(
        value: O,
        mut parser: F,
    ) -> impl FnMut(I) -> IResult<I, O, E> {
        move |input| {
            let (rest, _) = parser.parse(input)?;
            Ok((rest, value.clone()))
        }
    }
}

pub mod sequence {
    use super::{error::ParseError, IResult, Parser};

    /// Three parsers; the second one's value.
    pub fn delimited<I, E, A, B, C>(
        mut before: A,
        mut inner: B,
        mut behind: C,
    ) -> impl FnMut(I) -> IResult<I, B::Output, E>
    where
        E: ParseError<I>,
        A: Parser<I, Error = E>,
        B: Parser<I, Error = E>,
        C: Parser<I, Error = E>,
    {
        move |input| {
            let (input, _) = before.parse(input)?;
            let (input, value) = inner.parse(input)?;
            let (input, _) = behind.parse(input)?;
            Ok((input, value))
        }
    }

    /// Two parsers; both values.
    pub fn pair<I, E, A, B>(mut first: A, mut second: B) -> impl FnMut(I) -> IResult<I, (A::Output, B::Output), E>
    where
        E: ParseError<I>,
        A: Parser<I, Error = E>,
        B: Parser<I, Error = E>,
    {
        move |input| {
            let (input, a) = first.parse(input)?;
            let (input, b) = second.parse(input)?;
            Ok((input, (a, b)))
        }
    }

    /// Two parsers; the second one's value.
    pub fn preceded<I, E, A, B>(mut before: A, mut inner: B) -> impl FnMut(I) -> IResult<I, B::Output, E>
    where
        E: ParseError<I>,
        A: Parser<I, Error = E>,
        B: Parser<I, Error = E>,
    {
        move |input| {
            let (input, _) = before.parse(input)?;
            inner.parse(input)
        }
    }

    /// Three parsers; the outer ones' values.
    pub fn separated_pair<I, E, A, B, C>(
        mut first: A,
        mut between: B,
        mut second: C,
    ) -> impl FnMut(I) -> IResult<I, (A::Output, C::Output), E>
    where
        E: ParseError<I>,
        A: Parser<I, Error = E>,
        B: Parser<I, Error = E>,
        C: Parser<I, Error = E>,
    {
        move |input| {
            let (input, a) = first.parse(input)?;
            let (input, _) = between.parse(input)?;
            let (input, b) = second.parse(input)?;
            Ok((input, (a, b)))
        }
    }

    /// Two parsers; the first one's value.
    pub fn terminated<I, E, A, B>(mut inner: A, mut behind: B) -> impl FnMut(I) -> IResult<I, A::Output, E>
    where
        E: ParseError<I>,
        A: Parser<I, Error = E>,
        B: Parser<I, Error = E>,
    {
        move |input| {
            let (input, value) = inner.parse(input)?;
            let (input, _) = behind.parse(input)?;
            Ok((input, value))
        }
    }
}
