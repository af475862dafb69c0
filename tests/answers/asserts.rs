//! Asserts what parsers answer.
use crate::answer::{answer, answer_from, line_of};
use crate::says::Says;
use chumsky::Stop;
use chumsky::extra::ParserExtra;
use chumsky::prelude::*;
use std::alloc::AllocGlobal;
use std::fmt::Debug;
use std::process::Abort;

/// Asserts that a parser answers each input as its row says, by `parse` and `check` alike.
pub fn assert_answers<
    'src,
    I: Input<'src> + Copy,
    O: Debug + Drop,
    E: ParserExtra<I>,
    P: IsParser<I, O, E> + Parser<'src, I, O, E>,
    R: Abort + AllocGlobal,
>(rt: &R, parser: &P, rows: &[(I, &str)])
where
    I::Token: 'src,
    E::Error: Says,
    E::State: Default + Drop,
    E::Context: Default + Drop,
{
    for (input, expected) in rows {
        let line = answer(parser, rt.alloc(), *input).expect(rt, "out of memory");
        assert_eq!(rt; line.as_str(), *expected);
    }
}

/// The same from a state, with the state that is left.
pub fn assert_answers_from<
    'src,
    I: Input<'src> + Copy,
    O: Debug + Drop,
    E: ParserExtra<I>,
    P: IsParser<I, O, E> + Parser<'src, I, O, E>,
    R: Abort + AllocGlobal,
>(rt: &R, parser: &P, state: E::State, rows: &[(I, &str)])
where
    I::Token: 'src,
    E::Error: Says,
    E::State: Copy + Debug,
    E::Context: Default + Drop,
{
    for (input, expected) in rows {
        let line = answer_from(parser, rt.alloc(), *input, state).expect(rt, "out of memory");
        assert_eq!(rt; line.as_str(), *expected);
    }
}

/// Asserts what a run answered.
pub fn assert_line<O: Debug + Drop, E: Says, R: Abort + AllocGlobal>(
    rt: &R,
    answer: Result<ParseResult<O, E>, Stop>,
    expected: &str,
) {
    let line = line_of(rt.alloc(), &answer).expect(rt, "out of memory");
    assert_eq!(rt; line.as_str(), expected);
}
