//! Parsers that are copied: a copy is a parser of its own, and runs as the first does.
use answers::asserts::assert_answers;
use answers::extras::Own;
use answers::leaves::{any_char, just_char};
use answers::says::Says;
use chumsky::extra::ParserExtra;
use chumsky::prelude::*;
use chumsky::primitive::Select;
use std::alloc::AllocGlobal;
use std::fmt::Debug;
use std::process::Abort;

/// Asserts what a copy of a parser answers, and the parser itself.
fn assert_both_answer<
    'src,
    I: Input<'src> + Copy,
    O: Debug + Drop,
    E: ParserExtra<I>,
    P: IsParser<I, O, E> + Parser<'src, I, O, E> + Copy,
    R: Abort + AllocGlobal,
>(rt: &R, parser: P, rows: &[(I, &str)])
where
    I::Token: 'src,
    E::Error: Says,
    E::State: Default + Drop,
    E::Context: Default + Drop,
{
    let copy = parser;
    assert_answers(rt, &copy, rows);
    assert_answers(rt, &parser, rows);
}

#[test]
fn a_mapped_parser_is_copied(rt: HostRuntime) {
    let second = just_char('a').then(any_char()).map(|(_, c)| c);
    let rows = [("aé", "ok 'é'"), ("b", "error 0..1 expected 'a' found 'b'")];
    assert_both_answer(&rt, second, &rows);
}

#[test]
fn a_choice_is_copied(rt: HostRuntime) {
    let last: Select<_, &str, char, Own> = select! { 'e' => 'e' };
    let letter = choice((one_of(['b', 'c']).or(just('d')), last));
    let rows = [
        ("c", "ok 'c'"),
        ("d", "ok 'd'"),
        ("e", "ok 'e'"),
        (
            "f",
            "error 0..1 expected 'b', 'c', 'd', something else found 'f'",
        ),
    ];
    assert_both_answer(&rt, letter, &rows);
}

#[test]
fn a_clone_runs_as_the_first_would(rt: HostRuntime) {
    let first = just_char('a').then(one_of("bc").or_not());
    let cloned = first.clone().expect(&rt, "out of memory");
    let rows = [
        ("ac", "ok ('a', Some('c'))"),
        ("x", "error 0..1 expected 'a' found 'x'"),
    ];
    assert_answers(&rt, &cloned, &rows);
}
