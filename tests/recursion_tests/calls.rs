//! What functions that call themselves and one another answer, and when they are too deep.
use answers::asserts::assert_answers;
use chumsky::combinator::run_part;
use chumsky::extra::RichText;
use chumsky::input::InputRef;
use chumsky::prelude::*;
use chumsky::{PResult, Stop};
use std::alloc::{AllocError, Global};

/// Any number of brackets, one after another and within one another: how deep they go.
pub fn brackets<'src>(
    inp: &mut InputRef<'src, '_, &'src str, RichText>,
    wanted: bool,
    depth: usize,
) -> PResult<Option<usize>> {
    let pair = recursive(brackets, depth)
        .delimited_by(just("["), just("]"))
        .map(|inside: usize| inside.saturating_add(1));
    let deepest = pair
        .repeated()
        .fold(0, |deepest: usize, depth: usize| deepest.max(depth));
    run_part(&deepest, wanted, inp)
}

#[test]
fn brackets_tell_how_deep_they_go(rt: HostRuntime) {
    let rows = [
        ("", "ok 0"),
        ("[]", "ok 1"),
        ("[[][]]", "ok 2"),
        ("[][[[]]][]", "ok 3"),
        ("[[]", "error 3..3 expected '[', ']' found end"),
        ("[]]", "error 2..3 expected '[', end of input found ']'"),
        ("[[[[]]]]", "ok 4"),
        ("[[[[[]]]]]", "refused TooDeep"),
    ];
    assert_answers(&rt, &recursive::<_, _, _, RichText>(brackets, 5), &rows);
    let rows = [
        ("[[]]", "ok 2"),
        ("[", "error 1..1 expected '[', ']' found end"),
        ("[[[]]]", "refused TooDeep"),
    ];
    assert_answers(&rt, &recursive::<_, _, _, RichText>(brackets, 3), &rows);
}

/// Under no depth nothing is called, and under each depth one call fewer may be open than under the next.
#[test]
fn one_call_more_than_the_limit_is_too_deep(rt: HostRuntime) {
    for (text, least) in [("", 1), ("[]", 2), ("[][]", 2), ("[[]]", 3), ("[[][]]", 3)] {
        let enough = recursive::<_, _, _, RichText>(brackets, least);
        assert!(rt; enough.parse(rt.alloc(), text).is_ok());
        assert!(rt; enough.check(rt.alloc(), text).is_ok());
        let few = recursive::<_, _, _, RichText>(brackets, least - 1);
        assert_answers(&rt, &few, &[(text, "refused TooDeep")]);
    }
}

/// Openings, each of which stands within the one before.
fn openings<'src>(
    inp: &mut InputRef<'src, '_, &'src str, RichText>,
    wanted: bool,
    depth: usize,
) -> PResult<Option<()>> {
    let inside = just('[').ignore_then(recursive(openings, depth));
    run_part(&inside.or_not().ignored(), wanted, inp)
}

/// So many openings.
fn openings_of(alloc: Global, count: usize) -> Result<String, AllocError> {
    let mut text = String::new(alloc);
    for _opening in 0..count {
        text.push('[')?;
    }
    Ok(text)
}

/// The stack suffices that `scripts/tests` asks for.
#[test]
fn a_hundred_thousand_calls_may_be_open(rt: HostRuntime) {
    let limit = 100_000;
    let call = recursive::<_, _, _, RichText>(openings, limit);
    let text = openings_of(rt.alloc(), limit - 1).expect(&rt, "out of memory");
    let checked = call.check(rt.alloc(), text.as_str()).expect(&rt, "refused");
    assert!(rt; checked.has_output());
    let text = openings_of(rt.alloc(), limit).expect(&rt, "out of memory");
    let checked = call.check(rt.alloc(), text.as_str());
    assert!(rt; matches!(checked, Err(Stop::TooDeep)));
}

/// A sum that begins with a sum: on every text it calls itself until no depth is left.
fn left<'src>(
    inp: &mut InputRef<'src, '_, &'src str, RichText>,
    wanted: bool,
    depth: usize,
) -> PResult<Option<()>> {
    let sum = recursive(left, depth).then(just('+')).ignored();
    run_part(&sum.or(just('1').ignored()), wanted, inp)
}

#[test]
fn left_recursion_is_too_deep(rt: HostRuntime) {
    for limit in [0, 1, 2, 100] {
        let rows = [
            ("", "refused TooDeep"),
            ("1", "refused TooDeep"),
            ("1+1", "refused TooDeep"),
            ("x", "refused TooDeep"),
        ];
        assert_answers(&rt, &recursive::<_, _, _, RichText>(left, limit), &rows);
    }
}

/// A list that calls itself before it takes a token doesn't go round: it is too deep as well.
fn round<'src>(
    inp: &mut InputRef<'src, '_, &'src str, RichText>,
    wanted: bool,
    depth: usize,
) -> PResult<Option<()>> {
    run_part(&recursive(round, depth).repeated(), wanted, inp)
}

#[test]
fn a_list_of_itself_is_too_deep(rt: HostRuntime) {
    let rows = [("", "refused TooDeep"), ("x", "refused TooDeep")];
    assert_answers(&rt, &recursive::<_, _, _, RichText>(round, 50), &rows);
}

/// Round brackets around square ones, and so on: how many.
fn rounded<'src>(
    inp: &mut InputRef<'src, '_, &'src str, RichText>,
    wanted: bool,
    depth: usize,
) -> PResult<Option<usize>> {
    let inside = recursive(squared, depth).or_not();
    let pair = inside.delimited_by(just('('), just(')'));
    run_part(
        &pair.map(|inside: Option<usize>| inside.unwrap_or(0) + 1),
        wanted,
        inp,
    )
}

/// Square brackets around round ones, and so on: how many.
fn squared<'src>(
    inp: &mut InputRef<'src, '_, &'src str, RichText>,
    wanted: bool,
    depth: usize,
) -> PResult<Option<usize>> {
    let inside = recursive(rounded, depth).or_not();
    let pair = inside.delimited_by(just('['), just(']'));
    run_part(
        &pair.map(|inside: Option<usize>| inside.unwrap_or(0) + 1),
        wanted,
        inp,
    )
}

#[test]
fn functions_call_each_other(rt: HostRuntime) {
    let rows = [
        ("()", "ok 1"),
        ("([()])", "ok 3"),
        ("(())", "error 1..2 expected '[', ')' found '('"),
        ("([)", "error 2..3 expected '(', ']' found ')'"),
        ("[]", "error 0..1 expected '(' found '['"),
    ];
    assert_answers(&rt, &recursive::<_, _, _, RichText>(rounded, 10), &rows);
}

/// A failure in a call stands as it would outside of one: the furthest wins, and those at one place are merged.
fn lists<'src>(
    inp: &mut InputRef<'src, '_, &'src str, RichText>,
    wanted: bool,
    depth: usize,
) -> PResult<Option<usize>> {
    let items = recursive(lists, depth).separated_by(just(',')).count();
    let list = items.delimited_by(just('['), just(']'));
    run_part(&list.or(just('x').to(0)), wanted, inp)
}

#[test]
fn the_failure_of_a_call_is_kept(rt: HostRuntime) {
    let rows = [
        ("[x,[x,x]]", "ok 2"),
        ("", "error 0..0 expected '[', 'x' found end"),
        ("[", "error 1..1 expected '[', 'x', ']' found end"),
        ("[[x,", "error 4..4 expected '[', 'x' found end"),
        ("[[x", "error 3..3 expected ',', ']' found end"),
        ("[[x,,", "error 4..5 expected '[', 'x' found ','"),
    ];
    assert_answers(&rt, &recursive::<_, _, _, RichText>(lists, 10), &rows);
}
