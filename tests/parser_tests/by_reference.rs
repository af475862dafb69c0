//! Parsers by reference, in boxes, shared, and of one of two types.
use answers::asserts::assert_answers;
use answers::leaves::{any_char, just_char};
use chumsky::prelude::*;
use either::Either;
use std::rc::Rc;

#[test]
fn the_side_that_is_there_runs(rt: HostRuntime) {
    for (strict, line) in [
        (true, "error 0..1 expected 'a' found 'b'"),
        (false, "ok 'b'"),
    ] {
        let a_or_any = if strict {
            Either::Left(just_char('a'))
        } else {
            Either::Right(any_char())
        };
        assert_answers(&rt, &a_or_any, &[("b", line)]);
    }
}

#[test]
fn one_parser_runs_twice_by_reference(rt: HostRuntime) {
    let a = just_char('a');
    let twice = (&a).then(&a);
    let rows = [
        ("aa", "ok ('a', 'a')"),
        ("ab", "error 1..2 expected 'a' found 'b'"),
        ("a", "error 1..1 expected 'a' found end"),
    ];
    assert_answers(&rt, &twice, &rows);
}

#[test]
fn a_parser_in_a_box_does_as_the_parser(rt: HostRuntime) {
    let boxed = Box::new(rt.alloc(), just_char('a')).expect(&rt, "out of memory");
    let rows = [
        ("a", "ok 'a'"),
        ("c", "error 0..1 expected 'a', 'b' found 'c'"),
    ];
    assert_answers(&rt, &boxed.or(just_char('b')), &rows);
}

#[test]
fn a_shared_parser_does_as_the_parser(rt: HostRuntime) {
    let shared = Rc::new(rt.alloc(), just_char('a')).expect(&rt, "out of memory");
    let rows = [
        ("a", "ok 'a'"),
        ("c", "error 0..1 expected 'a', 'b' found 'c'"),
    ];
    assert_answers(&rt, &shared.or(just_char('b')), &rows);
}
