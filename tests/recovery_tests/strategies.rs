//! Strategies over small texts.
use answers::asserts::assert_answers;
use answers::leaves::{any_char, just_char};
use chumsky::prelude::*;

#[test]
fn via_parser_stands_where_the_parser_fails(rt: HostRuntime) {
    let part = just_char('a')
        .then(just_char('b'))
        .recover_with(via_parser(any_char().then(any_char())));
    let rows = [
        ("ab", "ok ('a', 'b')"),
        ("ac", "ok ('a', 'c'); error 1..2 expected 'b' found 'c'"),
        ("xy", "ok ('x', 'y'); error 0..1 expected 'a' found 'x'"),
        ("x", "error 0..1 expected 'a' found 'x'"),
        ("", "error 0..0 expected 'a' found end"),
        (
            "acd",
            "error 1..2 expected 'b' found 'c'; error 2..3 expected end of input found 'd'",
        ),
    ];
    assert_answers(&rt, &part, &rows);
}

#[test]
fn strategies_may_stand_one_around_another(rt: HostRuntime) {
    let part = just_char('a')
        .then(just_char('b'))
        .recover_with(via_parser(just_char('c').then(any_char())))
        .recover_with(via_parser(any_char().then(just_char('d'))));
    let rows = [
        ("ab", "ok ('a', 'b')"),
        ("cx", "ok ('c', 'x'); error 0..1 expected 'a' found 'c'"),
        ("xd", "ok ('x', 'd'); error 0..1 expected 'a' found 'x'"),
        ("xx", "error 0..1 expected 'a' found 'x'"),
    ];
    assert_answers(&rt, &part, &rows);
}

#[test]
fn an_older_error_stays_beside_the_one_that_is_told(rt: HostRuntime) {
    let longer = just_char('a')
        .then(just_char('b'))
        .then(just_char('c'))
        .ignored();
    let shorter = just_char('x')
        .ignored()
        .recover_with(via_parser(just_char('a').ignored()));
    let part = longer.or(shorter).then(just_char('b').or_not());
    let rows = [
        ("abc", "ok ((), None)"),
        (
            "ab",
            "ok ((), Some('b')); error 0..1 expected 'x' found 'a'",
        ),
        (
            "abd",
            "error 0..1 expected 'x' found 'a'; error 2..3 expected 'c', end of input found 'd'",
        ),
    ];
    assert_answers(&rt, &part, &rows);
}

#[test]
fn what_a_failed_part_emitted_is_gone_back_from(rt: HostRuntime) {
    let loud = just_char('a').validate(|c, extra, emitter| {
        emitter.emit(Rich::custom(extra.span(), String::new(extra.alloc())));
        c
    });
    let part = loud
        .then(just_char('b'))
        .recover_with(via_parser(any_char().then(any_char())));
    let rows = [
        ("ab", "ok ('a', 'b'); error 0..1 \"\""),
        ("ac", "ok ('a', 'c'); error 1..2 expected 'b' found 'c'"),
    ];
    assert_answers(&rt, &part, &rows);
}

#[test]
fn statements_are_skipped_to_their_end(rt: HostRuntime) {
    let statement = just_char('a')
        .or(just_char('b'))
        .then_ignore(just_char(';'))
        .map(|c| Some(c))
        .recover_with(skip_until(any_char().ignored(), just_char(';').ignored(), || None));
    let part = statement.repeated().collect::<Vec<Option<char>>>();
    let rows = [
        ("a;b;", "ok [Some('a'), Some('b')]"),
        (
            "a;x;b;",
            "ok [Some('a'), None, Some('b')]; error 2..3 expected 'a', 'b' found 'x'",
        ),
        (
            "ax;yz;b;",
            "ok [None, None, Some('b')]; error 1..2 expected ';' found 'x'; error 3..4 expected 'a', 'b' found 'y'",
        ),
        ("a;b", "error 3..3 expected ';' found end"),
        ("", "ok []"),
    ];
    assert_answers(&rt, &part, &rows);
}

#[test]
fn the_part_is_tried_again_after_each_skip(rt: HostRuntime) {
    let statement = just_char('a')
        .or(just_char('b'))
        .then_ignore(just_char(';'))
        .recover_with(skip_then_retry_until(any_char().ignored(), just_char('!').ignored()));
    let part = statement.repeated().collect::<Vec<char>>();
    let rows = [
        ("a;b;", "ok ['a', 'b']"),
        (
            "a;xyb;",
            "ok ['a', 'b']; error 2..3 expected 'a', 'b' found 'x'",
        ),
        ("ab;", "ok ['b']; error 1..2 expected ';' found 'b'"),
        (
            "x!a;",
            "error 0..1 expected 'a', 'b', end of input found 'x'",
        ),
        (
            "a;x",
            "error 2..3 expected 'a', 'b', end of input found 'x'",
        ),
    ];
    assert_answers(&rt, &part, &rows);
}

#[test]
fn a_retry_that_emits_something_is_no_success(rt: HostRuntime) {
    let loud = any_char().validate(|c, extra, emitter| {
        if c == 'b' {
            emitter.emit(Rich::custom(extra.span(), String::new(extra.alloc())));
        }
        c
    });
    let part = loud
        .filter(|c| *c != 'x')
        .recover_with(skip_then_retry_until(any_char().ignored(), end()))
        .then_ignore(any_char().repeated());
    let rows = [
        ("b", "ok 'b'; error 0..1 \"\""),
        (
            "xba",
            "ok 'a'; error 0..1 expected something else found 'x'",
        ),
        ("xb", "error 0..1 expected something else found 'x'"),
    ];
    assert_answers(&rt, &part, &rows);
}

#[test]
fn what_skips_must_take_something(rt: HostRuntime) {
    let until = just_char('a').recover_with(skip_until(empty(), just_char(';').ignored(), || 'z'));
    let retry = just_char('a').recover_with(skip_then_retry_until(
        empty(),
        just_char(';').ignored(),
    ));
    let rows = [("a", "ok 'a'"), ("x", "refused NoProgress")];
    assert_answers(&rt, &until, &rows);
    assert_answers(&rt, &retry, &rows);
    assert_answers(
        &rt,
        &until,
        &[(";", "ok 'z'; error 0..1 expected 'a' found ';'")],
    );
}

#[test]
fn each_strategy_finds_its_way_back(rt: HostRuntime) {
    let by_parser = just_char('a').recover_with(via_parser(any_char()));
    assert_answers(
        &rt,
        &by_parser,
        &[
            ("a", "ok 'a'"),
            ("b", "ok 'b'; error 0..1 expected 'a' found 'b'"),
            ("", "error 0..0 expected 'a' found end"),
        ],
    );
    let until = just_char('a').recover_with(skip_until(
        any_char().ignored(),
        just_char(';').ignored(),
        || 'z',
    ));
    assert_answers(
        &rt,
        &until,
        &[
            ("bc;", "ok 'z'; error 0..1 expected 'a' found 'b'"),
            ("bc", "error 0..1 expected 'a' found 'b'"),
        ],
    );
    let again = just_char('a').recover_with(skip_then_retry_until(
        any_char().ignored(),
        just_char(';').ignored(),
    ));
    assert_answers(
        &rt,
        &again,
        &[
            ("bca", "ok 'a'; error 0..1 expected 'a' found 'b'"),
            ("b;a", "error 0..1 expected 'a' found 'b'"),
        ],
    );
}
