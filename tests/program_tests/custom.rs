//! Closures and readers as parsers: what they fail with, emit and refuse.
use answers::asserts::{assert_answers, assert_line};
use answers::extras::{Own, Quiet};
use answers::leaves::{any_char, just_char, just_text};
use chumsky::extra::RichText;
use chumsky::prelude::*;
use chumsky::{Failure, Stop};
use guide::closure::foo_or_nothing;
use extending::readers::{AnX, FooOrNothing, FooOrNothingByCheck, TwoAndAnError};

#[test]
fn an_error_of_a_closure_stands_at_its_start(rt: HostRuntime) {
    let error_or_ab = custom_by::<_, &str, &'static str, RichText>(TwoAndAnError).or(just("ab"));
    let rows = [
        ("ac", "error 1..2 expected 'b' found 'c'"),
        ("xy", "error 0..2 \"\""),
        ("ab", "ok \"ab\""),
    ];
    assert_answers(&rt, &error_or_ab, &rows);
}

#[test]
fn of_two_messages_at_one_place_the_first_stands(rt: HostRuntime) {
    let first = custom::<_, &str, char, Own>(|inp| {
        let message = String::from_str(inp.alloc(), "first")?;
        let span = SimpleSpan { start: 0, end: 0 };
        Err(Failure::Error(Rich::custom(span, message)))
    });
    let second = custom::<_, &str, char, Own>(|inp| {
        let message = String::from_str(inp.alloc(), "second")?;
        let span = SimpleSpan { start: 0, end: 1 };
        Err(Failure::Error(Rich::custom(span, message)))
    });
    assert_answers(&rt, &first.or(second), &[("x", "error 0..0 \"first\"")]);
}

#[test]
fn what_a_part_that_succeeds_expected_is_merged(rt: HostRuntime) {
    let perhaps_a_then_c = custom::<_, &str, char, Own>(|inp| {
        inp.parse(just_char('a').or_not())?;
        inp.parse(just_char('c'))
    });
    let rows = [
        ("ac", "ok 'c'"),
        ("c", "ok 'c'"),
        ("b", "error 0..1 expected 'a', 'c' found 'b'"),
    ];
    assert_answers(&rt, &perhaps_a_then_c, &rows);
}

#[test]
fn a_closure_runs_over_bytes(rt: HostRuntime) {
    let twin = custom::<_, &[u8], u8, Own>(|inp| {
        let first = inp.parse(any())?;
        inp.parse(just(first))
    });
    let rows: [(&[u8], &str); 2] = [
        (&[7, 7], "ok 7"),
        (&[7, 8], "error 1..2 expected 7 found 8"),
    ];
    assert_answers(&rt, &twin, &rows);
}

#[test]
fn an_error_that_a_first_alternative_emits_goes_with_it(rt: HostRuntime) {
    let emitting = custom::<_, &str, char, Own>(|inp| {
        let here = SimpleSpan { start: 0, end: 0 };
        inp.emit(Rich::custom(here, String::new(inp.alloc())))?;
        let span = SimpleSpan { start: 0, end: 1 };
        Err(Failure::Error(Rich::custom(span, String::new(inp.alloc()))))
    });
    let rows = [("a", "ok 'a'"), ("", "error 0..1 \"\"")];
    assert_answers(&rt, &emitting.or(any_char()), &rows);
}

#[test]
fn an_error_that_a_last_alternative_emits_stays(rt: HostRuntime) {
    let emitting = custom::<_, &str, char, Own>(|inp| {
        let here = SimpleSpan { start: 0, end: 0 };
        inp.emit(Rich::custom(here, String::new(inp.alloc())))?;
        let span = SimpleSpan { start: 0, end: 1 };
        Err(Failure::Error(Rich::custom(span, String::new(inp.alloc()))))
    });
    let rows = [("a", "error 0..0 \"\"; error 0..1 \"\"")];
    assert_answers(&rt, &just_char('c').or(emitting), &rows);
}

#[test]
fn a_stop_of_a_closure_is_passed_on(rt: HostRuntime) {
    let stopping = custom::<_, &str, char, Own>(|inp| {
        inp.check(just_char('a'))?;
        inp.check(any_char())?;
        Err(Failure::Stop(Stop::TooDeep))
    });
    let rows = [("ab", "refused TooDeep"), ("a", "ok 'a'")];
    assert_answers(&rt, &stopping.or(just_char('a')), &rows);
}

#[test]
fn what_the_last_alternative_emits_stays(rt: HostRuntime) {
    let emitting = custom::<_, &str, char, Quiet>(|inp| {
        let token = inp.parse(any())?;
        inp.emit(EmptyErr)?;
        Ok(token)
    });
    let parser = choice((just('a').then(just('b')), emitting.then(just('c'))));
    assert_answers(&rt, &parser, &[("aa", "error; error")]);
}

#[test]
fn what_an_abandoned_alternative_emits_goes(rt: HostRuntime) {
    let emitting = custom::<_, &str, char, Quiet>(|inp| {
        let token = inp.parse(any())?;
        inp.emit(EmptyErr)?;
        Ok(token)
    });
    let parser = choice((emitting.then(just('c')), just('a').then(just('b'))));
    assert_answers(&rt, &parser, &[("aa", "error")]);
}

#[test]
fn a_reader_is_a_parser(rt: HostRuntime) {
    let x = custom_by::<_, &str, &'static str, RichText>(AnX);
    let rows = [
        ("x", "ok \"x\""),
        ("y", "error 0..1 expected 'x' found 'y'"),
    ];
    assert_answers(&rt, &x, &rows);
}

#[test]
fn a_failure_within_a_closure_is_handed_out(rt: HostRuntime) {
    let rows = [
        ("foo", "ok true"),
        ("", "ok false"),
        ("not foo", "error 0..1 expected end of input found 'n'"),
        ("fox", "error 0..1 expected end of input found 'f'"),
    ];
    for (text, line) in rows {
        assert_line(&rt, foo_or_nothing(rt.alloc(), text), line);
    }
    let by_parse = custom_by::<_, &str, bool, RichText>(FooOrNothing);
    assert_answers(&rt, &by_parse, &rows);
    let by_check = custom_by::<_, &str, bool, RichText>(FooOrNothingByCheck);
    assert_answers(&rt, &by_check, &rows);
}
