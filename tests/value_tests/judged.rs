//! Parsers whose closures are shown the run, or lent an emitter: what they refuse, map and emit.
use answers::asserts::assert_answers;
use answers::extras::Own;
use answers::leaves::{any_char, just_char, just_text};
use chumsky::prelude::*;

#[test]
fn try_map_with_is_shown_what_its_part_took(rt: HostRuntime) {
    let same = any_char().then(any_char()).try_map_with(|(one, two), extra| {
        if one == two {
            return Ok(one);
        }
        Err(Rich::custom(extra.span(), String::new(extra.alloc())))
    });
    let rows = [
        ("xaa", "ok 'a'"),
        ("xab", "error 1..3 \"\""),
        ("xa", "error 2..2 expected any found end"),
    ];
    assert_answers(&rt, &just_char('x').ignore_then(same), &rows);
}

#[test]
fn what_a_validator_emits_stands_beside_the_output(rt: HostRuntime) {
    let emitting = any_char().validate(|c, extra, emitter| {
        emitter.emit(Rich::custom(extra.span(), String::new(extra.alloc())));
        c
    });
    let rows = [
        ("ab", "ok (); error 0..1 \"\"; error 1..2 \"\""),
        ("", "ok ()"),
    ];
    assert_answers(&rt, &emitting.repeated(), &rows);
}

#[test]
fn a_validator_emits_a_message_in_one_call(rt: HostRuntime) {
    let doubted = any_char().validate(|c, extra, emitter| {
        if c != 'a' {
            let alloc = extra.alloc();
            emitter.emit_message(alloc, extra.span(), format_args!("{c} is no a"));
            emitter.emit_message(alloc, extra.span(), "a was meant");
        }
        c
    });
    let rows = [
        ("a", "ok 'a'"),
        ("x", "ok 'x'; error 0..1 \"x is no a\"; error 0..1 \"a was meant\""),
    ];
    assert_answers(&rt, &doubted, &rows);
}

#[test]
fn what_a_validator_emitted_goes_with_its_alternative(rt: HostRuntime) {
    let emitting = any_char().validate(|c, extra, emitter| {
        if c == 'a' {
            emitter.emit(Rich::custom(extra.span(), String::new(extra.alloc())));
        }
        c
    });
    let rows = [
        ("ab", "ok ('a', 'b'); error 0..1 \"\""),
        ("cb", "ok ('c', 'b')"),
        ("ac", "ok ('a', 'c')"),
        ("a", "error 1..1 expected 'b', any found end"),
    ];
    assert_answers(
        &rt,
        &emitting
            .then(just_char('b'))
            .or(any_char().then(any_char())),
        &rows,
    );
}

#[test]
fn what_a_validator_emitted_stays_where_its_part_is_rewound(rt: HostRuntime) {
    let emitting = any_char().validate(|c, extra, emitter| {
        emitter.emit(Rich::custom(extra.span(), String::new(extra.alloc())));
        c
    });
    let rows = [("a", "ok 'a'; error 0..1 \"\"")];
    assert_answers(&rt, &emitting.rewind().then_ignore(any_char()), &rows);
}

#[test]
fn map_err_with_state_is_handed_the_span_of_the_part(rt: HostRuntime) {
    let alloc = rt.alloc();
    let mapped = just_char('a')
        .then(just_char('b'))
        .map_err_with_state(move |_, span, _| Rich::custom(span, String::new(alloc)));
    let rows = [
        ("ab", "ok ('a', 'b')"),
        ("ac", "error 0..1 \"\""),
        ("abc", "error 2..3 expected end of input found 'c'"),
    ];
    assert_answers(&rt, &mapped, &rows);
}

#[test]
fn map_err_with_spans_to_where_its_part_was_left(rt: HostRuntime) {
    let mapped = any_char().and_is(just_text("xy")).map_err_with(|_, extra| {
        Rich::custom(extra.span(), String::new(extra.alloc()))
    });
    let rows = [("xz", "error 0..1 \"\""), ("", "error 0..0 \"\"")];
    assert_answers(&rt, &mapped, &rows);
}

#[test]
fn lazy_takes_what_is_left(rt: HostRuntime) {
    let rows = [
        ("abc", "ok 'a'"),
        ("a", "ok 'a'"),
        ("b", "error 0..1 expected 'a' found 'b'"),
    ];
    assert_answers(&rt, &just_char('a').lazy(), &rows);
}

#[test]
fn from_str_reads_the_text_of_its_part(rt: HostRuntime) {
    let number = just_text("12").or(just_text("300")).from_str::<u8>();
    let rows = [
        ("12", "ok Ok(12)"),
        ("300", "ok Err(ParseIntError { kind: PosOverflow })"),
        ("1", "error 1..1 expected '2' found end"),
    ];
    assert_answers(&rt, &number, &rows);
}

#[test]
fn a_number_is_read_or_too_large(rt: HostRuntime) {
    let byte = text::int::<&str, Own>(10).from_str::<u8>();
    let rows = [
        ("12", "ok Ok(12)"),
        ("300", "ok Err(ParseIntError { kind: PosOverflow })"),
    ];
    assert_answers(&rt, &byte, &rows);
}
