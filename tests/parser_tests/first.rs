//! A choice between texts, an empty text, offsets of characters, a mapper, and the examples of primitives.
use answers::asserts::assert_answers;
use answers::extras::{Own, Quiet};
use answers::leaves::{just_char, just_text};
use chumsky::prelude::*;
use chumsky::primitive::select;

#[test]
fn the_furthest_failures_are_merged_in_order(rt: HostRuntime) {
    let ab_or_ac = just_text("ab").or(just_text("ac"));
    let rows = [
        ("ab", "ok \"ab\""),
        ("ac", "ok \"ac\""),
        ("ad", "error 1..2 expected 'b', 'c' found 'd'"),
    ];
    assert_answers(&rt, &ab_or_ac, &rows);
}

#[test]
fn an_empty_sequence_takes_nothing(rt: HostRuntime) {
    let nothing = just_text("");
    let rows = [
        ("", "ok \"\""),
        ("x", "error 0..1 expected end of input found 'x'"),
    ];
    assert_answers(&rt, &nothing, &rows);
}

#[test]
fn offsets_count_bytes(rt: HostRuntime) {
    let accent_then_x = just_char('é').then(just_char('x'));
    let rows = [
        ("éx", "ok ('é', 'x')"),
        ("éy", "error 2..3 expected 'x' found 'y'"),
    ];
    assert_answers(&rt, &accent_then_x, &rows);
}

#[test]
fn a_mapper_makes_the_output(rt: HostRuntime) {
    let number = any::<_, Quiet>().map(|c| c as u32).then(end());
    let rows = [("é", "ok (233, ())"), ("ab", "error")];
    assert_answers(&rt, &number, &rows);
}

#[test]
fn primitives_answer_as_their_examples_say(rt: HostRuntime) {
    let rows = [("a", "ok 'a'"), ("", "error 0..0 expected any found end")];
    assert_answers(&rt, &any::<&str, Own>(), &rows);
    let rows = [
        ("let", "ok \"let\""),
        ("lex", "error 2..3 expected 't' found 'x'"),
    ];
    assert_answers(&rt, &just_text("let"), &rows);
    let rows = [
        ("a", "ok Some('a')"),
        ("b", "error 0..1 expected 'a', end of input found 'b'"),
    ];
    assert_answers(&rt, &just_char('a').or_not().then_ignore(end()), &rows);
    let rows = [
        ("a", "ok ()"),
        ("", "ok ()"),
        ("b", "error 0..1 expected 'a', end of input found 'b'"),
    ];
    assert_answers(&rt, &just_text("a").ignored().or(empty()), &rows);
    let digit = select::<_, &str, _, Own>(|c: char, _| c.to_digit(10));
    let rows = [
        ("7", "ok 7"),
        ("x", "error 0..1 expected something else found 'x'"),
    ];
    assert_answers(&rt, &digit, &rows);
}
