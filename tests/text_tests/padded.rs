//! Parsers between white space.
use answers::asserts::{assert_answers, assert_answers_from};
use answers::extras::{Own, Telling};
use answers::leaves::just_char;
use chumsky::prelude::*;
use chumsky::text::{InlineWhitespace, int};
use extending::states::Told;

#[test]
fn padded_takes_white_space_on_both_sides(rt: HostRuntime) {
    let rows = [
        ("7", "ok \"7\""),
        ("  7\n", "ok \"7\""),
        (" 7\n", "ok \"7\""),
        ("\t7", "ok \"7\""),
        ("7 ", "ok \"7\""),
        ("  x", "error 2..3 expected int found 'x'"),
        ("7 x", "error 2..3 expected end of input found 'x'"),
        ("  ", "error 2..2 expected int found end"),
    ];
    assert_answers(&rt, &int::<&str, Own>(10).padded(), &rows);
}

#[test]
fn padded_with_a_kind_takes_that_alone(rt: HostRuntime) {
    let rows = [
        ("\t7 ", "ok \"7\""),
        ("7 \n", "error 2..3 expected end of input found '\\n'"),
        ("\n7", "error 0..1 expected int found '\\n'"),
    ];
    assert_answers(&rt, &int::<&str, Own>(10).padded_with(InlineWhitespace), &rows);
    let rows = [
        (" a ", "ok 'a'"),
        ("a\n", "error 1..2 expected end of input found '\\n'"),
    ];
    assert_answers(&rt, &just_char('a').padded_with(InlineWhitespace), &rows);
}

#[test]
fn padded_parts_stand_side_by_side(rt: HostRuntime) {
    let pair = int::<&str, Own>(10)
        .padded()
        .then_ignore(just(','))
        .then(int(10).padded());
    let rows = [
        ("1 ,\n2 ", "ok (\"1\", \"2\")"),
        ("1 2", "error 2..3 expected ',' found '2'"),
    ];
    assert_answers(&rt, &pair, &rows);
}

#[test]
fn padded_tells_the_state_of_each_token_once(rt: HostRuntime) {
    let parser = any::<&str, Telling>().padded();
    let rows = [(" x ", "ok 'x'; state Told { tokens: 3 }")];
    assert_answers_from(&rt, &parser, Told { tokens: 0 }, &rows);
}
