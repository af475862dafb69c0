//! Choices among many parsers: tuples, slices, arrays and vectors.
use answers::asserts::assert_answers;
use answers::extras::Own;
use answers::leaves::{just_char, just_text};
use chumsky::prelude::*;
use chumsky::primitive::Just;
use std::alloc::AllocGlobal;
use std::process::Abort;

/// `just` of a character, over a text.
type Letter<'src> = Just<char, &'src str, Own>;

#[test]
fn the_first_of_two_that_succeeds_stands(rt: HostRuntime) {
    let rows = [
        ("if", "ok \"if\""),
        ("fn", "error 0..1 expected 'l', 'i' found 'f'"),
    ];
    assert_answers(&rt, &just_text("let").or(just_text("if")), &rows);
}

#[test]
fn a_later_alternative_that_goes_further_is_not_taken(rt: HostRuntime) {
    let a_before_ab = choice((just_text("a"), just_text("ab")));
    let rows = [
        ("a", "ok \"a\""),
        ("ab", "error 1..2 expected end of input found 'b'"),
    ];
    assert_answers(&rt, &a_before_ab, &rows);
}

#[test]
fn the_furthest_of_many_is_reported(rt: HostRuntime) {
    let three = choice((
        just_text("xyz"),
        just_text("xy").ignore_then(just_text("w")),
        just_text("x"),
    ));
    let rows = [
        ("xyq", "error 2..3 expected 'z', 'w' found 'q'"),
        ("xyw", "ok \"w\""),
        ("x", "ok \"x\""),
    ];
    assert_answers(&rt, &three, &rows);
}

#[test]
fn the_last_of_one_and_of_four_is_tried(rt: HostRuntime) {
    let one = choice((just_char('a'),));
    assert_answers(&rt, &one, &[("a", "ok 'a'")]);
    let four = choice((
        just_char('a'),
        just_char('b'),
        just_char('c'),
        just_char('d'),
    ));
    assert_answers(&rt, &four, &[("d", "ok 'd'")]);
}

#[test]
fn the_last_of_five_and_of_six_is_tried(rt: HostRuntime) {
    let five = choice((
        just_char('a'),
        just_char('b'),
        just_char('c'),
        just_char('d'),
        just_char('e'),
    ));
    assert_answers(&rt, &five, &[("e", "ok 'e'")]);
    let six = choice((
        just_char('a'),
        just_char('b'),
        just_char('c'),
        just_char('d'),
        just_char('e'),
        just_char('f'),
    ));
    assert_answers(&rt, &six, &[("f", "ok 'f'")]);
}

#[test]
fn the_last_of_seven_and_of_eight_is_tried(rt: HostRuntime) {
    let seven = choice((
        just_char('a'),
        just_char('b'),
        just_char('c'),
        just_char('d'),
        just_char('e'),
        just_char('f'),
        just_char('g'),
    ));
    assert_answers(&rt, &seven, &[("g", "ok 'g'")]);
    let eight = choice((
        just_char('a'),
        just_char('b'),
        just_char('c'),
        just_char('d'),
        just_char('e'),
        just_char('f'),
        just_char('g'),
        just_char('h'),
    ));
    assert_answers(&rt, &eight, &[("h", "ok 'h'")]);
}

/// A choice among those of a slice.
fn assert_of_slice<'src, R: Abort + AllocGlobal>(
    rt: &R,
    letters: &[Letter<'src>],
    rows: &[(&'src str, &str)],
) {
    assert_answers(rt, &choice(letters), rows);
}

#[test]
fn each_of_a_slice_is_tried_in_order(rt: HostRuntime) {
    let rows = [
        ("b", "ok 'b'"),
        ("c", "error 0..1 expected 'a', 'b' found 'c'"),
    ];
    assert_of_slice(&rt, &[just('a'), just('b')], &rows);
}

#[test]
fn a_choice_of_none_expects_nothing(rt: HostRuntime) {
    let rows = [
        ("", "error 0..0 expected nothing found end"),
        ("x", "error 0..0 expected nothing found end"),
    ];
    assert_of_slice(&rt, &[], &rows);
}

/// A choice among those of an array.
fn assert_of_array<'src, R: Abort + AllocGlobal>(
    rt: &R,
    letters: [Letter<'src>; 3],
    rows: &[(&'src str, &str)],
) {
    assert_answers(rt, &choice(letters), rows);
}

#[test]
fn each_of_an_array_is_tried_in_order(rt: HostRuntime) {
    assert_of_array(&rt, [just('a'), just('b'), just('c')], &[("c", "ok 'c'")]);
}

/// A choice among those of a `Vec`.
fn assert_of_vec<'src, R: Abort + AllocGlobal>(
    rt: &R,
    letters: Vec<Letter<'src>>,
    rows: &[(&'src str, &str)],
) {
    assert_answers(rt, &choice(letters), rows);
}

#[test]
fn each_of_a_vec_is_tried_in_order(rt: HostRuntime) {
    let letters = vec![in rt.alloc(); just('a'), just('b')].expect(&rt, "out of memory");
    assert_of_vec(&rt, letters, &[("b", "ok 'b'")]);
}
