//! Groups: each part after the other, for all their outputs.
use answers::asserts::assert_answers;
use answers::extras::{Merging, Own};
use answers::leaves::{any_char, just_char};
use chumsky::prelude::*;
use chumsky::primitive::Just;
use std::alloc::AllocGlobal;
use std::process::Abort;

/// A group over an array of three.
fn assert_of_array<'src, R: Abort + AllocGlobal>(
    rt: &R,
    letters: [Just<char, &'src str, Own>; 3],
    rows: &[(&'src str, &str)],
) {
    assert_answers(rt, &group(letters), rows);
}

#[test]
fn an_array_gives_its_outputs_in_order(rt: HostRuntime) {
    let rows = [
        ("abc", "ok ['a', 'b', 'c']"),
        ("abd", "error 2..3 expected 'c' found 'd'"),
    ];
    assert_of_array(&rt, [just('a'), just('b'), just('c')], &rows);
}

#[test]
fn errors_at_one_place_are_merged_from_the_left(rt: HostRuntime) {
    let three = group((
        just::<_, _, Merging>('a').or_not(),
        choice((just('b'), just('c'))).or_not(),
        just('d'),
    ));
    let rows = [
        ("", "error (((a b) c) d)"),
        ("cd", "ok (None, Some('c'), 'd')"),
    ];
    assert_answers(&rt, &three, &rows);
}

#[test]
fn one_two_and_four_give_their_outputs_in_order(rt: HostRuntime) {
    let one = group((just_char('a'),));
    assert_answers(&rt, &one, &[("a", "ok ('a',)")]);
    let two = group((just_char('a'), any_char()));
    assert_answers(&rt, &two, &[("ab", "ok ('a', 'b')")]);
    let four = group((just_char('a'), any_char(), any_char(), any_char()));
    assert_answers(&rt, &four, &[("abcd", "ok ('a', 'b', 'c', 'd')")]);
}

#[test]
fn five_and_six_give_their_outputs_in_order(rt: HostRuntime) {
    let five = group((
        just_char('a'),
        any_char(),
        any_char(),
        any_char(),
        any_char(),
    ));
    assert_answers(&rt, &five, &[("abcde", "ok ('a', 'b', 'c', 'd', 'e')")]);
    let six = group((
        just_char('a'),
        any_char(),
        any_char(),
        any_char(),
        any_char(),
        any_char(),
    ));
    assert_answers(
        &rt,
        &six,
        &[("abcdef", "ok ('a', 'b', 'c', 'd', 'e', 'f')")],
    );
}

#[test]
fn seven_give_their_outputs_in_order(rt: HostRuntime) {
    let seven = group((
        just_char('a'),
        any_char(),
        any_char(),
        any_char(),
        any_char(),
        any_char(),
        any_char(),
    ));
    let rows = [("abcdefg", "ok ('a', 'b', 'c', 'd', 'e', 'f', 'g')")];
    assert_answers(&rt, &seven, &rows);
}

#[test]
fn eight_give_their_outputs_in_order(rt: HostRuntime) {
    let eight = group((
        just_char('a'),
        any_char(),
        any_char(),
        any_char(),
        any_char(),
        any_char(),
        any_char(),
        any_char(),
    ));
    let rows = [("abcdefgh", "ok ('a', 'b', 'c', 'd', 'e', 'f', 'g', 'h')")];
    assert_answers(&rt, &eight, &rows);
}
