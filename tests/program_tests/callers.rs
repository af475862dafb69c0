//! The callers of `callers::by_value` and of `callers::under`, run as they say.
use super::builders::assert_rows;
use answers::asserts::assert_line;
use chumsky::prelude::*;
use callers::by_value::{
    as_often, as_often_or_refused, capitals, greatest, greatest_of_a_sentence, greatest_of_some,
    number, one_less_often, sum, vowel,
};
use callers::under::{above_four, at_most_three, by_the_first, checked, counted_apart};
use std::process::Abort;

#[test]
fn values_judge_as_closures_do(rt: HostRuntime) {
    let rows = [
        ("e", "ok 'e'"),
        ("x", "error 0..1 expected something else found 'x'"),
    ];
    assert_rows(&rt, vowel, &rows);
    assert_rows(&rt, number, &[("7", "ok 7"), ("x", "error 0..1 \"\"")]);
}

#[test]
fn values_fold_as_closures_do(rt: HostRuntime) {
    assert_rows(&rt, greatest, &[("bca", "ok 'c'"), ("", "ok ' '")]);
    let rows = [
        ("bca", "ok 'c'"),
        ("", "error 0..0 expected any found end"),
    ];
    assert_rows(&rt, greatest_of_some, &rows);
    let rows = [
        ("bca.", "ok 'c'"),
        (".", "ok '.'"),
        ("a", "error 1..1 expected something else, '.' found end"),
    ];
    assert_rows(&rt, greatest_of_a_sentence, &rows);
    assert_rows(&rt, capitals, &[("aB1", "ok \"AB1\"")]);
    let rows = [("1+-2+3", "ok 2"), ("-1%", "ok 0"), ("1+9%", "ok 1")];
    assert_rows(&rt, sum, &rows);
}

#[test]
fn values_configure_as_closures_do(rt: HostRuntime) {
    let rows = [
        ("2xx", "ok 2"),
        ("2x", "error 2..2 expected 'x' found end"),
        ("0", "ok 0"),
    ];
    assert_rows(&rt, as_often, &rows);
    assert_rows(&rt, as_often_or_refused, &rows);
    let rows = [
        ("2x", "ok 1"),
        ("2xx", "error 2..3 expected end of input found 'x'"),
    ];
    assert_rows(&rt, one_less_often, &rows);
}

#[test]
fn contexts_say_what_follows(rt: HostRuntime) {
    assert_rows(&rt, by_the_first, &[("2axx", "ok 2")]);
    let rows = [("2xx", "ok 2"), ("4xxxx", "error 1..1 \"\"")];
    assert_rows(&rt, at_most_three, &rows);
    assert_rows(&rt, above_four, &[("27", "ok [false, true]")]);
}

#[test]
fn states_are_those_of_the_caller(rt: HostRuntime) {
    assert_rows(&rt, counted_apart, &[("a", "ok 1")]);
    let (answer, state) = checked(rt.alloc(), "ab");
    assert_line(&rt, answer, "ok ()");
    assert_eq!(&rt; state, 7);
}
