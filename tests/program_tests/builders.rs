//! The callers of `callers::builders`, run as they say.
use answers::asserts::assert_line;
use chumsky::Stop;
use chumsky::prelude::*;
use callers::builders::{
    a_and_bs, between_commas, capital, count_before_b, doubted, each_letter, first_but_x, is_u64,
    length, numbered, only_a, only_a_shown, start_of_all, surely_a, three, up_to_five,
    with_an_error_of_the_state, with_another_error, with_its_error,
};
use std::alloc::{AllocGlobal, Global};
use std::fmt::Debug;
use std::process::Abort;

/// Asserts what a caller answers to each text.
pub fn assert_rows<O: Debug + Drop, R: Abort + AllocGlobal>(
    rt: &R,
    caller: fn(Global, &str) -> Result<ParseResult<O, Rich<char>>, Stop>,
    rows: &[(&str, &str)],
) {
    for (text, line) in rows {
        assert_line(rt, caller(rt.alloc(), *text), *line);
    }
}

#[test]
fn judges_answer_as_they_say(rt: HostRuntime) {
    assert_rows(&rt, capital, &[("a", "ok 'A'"), ("1", "ok '1'")]);
    assert_rows(&rt, doubted, &[("x", "ok 'x'; error 0..1 \"\"")]);
    let rows = [
        ("a", "ok 'a'"),
        ("b", "error 0..1 \"\""),
        ("", "error 0..0 expected any found end"),
    ];
    assert_rows(&rt, only_a, &rows);
    assert_rows(&rt, only_a_shown, &rows);
    let rows = [("a", "ok 'a'"), ("b", "error 0..1 expected 'a' found 'b'")];
    assert_rows(&rt, with_its_error, &rows);
    assert_rows(&rt, surely_a, &rows);
    let rows = [("a", "ok 'a'"), ("b", "error 0..0 \"\"")];
    assert_rows(&rt, with_another_error, &rows);
    assert_rows(&rt, with_an_error_of_the_state, &rows);
}

#[test]
fn what_is_looked_at_is_not_taken(rt: HostRuntime) {
    let rows = [
        ("ab", "ok 'a'"),
        ("x", "error 0..1 expected something else found 'x'"),
        ("", "error 0..0 expected any found end"),
    ];
    assert_rows(&rt, first_but_x, &rows);
}

#[test]
fn digits_are_read_as_a_number(rt: HostRuntime) {
    let rows = [
        ("7", "ok true"),
        ("99999999999999999999", "ok false"),
        ("", "ok false"),
    ];
    assert_rows(&rt, is_u64, &rows);
}

#[test]
fn items_are_numbered_folded_and_counted(rt: HostRuntime) {
    assert_rows(
        &rt,
        numbered,
        &[("aa", "ok [(0, 'a'), (1, 'a')]"), ("", "ok []")],
    );
    assert_rows(&rt, length, &[("abc", "ok 3"), ("", "ok 0")]);
    let no_b = "error 2..2 expected 'a', 'b' found end";
    assert_rows(
        &rt,
        count_before_b,
        &[("aab", "ok 2"), ("b", "ok 0"), ("aa", no_b)],
    );
    assert_rows(&rt, start_of_all, &[("aab", "ok 0"), ("b", "ok 9")]);
    let rows = [
        ("a", "ok 'a'"),
        ("abb", "ok 'a'"),
        ("abcb", "error 0..3 \"\""),
    ];
    assert_rows(&rt, a_and_bs, &rows);
    let rows = [
        ("abc", "ok ['a', 'b', 'c']"),
        ("ab", "error 2..2 expected any found end"),
        ("abcd", "error 3..4 expected end of input found 'd'"),
    ];
    assert_rows(&rt, three, &rows);
    assert_rows(
        &rt,
        between_commas,
        &[("a,b", "ok 2"), (",a,b,", "ok 2"), ("", "ok 0")],
    );
}

#[test]
fn a_run_is_asked_for_one_letter_after_another(rt: HostRuntime) {
    let rows = [("", "ok 0"), ("abba", "ok 4"), ("abbaa", "ok 5")];
    assert_rows(&rt, up_to_five, &rows);
    assert_rows(&rt, each_letter, &rows);
    let sixth = "ok 5; error 5..6 expected end of input found 'a'";
    assert_rows(&rt, up_to_five, &[("ababaa", sixth)]);
    assert_rows(&rt, each_letter, &[("ababaa", "ok 6")]);
    let no_letter = "ok 1; error 1..2 expected 'a', 'b', end of input found 'x'";
    assert_rows(&rt, each_letter, &[("ax", no_letter)]);
}
