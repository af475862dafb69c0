//! Sets: each part once, in any order.
use answers::asserts::assert_answers;
use answers::extras::Own;
use answers::leaves::{just_char, just_text};
use chumsky::prelude::*;
use chumsky::primitive::Just;
use std::alloc::AllocGlobal;
use std::process::Abort;

#[test]
fn parts_come_in_any_order(rt: HostRuntime) {
    let three = set((just_text("abc"), just_text("def"), just_text("ijk")));
    let rows = [
        ("ijkdefabc", "ok (\"abc\", \"def\", \"ijk\")"),
        ("abcdefijk", "ok (\"abc\", \"def\", \"ijk\")"),
        ("defabcijk", "ok (\"abc\", \"def\", \"ijk\")"),
        ("defx", "error 3..4 expected 'i', 'a' found 'x'"),
    ];
    assert_answers(&rt, &three, &rows);
}

#[test]
fn a_part_that_moved_is_kept(rt: HostRuntime) {
    let either_and_abc = set((
        choice((just_text("abc"), just_text("def"))),
        just_text("abc"),
    ));
    let rows = [
        ("abcdef", "error 3..4 expected 'a' found 'd'"),
        ("defabc", "ok (\"def\", \"abc\")"),
    ];
    assert_answers(&rt, &either_and_abc, &rows);
}

#[test]
fn parts_that_may_be_absent_are_none(rt: HostRuntime) {
    let optional = set((
        just_text("abc").or_not(),
        just_text("def").or_not(),
        just_text("ijk").or_not(),
    ));
    let rows = [
        ("ijkabc", "ok (Some(\"abc\"), None, Some(\"ijk\"))"),
        ("", "ok (None, None, None)"),
    ];
    assert_answers(&rt, &optional, &rows);
}

#[test]
fn one_and_four_give_their_outputs_in_order(rt: HostRuntime) {
    let one = set((just_char('a'),));
    assert_answers(&rt, &one, &[("a", "ok ('a',)")]);
    let four = set((
        just_char('a'),
        just_char('b'),
        just_char('c'),
        just_char('d'),
    ));
    assert_answers(&rt, &four, &[("dacb", "ok ('a', 'b', 'c', 'd')")]);
}

/// A set over a `Vec`.
fn assert_of_vec<'src, R: Abort + AllocGlobal>(
    rt: &R,
    words: Vec<Just<&'static str, &'src str, Own>>,
    rows: &[(&'src str, &str)],
) {
    assert_answers(rt, &set(words), rows);
}

#[test]
fn parts_of_a_vec_come_in_any_order(rt: HostRuntime) {
    let words = vec![in rt.alloc(); just("abc"), just("def"), just("ijk")].expect(
        &rt,
        "out of memory",
    );
    assert_of_vec(
        &rt,
        words,
        &[("ijkdefabc", "ok [\"abc\", \"def\", \"ijk\"]")],
    );
}

/// A set over an array.
fn assert_of_array<'src, R: Abort + AllocGlobal>(
    rt: &R,
    letters: [Just<char, &'src str, Own>; 2],
    rows: &[(&'src str, &str)],
) {
    assert_answers(rt, &set(letters), rows);
}

#[test]
fn parts_of_an_array_come_in_any_order(rt: HostRuntime) {
    let rows = [
        ("ba", "ok ['a', 'b']"),
        ("bb", "error 1..2 expected 'a' found 'b'"),
    ];
    assert_of_array(&rt, [just('a'), just('b')], &rows);
}
