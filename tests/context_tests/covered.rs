//! Slices and spans of what a parser took.
use answers::asserts::assert_answers;
use answers::extras::Own;
use answers::leaves::{any_char, just_char, just_text};
use chumsky::prelude::*;

#[test]
fn to_slice_gives_the_part_of_the_input_that_was_taken(rt: HostRuntime) {
    let before_x = any_char()
        .and_is(just_char('x').not())
        .repeated()
        .to_slice()
        .then(just_char('x'));
    let rows = [
        ("abx", "ok (\"ab\", 'x')"),
        ("x", "ok (\"\", 'x')"),
        ("éx", "ok (\"é\", 'x')"),
        ("ab", "error 2..2 expected any, 'x' found end"),
    ];
    assert_answers(&rt, &before_x, &rows);
    let letters = just_char('a').repeated().to_slice();
    assert_answers(&rt, &letters, &[("aa", "ok \"aa\"")]);
}

#[test]
fn a_slice_begins_where_its_part_began(rt: HostRuntime) {
    let second = just_char('a').ignore_then(just_text("bc").to_slice());
    let rows = [
        ("abc", "ok \"bc\""),
        ("abd", "error 2..3 expected 'c' found 'd'"),
    ];
    assert_answers(&rt, &second, &rows);
}

#[test]
fn a_slice_of_bytes_is_a_slice(rt: HostRuntime) {
    let two = any::<&[u8], Own>().then(any()).to_slice();
    let rows: [(&[u8], &str); 2] = [
        (&[1, 2], "ok [1, 2]"),
        (&[1], "error 1..1 expected any found end"),
    ];
    assert_answers(&rt, &two, &rows);
}

#[test]
fn to_span_gives_where_it_was(rt: HostRuntime) {
    let span = just_text("ab").to_span();
    assert_answers(&rt, &span, &[("ab", "ok 0..2")]);
    let second = just_char('é').ignore_then(just_text("ab").to_span());
    assert_answers(
        &rt,
        &second,
        &[("éab", "ok 2..4")],
    );
}

#[test]
fn spanned_gives_the_output_with_its_span(rt: HostRuntime) {
    let rows = [
        (
            "é",
            "ok Spanned { inner: 'é', span: 0..2 }",
        ),
        ("a", "error 0..1 expected 'é' found 'a'"),
    ];
    assert_answers(&rt, &just_char('é').spanned(), &rows);
    let rows = [(
        "é",
        "ok Spanned { inner: 'é', span: 0..2 }",
    )];
    assert_answers(&rt, &any_char().spanned(), &rows);
    let nothing = empty::<&str, Own>().spanned();
    let rows = [(
        "",
        "ok Spanned { inner: (), span: 0..0 }",
    )];
    assert_answers(&rt, &nothing, &rows);
}
