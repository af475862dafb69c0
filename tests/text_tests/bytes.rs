//! Parsers of text over bytes.
use answers::asserts::assert_answers;
use answers::extras::Own;
use chumsky::prelude::*;
use chumsky::text::{int, newline, whitespace};

#[test]
fn words_are_found_in_bytes(rt: HostRuntime) {
    let setting = text::ascii::ident::<&[u8], Own>()
        .then_ignore(just(b'=').padded())
        .then(int(10));
    let rows = [
        ("size = 10".as_bytes(), "ok ([115, 105, 122, 101], [49, 48])"),
        ("size = x".as_bytes(), "error 7..8 expected int found 120"),
        ("size 1".as_bytes(), "error 5..6 expected 61 found 49"),
    ];
    assert_answers(&rt, &setting, &rows);
}

#[test]
fn a_keyword_is_found_in_bytes(rt: HostRuntime) {
    let rows = [
        ("let".as_bytes(), "ok [108, 101, 116]"),
        ("lets".as_bytes(), "error 0..4 expected let found end"),
        ("l".as_bytes(), "error 0..1 expected let found end"),
    ];
    assert_answers(&rt, &text::ascii::keyword::<&[u8], Own>("let"), &rows);
}

#[test]
fn white_space_of_bytes_is_that_of_ascii(rt: HostRuntime) {
    let rows = [
        (" \t\r\n\u{C}".as_bytes(), "ok [32, 9, 13, 10, 12]"),
        ("\u{A0}".as_bytes(), "error 0..1 expected whitespace, end of input found 194"),
        ("\u{B}".as_bytes(), "error 0..1 expected whitespace, end of input found 11"),
    ];
    assert_answers(&rt, &whitespace::<&[u8], Own>(), &rows);
}

#[test]
fn an_end_of_a_line_of_bytes_is_one_of_ascii(rt: HostRuntime) {
    let rows = [
        ("\r\n".as_bytes(), "ok [13, 10]"),
        ("\n".as_bytes(), "ok [10]"),
        ("\u{B}".as_bytes(), "ok [11]"),
        ("\u{C}".as_bytes(), "ok [12]"),
        ("\u{85}".as_bytes(), "error 0..1 expected newline found 194"),
    ];
    assert_answers(&rt, &newline::<&[u8], Own>(), &rows);
}

#[test]
fn a_label_is_put_into_an_error_over_bytes(rt: HostRuntime) {
    let number = int::<&[u8], Own>(10).labelled("a number");
    let rows = [
        ("7".as_bytes(), "ok [55]"),
        ("x".as_bytes(), "error 0..1 expected a number found 120"),
    ];
    assert_answers(&rt, &number, &rows);
}
