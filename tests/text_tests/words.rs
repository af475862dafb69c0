//! Identifiers and keywords.
use answers::asserts::{assert_answers, assert_answers_from};
use answers::extras::{Own, Telling};
use chumsky::prelude::*;
use extending::states::Told;

#[test]
fn an_ascii_identifier_begins_with_no_digit(rt: HostRuntime) {
    let rows = [
        ("a", "ok \"a\""),
        ("_", "ok \"_\""),
        ("_a1Z", "ok \"_a1Z\""),
        ("1a", "error 0..1 expected identifier found '1'"),
        ("", "error 0..0 expected identifier found end"),
        ("é", "error 0..2 expected identifier found 'é'"),
        ("aé", "error 1..3 expected end of input found 'é'"),
        ("a-b", "error 1..2 expected end of input found '-'"),
    ];
    assert_answers(&rt, &text::ascii::ident::<&str, Own>(), &rows);
}

#[test]
fn a_unicode_identifier_begins_with_a_letter_of_any_script(rt: HostRuntime) {
    let rows = [
        ("été", "ok \"été\""),
        ("_1", "ok \"_1\""),
        ("名前2", "ok \"名前2\""),
        ("1é", "error 0..1 expected identifier found '1'"),
        ("\u{301}e", "error 0..2 expected identifier found '\\u{301}'"),
        ("e\u{301}", "ok \"e\\u{301}\""),
    ];
    assert_answers(&rt, &text::unicode::ident::<&str, Own>(), &rows);
    assert_answers(&rt, &text::ident::<&str, Own>(), &rows);
}

#[test]
fn a_keyword_is_no_prefix_of_an_identifier(rt: HostRuntime) {
    let rows = [
        ("let", "ok \"let\""),
        ("letter", "error 0..6 expected let found end"),
        ("let_", "error 0..4 expected let found end"),
        ("let2", "error 0..4 expected let found end"),
        ("le", "error 0..2 expected let found end"),
        ("Let", "error 0..3 expected let found end"),
        ("", "error 0..0 expected let found end"),
        ("1", "error 0..1 expected let found '1'"),
        ("let x", "error 3..4 expected end of input found ' '"),
        ("leté", "error 3..5 expected end of input found 'é'"),
    ];
    assert_answers(&rt, &text::ascii::keyword::<&str, Own>("let"), &rows);
    let rows = [
        ("let", "ok \"let\""),
        ("leté", "error 0..5 expected let found end"),
    ];
    assert_answers(&rt, &text::unicode::keyword::<&str, Own>("let"), &rows);
    assert_answers(&rt, &text::keyword::<&str, Own>("let"), &rows);
}

#[test]
fn a_word_that_is_no_identifier_is_never_found(rt: HostRuntime) {
    let rows = [
        ("", "error 0..0 expected  found end"),
        ("a", "error 0..1 expected  found end"),
    ];
    assert_answers(&rt, &text::ascii::keyword::<&str, Own>(""), &rows);
    let rows = [("a-b", "error 0..1 expected a-b found end")];
    assert_answers(&rt, &text::ascii::keyword::<&str, Own>("a-b"), &rows);
}

#[test]
fn a_keyword_is_tried_before_an_identifier(rt: HostRuntime) {
    let word = text::ascii::keyword::<&str, Own>("let")
        .to(1)
        .or(text::ascii::ident().to(2));
    let rows = [("let", "ok 1"), ("letter", "ok 2"), ("lex", "ok 2")];
    assert_answers(&rt, &word, &rows);
}

#[test]
fn the_state_is_told_of_a_word_that_is_not_the_keyword(rt: HostRuntime) {
    let rows = [
        ("let", "ok \"let\"; state Told { tokens: 3 }"),
        ("lets", "error; state Told { tokens: 4 }"),
    ];
    let parser = text::ascii::keyword::<&str, Telling>("let");
    assert_answers_from(&rt, &parser, Told { tokens: 0 }, &rows);
}
