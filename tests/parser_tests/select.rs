//! `select!` and `select_ref!`.
use answers::asserts::{assert_answers, assert_answers_from};
use answers::extras::{Key, Keyed, Own, Tallied};
use chumsky::prelude::*;
use chumsky::primitive::{Select, SelectRef, select};
use extending::states::Tally;

#[test]
fn the_arm_that_fits_gives_the_output(rt: HostRuntime) {
    let one_or_two: Select<_, &str, u32, Own> = select! { 'a' => 1, 'b' => 2 };
    let rows = [
        ("a", "ok 1"),
        ("b", "ok 2"),
        ("c", "error 0..1 expected something else found 'c'"),
        ("", "error 0..0 expected something else found end"),
    ];
    assert_answers(&rt, &one_or_two, &rows);
}

#[test]
fn of_two_arms_that_fit_the_first_stands(rt: HostRuntime) {
    let one_or_two: Select<_, &str, u32, Own> = select! { 'a' => 1, c if c < 'c' => 2 };
    assert_answers(&rt, &one_or_two, &[("a", "ok 1"), ("b", "ok 2")]);
}

/// Where a span starts, and where it ends.
fn ends_of(span: SimpleSpan) -> (usize, usize) {
    (span.start, span.end)
}

#[test]
fn the_extra_spans_the_token(rt: HostRuntime) {
    let span: Select<_, &str, (usize, usize), Own> = select! {
        c = extra if c != 'a' => ends_of(extra.span()),
    };
    let rows = [
        ("xé", "ok ('x', (1, 3))"),
        ("xa", "error 1..2 expected something else found 'a'"),
    ];
    assert_answers(&rt, &just('x').then(span), &rows);
}

/// The bytes of a text.
fn length_of(text: &str) -> usize {
    text.len()
}

#[test]
fn the_extra_shows_the_text_of_the_token(rt: HostRuntime) {
    let length: Select<_, &str, usize, Own> = select! {
        c = extra if c != 'a' => length_of(extra.slice()),
    };
    let rows = [
        ("xé", "ok ('x', 2)"),
        ("x", "error 1..1 expected something else found end"),
    ];
    assert_answers(&rt, &just('x').then(length), &rows);
}

/// Whether a character is the letter of a key.
fn is_key(key: &Key, c: char) -> bool {
    key.letter == c
}

#[test]
fn the_extra_shows_the_context(rt: HostRuntime) {
    let key: Select<_, &str, char, Keyed> = select! {
        c = extra if is_key(extra.ctx(), c) => c,
    };
    let rows = [
        ("k", "ok 'k'"),
        ("l", "error 0..1 expected something else found 'l'"),
    ];
    assert_answers(&rt, &key, &rows);
}

#[test]
fn an_arm_may_ask_for_memory(rt: HostRuntime) {
    let boxed: Select<_, &str, Option<Box<char>>, Own> = select! {
        c = extra if c != 'a' => Box::new(extra.alloc(), c).ok(),
    };
    assert_answers(&rt, &boxed, &[("é", "ok Some('é')")]);
}

#[test]
fn bytes_have_arms(rt: HostRuntime) {
    let digit: Select<_, &[u8], char, extra::Err<Simple<u8>>> = select! { 1 => '1', 2 => '2' };
    let rows: [(&[u8], &str); 2] = [(&[2], "ok '2'"), (&[3], "error 0..1 found 3")];
    assert_answers(&rt, &digit, &rows);
}

#[test]
fn what_is_written_stands(rt: HostRuntime) {
    let tallies: Select<_, &str, (), Tallied> = select! {
        'a' = extra => { *extra.state() = Tally { count: 7 }; },
    };
    let rows = [
        ("a", "ok (); state Tally { count: 7 }"),
        ("b", "error; state Tally { count: 1 }"),
    ];
    assert_answers_from(&rt, &tallies, Tally { count: 1 }, &rows);
}

#[test]
fn what_is_written_is_gone_back_from(rt: HostRuntime) {
    let refuses: Select<_, &str, (), Tallied> = select(|c: char, extra| {
        *extra.state() = Tally { count: 9 };
        None
    });
    let rows = [("b", "error; state Tally { count: 1 }")];
    assert_answers_from(&rt, &refuses, Tally { count: 1 }, &rows);
}

/// A token that can't be cloned.
#[derive(Drop)]
enum Word {
    Number(u32),
    Comma,
}

#[test]
fn a_reference_into_the_token_is_given(rt: HostRuntime) {
    let number: SelectRef<_, &[Word], &u32, extra::Err<Cheap>> = select_ref! {
        Word::Number(number) => number,
    };
    let rows: [(&[Word], &str); 2] = [(&[Word::Number(5)], "ok 5"), (&[Word::Comma], "error 0..1")];
    assert_answers(&rt, &number, &rows);
}

#[test]
fn an_arm_without_a_value_gives_nothing(rt: HostRuntime) {
    let comma: SelectRef<_, &[Word], (), extra::Err<Cheap>> = select_ref! { Word::Comma };
    let rows: [(&[Word], &str); 2] = [
        (&[Word::Comma], "ok ()"),
        (&[Word::Number(1)], "error 0..1"),
    ];
    assert_answers(&rt, &comma, &rows);
}
