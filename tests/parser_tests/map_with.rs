//! Mappers that are shown the run.
use answers::asserts::{assert_answers, assert_answers_from};
use answers::extras::{Own, Telling};
use answers::leaves::{any_char, just_char};
use chumsky::prelude::*;
use extending::states::Told;

#[test]
fn map_with_is_shown_what_its_part_took(rt: HostRuntime) {
    let spanned = just_char('a').then(any_char()).map_with(|pair, extra| {
        let span = extra.span();
        (pair.1, span.start, span.end)
    });
    let rows = [
        ("xab", "ok ('b', 1, 3)"),
        ("xa", "error 2..2 expected any found end"),
        ("xb", "error 1..2 expected 'a' found 'b'"),
    ];
    assert_answers(&rt, &just_char('x').ignore_then(spanned), &rows);
}

/// It is called once for an output, and where none is wanted not at all.
#[test]
fn what_map_with_writes_to_the_state_stands(rt: HostRuntime) {
    let adding = any::<&str, Telling>().map_with(|c, extra| {
        let told = extra.state();
        told.tokens = told.tokens.saturating_add(10);
        c
    });
    let rows = [
        (
            "a",
            "ok 'a'; state Told { tokens: 11 }, by check Told { tokens: 1 }",
        ),
        ("", "error; state Told { tokens: 0 }"),
    ];
    assert_answers_from(&rt, &adding, Told { tokens: 0 }, &rows);
}
