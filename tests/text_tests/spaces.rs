//! White space and the ends of lines.
use answers::asserts::{assert_answers, assert_answers_from};
use answers::extras::{Own, Telling};
use chumsky::prelude::*;
use chumsky::text::{inline_whitespace, newline, whitespace};
use extending::states::Told;

#[test]
fn whitespace_takes_the_longest_run_be_it_empty(rt: HostRuntime) {
    let rows = [
        ("", "ok \"\""),
        (" \t\r\n", "ok \" \\t\\r\\n\""),
        ("\u{2003}\u{3000}\u{85}", "ok \"\\u{2003}\\u{3000}\\u{85}\""),
        (" x", "error 1..2 expected whitespace, end of input found 'x'"),
        ("x", "error 0..1 expected whitespace, end of input found 'x'"),
        ("\u{200B}", "error 0..3 expected whitespace, end of input found '\\u{200b}'"),
    ];
    assert_answers(&rt, &whitespace::<&str, Own>(), &rows);
}

#[test]
fn inline_whitespace_stays_on_its_line(rt: HostRuntime) {
    let rows = [
        ("", "ok \"\""),
        (" \t ", "ok \" \\t \""),
        (" \n", "error 1..2 expected inline whitespace, end of input found '\\n'"),
        ("\u{A0}", "error 0..2 expected inline whitespace, end of input found '\\u{a0}'"),
    ];
    assert_answers(&rt, &inline_whitespace::<&str, Own>(), &rows);
}

#[test]
fn newline_takes_one_end_of_a_line(rt: HostRuntime) {
    let rows = [
        ("\n", "ok \"\\n\""),
        ("\r\n", "ok \"\\r\\n\""),
        ("\r", "ok \"\\r\""),
        ("\u{B}", "ok \"\\u{b}\""),
        ("\u{C}", "ok \"\\u{c}\""),
        ("\u{85}", "ok \"\\u{85}\""),
        ("\u{2028}", "ok \"\\u{2028}\""),
        ("\u{2029}", "ok \"\\u{2029}\""),
        ("", "error 0..0 expected newline found end"),
        ("x", "error 0..1 expected newline found 'x'"),
        (" \n", "error 0..1 expected newline found ' '"),
        ("\n\n", "error 1..2 expected end of input found '\\n'"),
        ("\n\r", "error 1..2 expected end of input found '\\r'"),
        ("\r\n\n", "error 2..3 expected end of input found '\\n'"),
        ("\r\r", "error 1..2 expected end of input found '\\r'"),
    ];
    assert_answers(&rt, &newline::<&str, Own>(), &rows);
}

#[test]
fn lines_end_as_they_like(rt: HostRuntime) {
    let lines = any::<&str, Own>()
        .separated_by(newline())
        .collect::<String>();
    let rows = [("a\nb\r\nc\rd", "ok \"abcd\"")];
    assert_answers(&rt, &lines, &rows);
}

#[test]
fn the_state_is_told_of_what_is_taken_alone(rt: HostRuntime) {
    let parser = whitespace::<&str, Telling>().ignore_then(any());
    let rows = [
        ("  x", "ok 'x'; state Told { tokens: 3 }"),
        ("  ", "error; state Told { tokens: 2 }"),
    ];
    assert_answers_from(&rt, &parser, Told { tokens: 0 }, &rows);
    let lines = newline::<&str, Telling>().ignore_then(any());
    let rows = [
        ("\r\nx", "ok 'x'; state Told { tokens: 3 }"),
        ("x", "error; state Told { tokens: 0 }"),
    ];
    assert_answers_from(&rt, &lines, Told { tokens: 0 }, &rows);
}

#[test]
fn white_space_is_expected_beside_what_else_was(rt: HostRuntime) {
    let parser = just::<_, &str, Own>('a').or_not().then(whitespace());
    let rows = [
        ("a ", "ok (Some('a'), \" \")"),
        ("b", "error 0..1 expected 'a', whitespace, end of input found 'b'"),
    ];
    assert_answers(&rt, &parser, &rows);
}
