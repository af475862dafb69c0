//! Labels around parsers that recover, and within them.
use answers::asserts::assert_answers;
use answers::extras::Own;
use answers::leaves::{any_char, just_text};
use chumsky::prelude::*;

#[test]
fn a_label_around_a_strategy_leaves_the_error_that_was_told(rt: HostRuntime) {
    let part = just_text("hello")
        .ignored()
        .recover_with(via_parser(empty()))
        .labelled("greeting");
    let rows = [
        ("hello", "ok ()"),
        ("", "ok (); error 0..0 expected 'h' found end"),
        (
            "help",
            "error 3..4 expected 'l' found 'p'; error 0..1 expected end of input found 'h'",
        ),
    ];
    assert_answers(&rt, &part, &rows);
}

#[test]
fn a_label_within_is_what_the_error_expected(rt: HostRuntime) {
    let boolean = choice((just_text("true"), just_text("false")))
        .labelled("boolean")
        .to_span();
    let on_this_line = any_char().and_is(text::newline().not());
    let part = choice((boolean,)).recover_with(via_parser(on_this_line.to_span()));
    let part = part.map(|span: SimpleSpan| span.end);
    let rows = [
        ("true", "ok 4"),
        ("x", "ok 1; error 0..1 expected boolean found 'x'"),
        (
            "tru",
            "error 3..3 expected 'e' found end; error 1..2 expected end of input found 'r'",
        ),
        ("\n", "error 0..1 expected boolean found '\\n'"),
    ];
    assert_answers(&rt, &part, &rows);
}
