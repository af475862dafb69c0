//! Recovery by nested delimiters.
use answers::asserts::assert_answers;
use answers::leaves::{any_char, just_char};
use chumsky::prelude::*;

#[test]
fn delimiters_nest(rt: HostRuntime) {
    let part = just_char('[')
        .ignore_then(just_char('a'))
        .then_ignore(just_char(']'))
        .to_span()
        .map(|span: SimpleSpan| span.end)
        .recover_with(via_parser(nested_delimiters(
            '[',
            ']',
            [('(', ')'), ('{', '}')],
            |span: SimpleSpan| span.end,
        )));
    let rows = [
        ("[a]", "ok 3"),
        ("[b]", "ok 3; error 1..2 expected 'a' found 'b'"),
        ("[[x](y){z[]}]", "ok 13; error 1..2 expected 'a' found '['"),
        ("[)]", "error 1..2 expected 'a' found ')'"),
        ("[(])", "error 1..2 expected 'a' found '('"),
        ("[x", "error 1..2 expected 'a' found 'x'"),
        ("x", "error 0..1 expected '[' found 'x'"),
        (
            "[b]x",
            "error 1..2 expected 'a' found 'b'; error 3..4 expected end of input found 'x'",
        ),
    ];
    assert_answers(&rt, &part, &rows);
}

#[test]
fn nested_delimiters_by_themselves(rt: HostRuntime) {
    let part = nested_delimiters('[', ']', [('(', ')')], |span: SimpleSpan| span.end).then(
        any_char().repeated().collect::<String>(),
    );
    let rows = [
        ("[]", "ok (2, \"\")"),
        ("[()]x", "ok (4, \"x\")"),
        ("[(]", "error 2..3 expected ')' found ']'"),
        ("[(", "error 2..2 expected ')' found end"),
        ("", "error 0..0 expected '[' found end"),
    ];
    assert_answers(&rt, &part, &rows);
}
