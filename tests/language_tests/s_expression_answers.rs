//! What s-expressions are.
use super::printed::{assert_lines, nested, printed};
use super::s_expression::{Expression, ExpressionsText, parse_expressions};
use std::alloc::{AllocError, Global};
use std::test::Fail;

/// What is printed of a text.
fn shown(alloc: Global, text: &str) -> Result<String, AllocError> {
    printed(
        alloc,
        text,
        parse_expressions(alloc, text),
        |all: &Vec<Expression>| {
            let all = ExpressionsText(all.as_slice());
            format!(in alloc; "{all}")
        },
    )
}

#[test]
fn expressions_are_words_texts_and_lists(rt: HostRuntime) {
    let rows = [
        ("", ""),
        ("x", "x\n"),
        (
            "; squares\n(define (square x)\n  (* x x)) ; done\n(square 12)",
            "(define (square x) (* x x))\n(square 12)\n",
        ),
        ("( )()", "()\n()\n"),
        (
            "(say \"a (b) \\\"c\\\" \\u00e9\" #5:(\" ;))",
            "(say \"a (b) \\\"c\\\" é\" \"(\\\" ;)\")\n",
        ),
        ("#0: #2:éé", "\"\"\n\"éé\"\n"),
    ];
    assert_lines(&rt, shown, &rows);
}

#[test]
fn what_is_no_expression_is_an_error(rt: HostRuntime) {
    let rows = [
        (
            "(a (b)",
            "input:1:7: expected whitespace, a comment, an atom, '(' or ')', found end of input\n(a (b)\n      ^\n",
        ),
        (
            "a)",
            "input:1:2: expected something else, whitespace, a comment, an atom, '(' or end of input, found ')'\na)\n ^\n",
        ),
        (
            "#5:four",
            "input:1:8: expected anything, found end of input\n#5:four\n       ^\n",
        ),
        (
            "(\"open)",
            "input:1:8: expected a character, '\\\\' or '\"', found end of input\n(\"open)\n       ^\n",
        ),
    ];
    assert_lines(&rt, shown, &rows);
}

#[test]
fn a_list_that_is_too_deep_is_refused(rt: HostRuntime) -> Result<(), Fail> {
    let alloc = rt.alloc();
    let text = nested(alloc, 1000, "(", "", ")")?;
    let lines = shown(alloc, text.as_str())?;
    assert_eq!(rt; lines.as_str().trim_end(), text.as_str());
    for depth in [1001, 100_000] {
        let text = nested(alloc, depth, "(", "", ")")?;
        let lines = shown(alloc, text.as_str())?;
        assert_eq!(rt; lines.as_str(), "refused: TooDeep");
    }
    Ok(())
}
