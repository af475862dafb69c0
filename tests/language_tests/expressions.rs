//! What the s-expressions of a text are.
use super::printed::{Refusal, assert_lines, nested, printed};
use s_expression::{Expression, read_expressions};
use std::alloc::{AllocError, Global};
use std::test::Fail;

/// What is printed of a text: each expression in a line of its own.
fn shown(alloc: Global, text: &str) -> Result<String, AllocError> {
    let parsed = read_expressions(alloc, text).map_err(Refusal::Run);
    printed(alloc, text, parsed, |all: &Vec<Expression>| {
        let mut lines = String::new(alloc);
        for expression in all {
            let line = format!(in alloc; "{expression}\n")?;
            lines.push_str(line.as_str())?;
        }
        Ok(lines)
    })
}

#[test]
fn expressions_are_symbols_numbers_texts_lists_and_quotes(rt: HostRuntime) {
    let rows = [
        ("", ""),
        (" ; no more", ""),
        ("x", "x\n"),
        (
            "; squares\n(define (square x)\n  (* x x)) ; done\n(square 12)",
            "(define (square x) (* x x))\n(square 12)\n",
        ),
        ("( )()", "()\n()\n"),
        ("'x '(a b) ''c (d 'e)", "'x\n'(a b)\n''c\n(d 'e)\n"),
        ("' x ;\n ( a)", "'x\n(a)\n"),
        (
            "(say \"a (b) ; \\\"c\\\" \\\\ é\" \"\\n\\t\n\")",
            "(say \"a (b) ; \\\"c\\\" \\\\ é\" \"\\n\\t\\n\")\n",
        ),
        ("a\"b\"c", "a\n\"b\"\nc\n"),
    ];
    assert_lines(&rt, shown, &rows);
}

/// A word may have white space in it that is neither a space, a tab nor an end of a line, but it begins with none; and a text needs no
/// gap before what follows it.
#[test]
fn words_begin_and_end_where_they_have_to(rt: HostRuntime) {
    let rows = [
        ("\"x\"y", "\"x\"\ny\n"),
        ("a\u{a0}b", "a\u{a0}b\n"),
        ("\u{a0}b ;x\n;y", "b\n"),
        ("(a\u{a0})", "(a\u{a0})\n"),
        ("(a ;c )\n)", "(a)\n"),
        ("'\u{b}x", "'x\n"),
    ];
    assert_lines(&rt, shown, &rows);
}

#[test]
fn a_word_of_digits_is_a_number_and_keeps_its_text(rt: HostRuntime) {
    let rows = [
        ("007", true),
        ("-12", true),
        ("123456789012345678901234567890", true),
        ("+", false),
        ("-", false),
        ("-x", false),
        ("1+", false),
        ("+5", false),
        ("1.5", false),
        ("--1", false),
    ];
    for (text, number) in rows {
        let parsed = read_expressions(rt.alloc(), text).expect(&rt, "refused");
        let all = parsed.output().expect(&rt, "no output");
        let (word, is_number) = match all.as_slice() {
            [Expression::Number(word)] => (word.as_str(), true),
            [Expression::Symbol(word)] => (word.as_str(), false),
            _ => ("", false),
        };
        assert_eq!(rt; word, text);
        assert_eq!(rt; is_number, number, "of {text}");
    }
}

#[test]
fn what_is_no_expression_is_an_error_at_its_place(rt: HostRuntime) {
    let rows = [
        (
            "(a (b)",
            "input:1:7: expected whitespace, a comment, an atom, '(', '\\'' or ')', found end of input\n(a (b)\n      ^\n",
        ),
        (
            "a)",
            "input:1:2: expected something else, whitespace, a comment, an atom, '(', '\\'' or end of input, found ')'\na)\n ^\n",
        ),
        (
            "(\"open)",
            "input:1:8: expected something else, '\\\\' or '\"', found end of input\n(\"open)\n       ^\n",
        ),
        (
            "\"\\x\"",
            "input:1:3: expected an escape, found 'x'\n\"\\x\"\n  ^\n",
        ),
        (
            "(a\n ')",
            "input:2:3: expected whitespace, a comment, an atom, '(' or '\\'', found ')'\n ')\n  ^\n",
        ),
    ];
    assert_lines(&rt, shown, &rows);
}

/// Quotes count as lists do.
#[test]
fn what_is_too_deep_is_refused(rt: HostRuntime) -> Result<(), Fail> {
    let alloc = rt.alloc();
    for (opening, inside, closing) in [("(", "", ")"), ("'", "()", "")] {
        let depth = if closing.is_empty() { 149 } else { 150 };
        let text = nested(alloc, depth, opening, inside, closing)?;
        let lines = shown(alloc, text.as_str())?;
        assert_eq!(rt; lines.as_str().trim_end(), text.as_str());
        for depth in [151, 100_000] {
            let text = nested(alloc, depth, opening, inside, closing)?;
            let lines = shown(alloc, text.as_str())?;
            assert_eq!(rt; lines.as_str(), "refused: TooDeep");
        }
    }
    Ok(())
}
