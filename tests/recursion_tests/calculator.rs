//! The calculator that docs/GUIDE.md makes step by step, run as it says.
use answers::asserts::assert_line;
use chumsky::Stop;
use chumsky::report::Report;
use guide::calculator::value_of;
use std::alloc::{AllocError, Global};
use std::process::Abort;

#[test]
fn products_bind_before_sums_and_brackets_before_both(rt: HostRuntime) {
    let rows = [
        ("7", "ok 7"),
        ("2 + 3 * 4", "ok 14"),
        ("2 * 3 + 4", "ok 10"),
        (" 2 * (3 + 4) ", "ok 14"),
        ("((1)) + ( 2 )\n", "ok 3"),
        ("18446744073709551615", "ok 18446744073709551615"),
    ];
    for (text, expected) in rows {
        assert_line(&rt, value_of(rt.alloc(), text), expected);
    }
}

#[test]
fn an_error_says_what_may_stand_there(rt: HostRuntime) {
    let rows = [
        ("", "error 0..0 expected digit, '(' found end"),
        ("2 * (3 + )", "error 9..10 expected digit, '(' found ')'"),
        ("(1", "error 2..2 expected digit, '*', '+', ')' found end"),
        ("1)", "error 1..2 expected digit, '*', '+', end of input found ')'"),
    ];
    for (text, expected) in rows {
        assert_line(&rt, value_of(rt.alloc(), text), expected);
    }
}

/// A number, a product and a sum that 64 bits don't hold, each with its place; what is around it is read.
#[test]
fn what_is_too_large_is_an_error_where_it_stands(rt: HostRuntime) {
    let rows = [
        ("1 + 18446744073709551616", "ok 1; error 4..24 \"64 bits don't hold this\""),
        ("1 + 9999999999 * 9999999999", "ok 1; error 4..27 \"64 bits don't hold this\""),
        ("18446744073709551615 + 1", "ok 0; error 0..24 \"64 bits don't hold this\""),
        (
            "(18446744073709551615 + 1) * 18446744073709551616",
            "ok 0; error 1..25 \"64 bits don't hold this\"; error 29..49 \"64 bits don't hold this\"",
        ),
    ];
    for (text, expected) in rows {
        assert_line(&rt, value_of(rt.alloc(), text), expected);
    }
}

#[test]
fn ninety_nine_brackets_are_not_too_deep(rt: HostRuntime) {
    for (brackets, answer) in [(99, None), (100, Some(Stop::TooDeep))] {
        let mut text = String::new(rt.alloc());
        for _ in 0..brackets {
            text.push('(').expect(&rt, "out of memory");
        }
        text.push('1').expect(&rt, "out of memory");
        for _ in 0..brackets {
            text.push(')').expect(&rt, "out of memory");
        }
        match value_of(rt.alloc(), text.as_str()) {
            Ok(parsed) => assert!(rt; answer.is_none() && parsed.output() == Some(&1)),
            Err(stop) => assert!(rt; answer == Some(stop)),
        }
    }
}

/// The reports of a text's errors.
fn told(alloc: Global, text: &str) -> Result<String, AllocError> {
    let mut told = String::new(alloc);
    let Ok(parsed) = value_of(alloc, text) else {
        return Err(AllocError);
    };
    for error in parsed.errors() {
        let report = Report {
            name: "input",
            text,
            error,
        };
        write!(told, "{report}")?;
    }
    Ok(told)
}

#[test]
fn reports_are_those_of_the_guide(rt: HostRuntime) {
    let rows = [
        (
            "2 * (3 + )",
            "input:1:10: expected digit or '(', found ')'\n2 * (3 + )\n         ^",
        ),
        (
            "1 + 9999999999 * 9999999999",
            "input:1:5: 64 bits don't hold this\n1 + 9999999999 * 9999999999\n    ^^^^^^^^^^^^^^^^^^^^^^^",
        ),
    ];
    for (text, expected) in rows {
        let told = told(rt.alloc(), text).expect(&rt, "out of memory");
        assert_eq!(rt; told.as_str(), expected);
    }
}
