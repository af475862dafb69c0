//! What sums come to.
use super::printed::{Refusal, assert_lines, nested, printed};
use arithmetic::{Refused, parse_arithmetic, parse_sum, read_by_powers};
use chumsky::Stop;
use chumsky::prelude::*;
use std::alloc::{AllocError, AllocGlobal, Global};
use std::process::Abort;
use std::test::Fail;

/// What is printed of a sum.
fn shown(alloc: Global, text: &str) -> Result<String, AllocError> {
    let parsed = parse_arithmetic(alloc, text).map_err(|refused| match refused {
        Refused::Running(stop) => Refusal::Run(stop),
        _ => Refusal::Rules,
    });
    printed(alloc, text, parsed, |number: &i64| {
        format!(in alloc; "{number}\n")
    })
}

/// The same by operators with their powers.
fn shown_by_powers(alloc: Global, text: &str) -> Result<String, AllocError> {
    let parsed = parse_sum(alloc, text).map_err(|stop| Refusal::Run(stop));
    printed(alloc, text, parsed, |number: &i64| {
        format!(in alloc; "{number}\n")
    })
}

/// Tests what is printed of sums in both ways.
fn assert_both<R: Abort + AllocGlobal>(rt: &R, rows: &[(&str, &str)]) {
    assert_lines(rt, shown, rows);
    assert_lines(rt, shown_by_powers, rows);
}

#[test]
fn products_come_before_sums_and_signs_go_from_the_left(rt: HostRuntime) {
    let rows = [
        ("1", "1\n"),
        ("2 * (3 + 4) - 1", "13\n"),
        ("2 + 3 * 4", "14\n"),
        ("20 - 3 - 4", "13\n"),
        ("100 / 5 / 2 * 3", "30\n"),
        ("17 % 5 - 17 / 5", "-1\n"),
        ("-7 / 2", "-3\n"),
        ("-7 % 2", "-1\n"),
        ("--5 + -(2 * -3)", "11\n"),
        ("2 * -3", "-6\n"),
        (" 007\n", "7\n"),
        ("((((1))))", "1\n"),
    ];
    assert_both(&rt, &rows);
}

#[test]
fn what_is_too_large_is_an_error_where_it_is_made(rt: HostRuntime) {
    let rows = [
        ("9223372036854775807", "9223372036854775807\n"),
        (
            "1 + 9223372036854775808",
            "input:1:5: number too large\n1 + 9223372036854775808\n    ^^^^^^^^^^^^^^^^^^^\n",
        ),
        (
            "9223372036854775807 - 1 + 2",
            "input:1:25: overflow\n9223372036854775807 - 1 + 2\n                        ^\n",
        ),
        ("-9223372036854775807 - 1", "-9223372036854775808\n"),
        (
            "-(-9223372036854775807 - 1)",
            "input:1:1: overflow\n-(-9223372036854775807 - 1)\n^\n",
        ),
        (
            "(-9223372036854775807 - 1) / -1",
            "input:1:28: overflow\n(-9223372036854775807 - 1) / -1\n                           ^\n",
        ),
        (
            "3000000000 *\n4000000000",
            "input:1:12: overflow\n3000000000 *\n           ^\n",
        ),
    ];
    assert_both(&rt, &rows);
}

#[test]
fn a_division_by_zero_is_an_error_at_its_sign(rt: HostRuntime) {
    let rows = [
        ("0 / 5", "0\n"),
        (
            "1 + 8 / (2 - 2)",
            "input:1:7: division by zero\n1 + 8 / (2 - 2)\n      ^\n",
        ),
        ("7\n% 0 * 3", "input:2:1: division by zero\n% 0 * 3\n^\n"),
    ];
    assert_both(&rt, &rows);
}

#[test]
fn what_is_no_sum_is_an_error(rt: HostRuntime) {
    let rows = [
        (
            "(1 + 2",
            "input:1:7: expected digit, '*', '/', '%', '+', '-' or ')', found end of input\n(1 + 2\n      ^\n",
        ),
        (
            "1 2",
            "input:1:3: expected '*', '/', '%', '+', '-' or end of input, found '2'\n1 2\n  ^\n",
        ),
    ];
    assert_both(&rt, &rows);
    let rows = [
        (
            "",
            "input:1:1: expected a number, '-' or '(', found end of input\n\n^\n",
        ),
        (
            "1 + * 2",
            "input:1:5: expected a number, '-' or '(', found '*'\n1 + * 2\n    ^\n",
        ),
    ];
    assert_lines(&rt, shown, &rows);
    let rows = [
        (
            "",
            "input:1:1: expected '-', a number or '(', found end of input\n\n^\n",
        ),
        (
            "1 + * 2",
            "input:1:5: expected '-', a number or '(', found '*'\n1 + * 2\n    ^\n",
        ),
    ];
    assert_lines(&rt, shown_by_powers, &rows);
}

/// An error within brackets stands, whatever follows it.
#[test]
fn the_first_that_cannot_be_worked_out_is_told(rt: HostRuntime) {
    let rows = [
        (
            "1 / 0 + 2 / 0",
            "input:1:3: division by zero\n1 / 0 + 2 / 0\n  ^\n",
        ),
        (
            "(1 / 0 x",
            "input:1:4: division by zero\n(1 / 0 x\n   ^\n",
        ),
        (
            "2 * (1 / 0) * 9223372036854775808",
            "input:1:8: division by zero\n2 * (1 / 0) * 9223372036854775808\n       ^\n",
        ),
        (
            "1 * 9223372036854775808 x",
            "input:1:5: number too large\n1 * 9223372036854775808 x\n    ^^^^^^^^^^^^^^^^^^^\n",
        ),
    ];
    assert_both(&rt, &rows);
}

#[test]
fn a_thousand_brackets_within_one_another_are_worked_out(rt: HostRuntime) -> Result<(), Fail> {
    let alloc = rt.alloc();
    let text = nested(alloc, 1000, "(1+", "1", ")")?;
    let lines = shown(alloc, text.as_str())?;
    assert_eq!(rt; lines.as_str(), "1001\n");
    Ok(())
}

#[test]
fn brackets_nest_deeper_than_the_readers_of_errors_go(rt: HostRuntime) -> Result<(), Fail> {
    let alloc = rt.alloc();
    let text = nested(alloc, 99, "(1+", "1", ")")?;
    let read = read_by_powers(alloc, text.as_str())?;
    assert_eq!(rt; read.into_output(), Some(100));
    let text = nested(alloc, 100, "(1+", "1", ")")?;
    assert_eq!(rt; read_by_powers(alloc, text.as_str()).err(), Some(Stop::TooDeep));
    let lines = shown_by_powers(alloc, text.as_str())?;
    assert_eq!(rt; lines.as_str(), "101\n");
    let text = nested(alloc, 100, "(", "1/0", ")")?;
    let parsed = parse_sum(alloc, text.as_str())?;
    let places = parsed.errors().as_slice().first().map(|error| *error.span());
    assert_eq!(rt; places, Some(SimpleSpan::from(0..203)));
    assert_eq!(rt; parsed.errors().as_slice().len(), 1);
    Ok(())
}
