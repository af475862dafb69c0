//! JSON to a tree, by `json_tree`, run.
use chumsky::prelude::*;
use json_tree::{Json, check_json, read_json};
use std::alloc::{AllocError, Global};

/// Writes values, with a space before each.
fn write_all(alloc: Global, values: &[Json], out: &mut String) -> Result<(), AllocError> {
    for value in values {
        out.push(' ')?;
        write_value(alloc, value, out)?;
    }
    Ok(())
}

/// Writes a value, with what is in a list or a map in brackets.
fn write_value(alloc: Global, value: &Json, out: &mut String) -> Result<(), AllocError> {
    match value {
        Json::Null => out.push_str("null"),
        Json::Bool(true) => out.push_str("yes"),
        Json::Bool(false) => out.push_str("no"),
        Json::Number(number) => out.push_str(number.as_str()),
        Json::String(text) => {
            out.push('"')?;
            out.push_str(text.as_str())?;
            out.push('"')
        }
        Json::Array(values) => {
            out.push_str("(list")?;
            write_all(alloc, values.as_slice(), out)?;
            out.push(')')
        }
        Json::Object(members) => {
            out.push_str("(map")?;
            for (name, value) in members {
                out.push(' ')?;
                out.push_str(name.as_str())?;
                out.push('=')?;
                write_value(alloc, value, out)?;
            }
            out.push(')')
        }
    }
}

/// What errors say, a line for each.
fn write_errors(alloc: Global, errors: &[Rich<char>], out: &mut String) -> Result<(), AllocError> {
    for error in errors {
        let SimpleSpan { start, end } = *error.span();
        let said = format!(in alloc; "{start}..{end} {error}\n")?;
        out.push_str(said.as_str())?;
    }
    Ok(())
}

/// What is read of a text, and what is wrong with it.
fn read(alloc: Global, text: &str) -> Result<String, AllocError> {
    match read_json(alloc, text) {
        Ok(parsed) => {
            let mut out = String::new(alloc);
            if let Some(value) = parsed.output() {
                write_value(alloc, value, &mut out)?;
            }
            write_errors(alloc, parsed.errors.as_slice(), &mut out)?;
            Ok(out)
        }
        Err(stop) => format!(in alloc; "{stop:?}"),
    }
}

/// What is wrong with a text, by a run that makes no value.
fn check(alloc: Global, text: &str) -> Result<String, AllocError> {
    match check_json(alloc, text) {
        Ok(checked) => {
            let mut out = String::new(alloc);
            write_errors(alloc, checked.errors.as_slice(), &mut out)?;
            Ok(out)
        }
        Err(stop) => format!(in alloc; "{stop:?}"),
    }
}

#[test]
fn a_value_is_read_to_a_tree(rt: HostRuntime) {
    let rows = [
        ("null", "null"),
        (" true ", "yes"),
        ("false", "no"),
        ("-10.50", "-10.50"),
        ("0", "0"),
        ("\"a b\"", "\"a b\""),
        ("[]", "(list)"),
        ("{ }", "(map)"),
        (
            "[1, [2], \"x\", null]",
            "(list 1 (list 2) \"x\" null)",
        ),
        (
            "{\"a\": 1, \"b\": {\"c\": [true]}}",
            "(map a=1 b=(map c=(list yes)))",
        ),
        ("[{}, {\"\": \"\"}]", "(list (map) (map =\"\"))"),
    ];
    for (text, expected) in rows {
        let line = read(rt.alloc(), text).expect(&rt, "out of memory");
        assert_eq!(rt; line.as_str(), expected);
        let errors = check(rt.alloc(), text).expect(&rt, "out of memory");
        assert_eq!(rt; errors.as_str(), "", "of {text}");
    }
}

#[test]
fn what_is_no_value_fails_at_its_place_with_a_value_and_without(rt: HostRuntime) {
    let rows = [
        ("[1 2]", "3..4 "),
        ("{\"a\" 1}", "5..6 "),
        ("{1: 2}", "1..2 "),
        ("{\"a\": }", "6..7 "),
        ("[1,]", "3..4 "),
        ("[1}", "2..3 "),
        ("[1", "2..2 "),
        ("01", "1..2 "),
        ("1.", "2..2 "),
        ("nulls", "4..5 "),
        ("\"a", "2..2 "),
        ("", "0..0 "),
        ("1 2", "2..3 "),
        ("]", "0..1 "),
    ];
    for (text, expected) in rows {
        let line = read(rt.alloc(), text).expect(&rt, "out of memory");
        assert!(rt; line.as_str().starts_with(expected), "of {text}: {line}");
        let checked = check(rt.alloc(), text).expect(&rt, "out of memory");
        assert_eq!(rt; line.as_str(), checked.as_str(), "of {text}");
    }
}

/// So many times one text, then another, and then a third as often as the first.
fn nested(
    alloc: Global,
    levels: usize,
    opening: &str,
    inside: &str,
    closing: &str,
) -> Result<String, AllocError> {
    let mut text = String::new(alloc);
    for _level in 0..levels {
        text.push_str(opening)?;
    }
    text.push_str(inside)?;
    for _level in 0..levels {
        text.push_str(closing)?;
    }
    Ok(text)
}

#[test]
fn a_hundred_levels_are_read_and_one_more_is_too_deep(rt: HostRuntime) {
    let levels = [(100, false), (101, true), (20_000, true)];
    let kinds = [
        ("[", "", "]", "(list (list "),
        ("{\"a\":", "1", "}", "(map a=(map a="),
    ];
    for (levels, is_too_deep) in levels {
        for (opening, inside, closing, begun) in kinds {
            let text =
                nested(rt.alloc(), levels, opening, inside, closing).expect(&rt, "out of memory");
            let line = read(rt.alloc(), text.as_str()).expect(&rt, "out of memory");
            let checked = check(rt.alloc(), text.as_str()).expect(&rt, "out of memory");
            if is_too_deep {
                assert_eq!(rt; line.as_str(), "TooDeep", "{levels} of {opening}");
                assert_eq!(rt; checked.as_str(), "TooDeep", "{levels} of {opening}");
            } else {
                assert!(rt; line.as_str().starts_with(begun), "{levels} of {opening}");
                assert_eq!(rt; checked.as_str(), "", "{levels} of {opening}");
            }
        }
    }
}

#[test]
fn a_text_of_more_items_than_levels_is_read(rt: HostRuntime) {
    let items = nested(rt.alloc(), 3_000, "1,", "1", "").expect(&rt, "out of memory");
    let text = nested(rt.alloc(), 1, "[", items.as_str(), "]").expect(&rt, "out of memory");
    let line = read(rt.alloc(), text.as_str()).expect(&rt, "out of memory");
    assert_eq!(rt; line.as_str().matches(" 1").count(), 3_001);
}
