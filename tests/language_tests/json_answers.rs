//! What JSON is, on texts whose answers are known from outside.
use super::printed::{Refusal, assert_lines, nested, printed};
use chumsky::Stop;
use json_tree::{Json, JsonText, read_json, read_json_within, recover_json};
use std::alloc::{AllocError, Global};
use std::test::Fail;

/// What is printed of a text, in one line.
fn in_line(alloc: Global, text: &str) -> Result<String, AllocError> {
    shown(alloc, text, false)
}

/// What is printed of a text, indented.
fn indented(alloc: Global, text: &str) -> Result<String, AllocError> {
    shown(alloc, text, true)
}

/// What is printed of a text.
fn shown(alloc: Global, text: &str, indented: bool) -> Result<String, AllocError> {
    let parsed = read_json(alloc, text).map_err(Refusal::Run);
    printed(alloc, text, parsed, |json: &Json| {
        let json = JsonText { json, indented };
        format!(in alloc; "{json}\n")
    })
}

#[test]
fn texts_that_are_json_are_taken(rt: HostRuntime) {
    let rows = [
        ("null", "null\n"),
        ("true", "true\n"),
        ("false", "false\n"),
        ("0", "0\n"),
        ("-1", "-1\n"),
        ("12", "12\n"),
        ("120.5", "120.5\n"),
        (" \t\r\n1 \t\r\n", "1\n"),
        ("\"\"", "\"\"\n"),
        ("\"a b\"", "\"a b\"\n"),
        ("\"é😀\"", "\"é😀\"\n"),
        (
            "\"\\\"\\\\\\/\\b\\f\\n\\r\\t\"",
            "\"\\\"\\\\/\\b\\f\\n\\r\\t\"\n",
        ),
        ("\"\\u00e9\\u20AC\\uFFFF\"", "\"é€￿\"\n"),
        ("\"\\ud83d\\ude00\"", "\"😀\"\n"),
        ("\"\\uD834\\uDd1E tail\"", "\"𝄞 tail\"\n"),
        ("\"\\u0000\\u001f\\u007f\"", "\"\\u0000\\u001f\u{7f}\"\n"),
        ("\"\u{7f}\u{80}\u{10FFFF}\"", "\"\u{7f}\u{80}\u{10ffff}\"\n"),
        ("[]", "[]\n"),
        (" [ ] ", "[]\n"),
        ("[1]", "[1]\n"),
        ("[1,2,[3,[4]],\"]\"]", "[1,2,[3,[4]],\"]\"]\n"),
        ("[null,true,false]", "[null,true,false]\n"),
        ("{}", "{}\n"),
        ("{ }", "{}\n"),
        ("{\"a\":1}", "{\"a\":1}\n"),
        (
            "{ \"a\" : [ { \"b\" : null } ] , \"c\" : {} }",
            "{\"a\":[{\"b\":null}],\"c\":{}}\n",
        ),
        ("{\"\":\"\"}", "{\"\":\"\"}\n"),
        ("{\"\\n\":\"\\u0022\"}", "{\"\\n\":\"\\\"\"}\n"),
        ("[[],{},[{}],{\"x\":[]}]", "[[],{},[{}],{\"x\":[]}]\n"),
        (
            "[true , false , null , \"\" , 0]",
            "[true,false,null,\"\",0]\n",
        ),
    ];
    assert_lines(&rt, in_line, &rows);
}

#[test]
fn a_number_keeps_its_text(rt: HostRuntime) {
    let rows = [
        ("-0", "-0\n"),
        ("1e5", "1e5\n"),
        ("1E-2", "1E-2\n"),
        ("1.500", "1.500\n"),
        ("0.0e+10", "0.0e+10\n"),
        (
            "123456789012345678901234567890",
            "123456789012345678901234567890\n",
        ),
        ("2.5e0", "2.5e0\n"),
        ("1e400", "1e400\n"),
    ];
    assert_lines(&rt, in_line, &rows);
}

#[test]
fn each_item_has_a_line_of_its_own_where_it_is_indented(rt: HostRuntime) {
    let rows = [
        ("[]", "[]\n"),
        ("{}", "{}\n"),
        ("1", "1\n"),
        ("[1,[],{}]", "[\n  1,\n  [],\n  {}\n]\n"),
        (
            "{\"a\":[1,{\"b\":\"c\"}],\"d\":true}",
            "{\n  \"a\": [\n    1,\n    {\n      \"b\": \"c\"\n    }\n  ],\n  \"d\": true\n}\n",
        ),
    ];
    assert_lines(&rt, indented, &rows);
}

#[test]
fn members_keep_their_order_and_all_of_one_name_stay(rt: HostRuntime) {
    let rows = [
        ("{\"b\":1,\"a\":2}", "{\"b\":1,\"a\":2}\n"),
        ("{\"a\":1,\"a\":2}", "{\"a\":1,\"a\":2}\n"),
    ];
    assert_lines(&rt, in_line, &rows);
}

/// Each text has one error, in this column of this line.
#[test]
fn texts_that_are_not_json_are_errors_at_their_place(rt: HostRuntime) -> Result<(), Fail> {
    let rows = [
        ("", "1:1"),
        (" ", "1:2"),
        ("nul", "1:4"),
        ("nulls", "1:5"),
        ("True", "1:1"),
        ("tru e", "1:4"),
        ("1 2", "1:3"),
        ("01", "1:2"),
        ("-", "1:2"),
        ("-01", "1:3"),
        ("+1", "1:1"),
        (".5", "1:1"),
        ("1.", "1:3"),
        ("1.e5", "1:3"),
        ("1e", "1:3"),
        ("1e+", "1:4"),
        ("1.5.5", "1:4"),
        ("1-2", "1:2"),
        ("0x10", "1:2"),
        ("--1", "1:2"),
        ("NaN", "1:1"),
        ("Infinity", "1:1"),
        ("\"", "1:2"),
        ("\"a", "1:3"),
        ("'a'", "1:1"),
        ("\"\\\"", "1:4"),
        ("\"\\x41\"", "1:3"),
        ("\"\\u12\"", "1:6"),
        ("\"\\u123g\"", "1:7"),
        ("\"\\U0041\"", "1:3"),
        ("\"\\ud800\"", "1:8"),
        ("\"\\ud800\\u0041\"", "1:10"),
        ("\"\\ud800\\ud800\"", "1:10"),
        ("\"\\udc00\"", "1:4"),
        ("\"\\udc00\\ud800\"", "1:4"),
        ("\"\\ud83d \\ude00\"", "1:8"),
        ("\"tab\there\"", "1:5"),
        ("\"line\nend\"", "1:6"),
        ("\"nul\u{0}\"", "1:5"),
        ("\"\u{1f}\"", "1:2"),
        ("[", "1:2"),
        ("]", "1:1"),
        ("[1", "1:3"),
        ("[1,", "1:4"),
        ("[1,]", "1:4"),
        ("[,1]", "1:2"),
        ("[1 2]", "1:4"),
        ("[1,,2]", "1:4"),
        ("[1}", "1:3"),
        ("{", "1:2"),
        ("}", "1:1"),
        ("{\"a\"}", "1:5"),
        ("{\"a\":}", "1:6"),
        ("{\"a\":1,}", "1:8"),
        ("{a:1}", "1:2"),
        ("{1:1}", "1:2"),
        ("{\"a\" 1}", "1:6"),
        ("{\"a\":1 \"b\":2}", "1:8"),
        ("\u{feff}1", "1:1"),
        ("1\u{a0}", "1:2"),
    ];
    for (text, place) in rows {
        let lines = in_line(rt.alloc(), text)?;
        let begun = format!(in rt.alloc(); "input:{place}: expected")?;
        assert!(rt;
            lines.as_str().starts_with(begun.as_str()),
            "of {text}: {lines}"
        );
    }
    Ok(())
}

#[test]
fn what_is_wrong_is_told_at_its_place(rt: HostRuntime) {
    let rows = [
        (
            "{\"a\": [1, 2,]}",
            "input:1:13: expected a string, a number, 'n', 't', 'f', '[' or '{', found ']'\n{\"a\": [1, 2,]}\n            ^\n",
        ),
        (
            "{\n  \"a\": 1\n  \"b\": 2\n}",
            "input:3:3: expected ',' or '}', found '\"'\n  \"b\": 2\n  ^\n",
        ),
        (
            "\"\\ud83d!\"",
            "input:1:8: expected '\\\\', found '!'\n\"\\ud83d!\"\n       ^\n",
        ),
        (
            "\"\\x\"",
            "input:1:3: expected an escape, found 'x'\n\"\\x\"\n  ^\n",
        ),
        ("[1.]", "input:1:4: expected digit, found ']'\n[1.]\n   ^\n"),
    ];
    assert_lines(&rt, in_line, &rows);
}

/// What is read around what is wrong, in one line, and then each error with its span.
fn recovered(alloc: Global, text: &str) -> Result<String, AllocError> {
    let Ok(parsed) = recover_json(alloc, text) else {
        return String::from_str(alloc, "refused\n");
    };
    let mut all = String::new(alloc);
    if let Some(json) = parsed.output() {
        let json = JsonText {
            json,
            indented: false,
        };
        all.push_str(format!(in alloc; "{json}\n")?.as_str())?;
    }
    for error in parsed.errors.iter() {
        let span = error.span();
        all.push_str(format!(in alloc; "{}..{} {error}\n", span.start, span.end)?.as_str())?;
    }
    Ok(all)
}

#[test]
fn each_item_and_each_member_that_is_wrong_is_told(rt: HostRuntime) {
    let rows = [
        ("[1, {\"a\": [null]}]", "[1,{\"a\":[null]}]\n"),
        (
            "[1, nul, 3, , tru]",
            "[1,null,3,null,null]\n\
             7..8 expected 'l', found ','\n\
             12..13 expected a string, a number, 'n', 't', 'f', '[' or '{', found ','\n\
             17..18 expected 'e', found ']'\n",
        ),
        (
            "[1 2, 01, 4]",
            "[null,null,4]\n\
             3..4 expected ',' or ']', found '2'\n\
             7..8 expected '.', 'e', 'E' or ',' or ']', found '1'\n",
        ),
        (
            "[1, {\"a\" 1, \"b\": 2}, [2 3], {b: 4}, 5]",
            "[1,{\"b\":2},[null],{},5]\n\
             9..10 expected ':', found '1'\n\
             24..25 expected ',' or ']', found '3'\n\
             29..30 expected a string, found 'b'\n",
        ),
        (
            "{\"a\": tru, \"b\": \"\\q\", \"c\": 2 \"d\": 3, \"e\": 4}",
            "{\"e\":4}\n\
             9..10 expected 'e', found ','\n\
             18..19 expected an escape, found 'q'\n\
             29..30 expected ',' or '}', found '\"'\n",
        ),
        (
            "[1, nul, 3 4, {\"a\": 5, b: 6}]",
            "[1,null,null,{\"a\":5}]\n\
             7..8 expected 'l', found ','\n\
             11..12 expected ',' or ']', found '4'\n\
             23..24 expected a string, found 'b'\n",
        ),
        // What is wrong within an item that is wrong is told no more.
        (
            "[[nul, 1] 2, [[3, [nul] 6], 4], 5]",
            "[null,[[3,null],4],5]\n\
             10..11 expected ',' or ']', found '2'\n\
             24..25 expected ',' or ']', found '6'\n",
        ),
        // A bracket or a quote in a string is none.
        (
            "{\"a\": [1,], \"b\": [\"], [\", 2 \"\\\"]\"]}",
            "{\"b\":[\"], [\",null]}\n\
             9..10 expected a string, a number, 'n', 't', 'f', '[' or '{', found ']'\n\
             28..29 expected ',' or ']', found '\"'\n",
        ),
        // Where a bracket isn't closed, there is no value.
        (
            "[nul, 2",
            "7..7 expected digit, '.', 'e', 'E', ',' or ']', found end of input\n",
        ),
        (
            "[1, nul] 2",
            "7..8 expected 'l', found ']'\n9..10 expected end of input, found '2'\n",
        ),
        ("nul", "3..3 expected 'l', found end of input\n"),
    ];
    assert_lines(&rt, recovered, &rows);
}

/// Where a list or an object is part of a wrong item, a bracket in a string there is one as well.
#[test]
fn strings_within_the_brackets_of_a_wrong_item_are_not_known(rt: HostRuntime) -> Result<(), Fail> {
    let alloc = rt.alloc();
    for (text, has_output) in [
        ("[[\"a\"] 1, 2]", true),
        ("[\"]\" 1, 2]", true),
        ("[[\"[]\"] 1, 2]", true),
        ("[[\"]\"] 1, 2]", false),
        ("[{\"a\": \"}\"} 1, 2]", false),
        ("[[\"[\"] 1, 2]", false),
    ] {
        let parsed = recover_json(alloc, text)?;
        assert!(rt; parsed.has_errors() && parsed.has_output() == has_output, "{text}");
    }
    Ok(())
}

/// Lists and objects count alike.
#[test]
fn what_is_too_deep_is_refused_and_nothing_crashes(rt: HostRuntime) -> Result<(), Fail> {
    let alloc = rt.alloc();
    for (opening, inside, closing) in [("[", "", "]"), ("{\"a\":", "1", "}")] {
        let text = nested(alloc, 100, opening, inside, closing)?;
        let lines = in_line(alloc, text.as_str())?;
        assert_eq!(rt; lines.as_str().trim_end(), text.as_str());
        for depth in [101, 100_000] {
            let text = nested(alloc, depth, opening, inside, closing)?;
            let lines = in_line(alloc, text.as_str())?;
            assert_eq!(rt; lines.as_str(), "refused: TooDeep");
        }
    }
    Ok(())
}

#[test]
fn as_many_levels_are_read_as_the_caller_allows(rt: HostRuntime) -> Result<(), Fail> {
    let alloc = rt.alloc();
    for levels in [0, 1, 1_000] {
        for (opening, inside, closing) in [("[", "", "]"), ("{\"a\":", "1", "}")] {
            let text = nested(alloc, levels, opening, if levels == 0 { "1" } else { inside }, closing)?;
            let parsed = read_json_within(alloc, text.as_str(), levels);
            assert!(rt; parsed.is_ok_and(|parsed| parsed.has_output()), "{levels} of {opening}");
            let text = nested(alloc, levels + 1, opening, inside, closing)?;
            let parsed = read_json_within(alloc, text.as_str(), levels);
            assert!(rt; matches!(parsed, Err(Stop::TooDeep)), "{levels} of {opening}");
        }
    }
    Ok(())
}
