//! JSON, held against the toolchain's `serde_json`: which texts are JSON, and what they are. So are a proved grammar of JSON, and the
//! function whose contract says exactly which texts it accepts.
use exact::json::parse_json;
use exact::json_value::Json as ExactJson;
use json_tree::{Json, JsonText, read_json};
use serde_json::Value;
use std::alloc::{AllocError, AllocGlobal, Global};
use std::process::Abort;

/// Texts that are JSON. Each is tried too with a character that is left out, or another, and with its end cut off.
const TAKEN: [&str; 26] = [
    "null",
    " true ",
    "\t[\r\nfalse ] ",
    "0",
    "-0",
    "-12.50",
    "1e5",
    "2.5E-3",
    "7e+0",
    "18446744073709551615",
    "123456789012345678901234567890",
    "\"\"",
    "\"a b\"",
    "\"é€😀\u{7f}\u{10FFFF}\"",
    "\"\\\"\\\\\\/\\b\\f\\n\\r\\t\"",
    "\"\\u00e9\\u20AC\\uFFFF\\u0000\\u001f\"",
    "\"\\ud83d\\ude00\"",
    "\"\\uD834\\uDd1E tail\"",
    "\"\\ud7ff\\ue000\"",
    "[]",
    "[ ]",
    "[1, [2, [3]], \"]\", {}]",
    "{}",
    "{\"b\": 1, \"c\": {\"d\": [true, null]}}",
    "{ \"\\n\" : \"\\u0022\" , \"\" : \"\" }",
    "[[[[[[[[[[{\"deep\": 1}]]]]]]]]]]",
];

/// Texts that are none.
const LEFT: [&str; 24] = [
    "",
    "01",
    "-01",
    "+1",
    ".5",
    "0x10",
    "NaN",
    "Infinity",
    "True",
    "'a'",
    "\"\\x41\"",
    "\"\\U0041\"",
    "\"\\ud800\"",
    "\"\\ud800\\u0041\"",
    "\"\\ud800\\ud800\"",
    "\"\\udc00\\ud800\"",
    "\"\\ud83d \\ude00\"",
    "\"tab\there\"",
    "\"line\nend\"",
    "{a: 1}",
    "{1: 1}",
    "[1, ]",
    "\u{feff}1",
    "1\u{a0}",
];

/// Whether members are those of a map. No two of them have one name.
fn has_same_members(
    alloc: Global,
    members: &[(String, Json)],
    map: &serde_json::Map<String, Value>,
) -> bool {
    for (name, value) in members {
        match map.get(name.as_str()) {
            Some(other) if is_same(alloc, value, other) => {}
            _ => return false,
        }
    }
    members.len() == map.len()
}

/// Whether a value is what `serde_json` reads. A number is, where its text reads as the same number.
fn is_same(alloc: Global, ours: &Json, theirs: &Value) -> bool {
    match (ours, theirs) {
        (Json::Null, Value::Null) => true,
        (Json::Bool(one), Value::Bool(other)) => *one == *other,
        (Json::Number(text), Value::Number(_)) => match Value::from_str(alloc, text.as_str()) {
            Ok(number) => number == *theirs,
            Err(_) => false,
        },
        (Json::String(one), Value::String(other)) => one.as_str() == other.as_str(),
        (Json::Array(items), Value::Array(others)) => {
            for (item, other) in items.iter().zip(others.iter()) {
                if !is_same(alloc, item, other) {
                    return false;
                }
            }
            items.len() == others.len()
        }
        (Json::Object(members), Value::Object(map)) => {
            has_same_members(alloc, members.as_slice(), map)
        }
        _ => false,
    }
}

/// The same of what `parse_json` reads. An object of it may have a name twice, of which `serde_json` keeps the last value.
fn is_read(alloc: Global, ours: &ExactJson, theirs: &Value) -> bool {
    match (ours, theirs) {
        (ExactJson::Null, Value::Null) => true,
        (ExactJson::Bool(one), Value::Bool(other)) => *one == *other,
        (ExactJson::Number(text), Value::Number(_)) => {
            match Value::from_str(alloc, text.as_str()) {
                Ok(number) => number == *theirs,
                Err(_) => false,
            }
        }
        (ExactJson::String(one), Value::String(other)) => one.as_str() == other.as_str(),
        (ExactJson::Array(items), Value::Array(others)) => {
            for (item, other) in items.iter().zip(others.iter()) {
                if !is_read(alloc, item, other) {
                    return false;
                }
            }
            items.len() == others.len()
        }
        (ExactJson::Object(members), Value::Object(map)) => {
            for (at, member) in members.iter().enumerate() {
                let (name, value) = member;
                let mut is_last = true;
                for later in members.iter().skip(at.saturating_add(1)) {
                    if later.0.as_str() == name.as_str() {
                        is_last = false;
                    }
                }
                match map.get(name.as_str()) {
                    Some(other) if !is_last || is_read(alloc, value, other) => {}
                    _ => return false,
                }
            }
            members.len() >= map.len()
        }
        _ => false,
    }
}

/// Asserts the same of `parse_json`: that it reads a text where `serde_json` takes it, as that value.
fn assert_read<R: Abort + AllocGlobal>(rt: &R, text: &str, theirs: Option<&Value>) {
    let limit = text.len().saturating_add(1);
    let parsed = parse_json(rt.alloc(), text, limit).expect(rt, "refused");
    match (parsed.output(), theirs) {
        (Some(json), Some(theirs)) => assert!(rt; is_read(rt.alloc(), json, theirs), "of {text}"),
        (None, None) => {}
        _ => assert!(rt; false, "of {text}"),
    }
}

/// Asserts that a text is JSON where `serde_json` takes it, and that it is the same value, also when it is written and read again.
/// A number that an `f64` doesn't hold is an error of `serde_json` alone, so of a text with one nothing is asserted. Says whether
/// both take the text.
fn assert_same<R: Abort + AllocGlobal>(rt: &R, text: &str) -> bool {
    let parsed = read_json(rt.alloc(), text).expect(rt, "refused");
    let theirs = match Value::from_str(rt.alloc(), text) {
        Ok(theirs) => theirs,
        Err(error) => {
            let error = format!(in rt.alloc(); "{error}").expect(rt, "out of memory");
            let is_out_of_range = error.as_str().starts_with("number out of range");
            let is_none = !parsed.has_output() && parsed.has_errors();
            assert!(rt; is_none || is_out_of_range, "of {text}: {error}");
            if !is_out_of_range {
                assert_read(rt, text, None);
            }
            return false;
        }
    };
    assert!(rt; parsed.has_output() && !parsed.has_errors(), "of {text}");
    assert_read(rt, text, Some(&theirs));
    if let Some(json) = parsed.output() {
        assert!(rt; is_same(rt.alloc(), json, &theirs), "of {text}");
        for indented in [false, true] {
            let json = JsonText { json, indented };
            let written = format!(in rt.alloc(); "{json}").expect(rt, "out of memory");
            let read = Value::from_str(rt.alloc(), written.as_str()).expect(rt, "not JSON");
            assert!(rt; read == theirs, "of {text}: {written}");
        }
    }
    true
}

/// A text without what stands between two offsets, and with a character in its place.
fn changed(
    alloc: Global,
    text: &str,
    start: usize,
    end: usize,
    put: &str,
) -> Result<String, AllocError> {
    let mut changed = String::new(alloc);
    changed.push_str(text.get(..start).unwrap_or(""))?;
    changed.push_str(put)?;
    changed.push_str(text.get(end..).unwrap_or(""))?;
    Ok(changed)
}

#[test]
fn texts_are_json_where_serde_json_takes_them(rt: HostRuntime) {
    for text in TAKEN {
        assert!(rt; assert_same(&rt, text), "of {text}");
    }
    for text in LEFT {
        assert!(rt; !assert_same(&rt, text), "of {text}");
    }
}

#[test]
fn a_text_without_its_end_or_a_character_is_json_where_serde_json_takes_it(rt: HostRuntime) {
    for text in TAKEN {
        for (start, character) in text.char_indices() {
            let end = start.saturating_add(character.len_utf8());
            let begun = changed(rt.alloc(), text, start, text.len(), "").expect(&rt, "memory");
            assert_same(&rt, begun.as_str());
            let without = changed(rt.alloc(), text, start, end, "").expect(&rt, "memory");
            assert_same(&rt, without.as_str());
        }
    }
}

#[test]
fn a_text_with_another_character_is_json_where_serde_json_takes_it(rt: HostRuntime) {
    for text in TAKEN {
        for (start, character) in text.char_indices() {
            let end = start.saturating_add(character.len_utf8());
            for other in ["\"", "\\", "0", ","] {
                let with = changed(rt.alloc(), text, start, end, other).expect(&rt, "memory");
                assert_same(&rt, with.as_str());
            }
        }
    }
}

/// Written in one line and indented, a value without fractions whose names are in order is as `serde_json` writes it.
#[test]
fn texts_are_written_as_serde_json_writes_them(rt: HostRuntime) {
    let rows = [
        "null",
        "[]",
        "{}",
        "[1,[],{},[true,false]]",
        "{\"a\":[1,{\"b\":\"c\"}],\"d\":{\"e\":-5,\"f\":[[]]}}",
        "\"\\\"\\\\/\\b\\f\\n\\r\\t\\u0000\\u001f\u{7f}é😀\"",
        "{\"\\u0001\\n\":\"\"}",
    ];
    for text in rows {
        let parsed = read_json(rt.alloc(), text).expect(&rt, "refused");
        let json = parsed.output().expect(&rt, "not JSON");
        let theirs = Value::from_str(rt.alloc(), text).expect(&rt, "not JSON");
        let line = JsonText { json, indented: false };
        let line = format!(in rt.alloc(); "{line}").expect(&rt, "memory");
        let wanted = theirs.to_string(rt.alloc()).expect(&rt, "memory");
        assert_eq!(rt; line.as_str(), wanted.as_str());
        let lines = JsonText { json, indented: true };
        let lines = format!(in rt.alloc(); "{lines}").expect(&rt, "memory");
        let wanted = theirs.to_string_pretty(rt.alloc()).expect(&rt, "memory");
        assert_eq!(rt; lines.as_str(), wanted.as_str());
    }
}
