//! JSON that `print_json` writes, held against what the toolchain's `serde_json` writes.
use exact::json_value::Json;
use exact::print_json::print_json;
use serde_json::Value;
use std::alloc::{AllocError, Global};
use std::test::Fail;

/// Texts that are JSON, whose names are in order.
const TAKEN: [&str; 47] = [
    "null",
    "true",
    "false",
    "0",
    "4294967295",
    "18446744073709551615",
    "[-1, -0.5, 2.5e-3]",
    "-123456789",
    "\"\"",
    "\"asd \"",
    "[]",
    "{}",
    "[[]   ]",
    "[\"\"]",
    "[null, 1, \"1\", {}]",
    "[1,null,null,null,2]",
    " [1]",
    "[2] ",
    "\t\r\n{\"a\" :\r\n[ ] }\n",
    "{\"a\":[]}",
    "{\"\":0}",
    "{\"asd\":\"sdf\", \"dfg\":\"fgh\"}",
    "{\"foo\\u0000bar\": 42}",
    "{ \"min\": 1, \"mix\": 1000000000 }",
    "{\"title\":\"\\u041f\\u043e\\u043b\\u0442\\u043e\\u0440\\u0430\"}",
    "{\n\"a\": \"b\"\n}",
    "[\"\\u0060\\u012a\\u12AB\"]",
    "[\"\\uD801\\udc37\"]",
    "[\"\\ud83d\\ude39\\ud83d\\udc8d\"]",
    "[\"\\\"\\\\\\/\\b\\f\\n\\r\\t\"]",
    "[\"\\\\u0000\"]",
    "[\"\\\"\"]",
    "[\"a/*b*/c/*d//e\"]",
    "[\"\\\\a\"]",
    "[\"\\\\n\"]",
    "[\"\\u0012\"]",
    "[\"\\uFFFF\"]",
    "[ \"asd\"]",
    "[\"\\uDBFF\\uDFFF\"]",
    "[\"new\\u00A0line\"]",
    "[\"\u{10ffff}\u{ffff}\\u0000\"]",
    "[\"\\u002c\"]",
    "[\"\u{2028}\u{2029}\u{7f}\"]",
    "\" \"",
    "[\"\\u0001\\u0008\\u000b\\u000e\\u001f\\u0020\"]",
    "[\"\\u0022\\u005C\\u002f\"]",
    "{\"a\":{\"b\":{\"c\":[true,[false,[null]]]}}}",
];

/// A value of `serde_json` as ours.
fn ours(alloc: Global, theirs: &Value) -> Result<Json, AllocError> {
    match theirs {
        Value::Null => Ok(Json::Null),
        Value::Bool(truth) => Ok(Json::Bool(*truth)),
        Value::Number(_) => Ok(Json::Number(theirs.to_string(alloc)?)),
        Value::String(text) => Ok(Json::String(text.clone()?)),
        Value::Array(values) => {
            let mut elements = Vec::new(alloc);
            for value in values.iter() {
                elements.push(ours(alloc, value)?)?;
            }
            Ok(Json::Array(elements))
        }
        Value::Object(map) => {
            let mut members = Vec::new(alloc);
            for (name, value) in map.iter() {
                members.push((name.clone()?, ours(alloc, value)?))?;
            }
            Ok(Json::Object(members))
        }
    }
}

/// A string that holds this text.
fn owned(alloc: Global, text: &str) -> Result<String, AllocError> {
    format!(in alloc; "{text}")
}

#[test]
fn values_are_printed_as_serde_json_prints_them(rt: HostRuntime) -> Result<(), Fail> {
    let alloc = rt.alloc();
    for text in TAKEN {
        let theirs = Value::from_str(alloc, text).expect(&rt, "not JSON");
        let value = ours(alloc, &theirs)?;
        let printed = print_json(alloc, &value)?;
        let wanted = theirs.to_string(alloc)?;
        assert_eq!(rt; printed.as_str(), wanted.as_str(), "of {text}");
    }
    Ok(())
}

#[test]
fn each_character_is_printed_as_serde_json_prints_it(rt: HostRuntime) -> Result<(), Fail> {
    let alloc = rt.alloc();
    for number in 0..0x180_u32 {
        if let Some(character) = std::char::from_u32(number) {
            let text = format!(in alloc; "a{character}b")?;
            let wanted = Value::String(text.clone()?).to_string(alloc)?;
            let printed = print_json(alloc, &Json::String(text))?;
            assert_eq!(rt; printed.as_str(), wanted.as_str(), "of U+{number:04x}");
        }
    }
    Ok(())
}

#[test]
fn members_are_printed_in_their_order_and_all_of_one_name(rt: HostRuntime) -> Result<(), Fail> {
    let alloc = rt.alloc();
    let mut members = Vec::new(alloc);
    members.push((owned(alloc, "b")?, Json::Number(owned(alloc, "1")?)))?;
    members.push((owned(alloc, "a")?, Json::Null))?;
    members.push((owned(alloc, "b")?, Json::Array(Vec::new(alloc))))?;
    let printed = print_json(alloc, &Json::Object(members))?;
    assert_eq!(rt; printed.as_str(), "{\"b\":1,\"a\":null,\"b\":[]}");
    Ok(())
}

#[test]
fn a_number_is_printed_as_it_stands(rt: HostRuntime) -> Result<(), Fail> {
    let alloc = rt.alloc();
    for text in ["0", "-0", "-12.50E+03", "123456789012345678901234567890", "0.1e00000000000000000000000001"] {
        let printed = print_json(alloc, &Json::Number(owned(alloc, text)?))?;
        assert_eq!(rt; printed.as_str(), text);
    }
    Ok(())
}
