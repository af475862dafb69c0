//! JSON by a function whose contract says exactly which texts it accepts.
use chumsky::Stop;
use exact::json::parse_json;
use exact::json_value::Json;
use std::alloc::{AllocError, Global};
use std::test::Fail;

/// How a value is written without blanks, with the characters of a string as they are.
fn written(alloc: Global, value: &Json) -> Result<String, AllocError> {
    match value {
        Json::Null => format!(in alloc; "null"),
        Json::Bool(truth) => format!(in alloc; "{truth}"),
        Json::Number(number) => format!(in alloc; "{number}"),
        Json::String(string) => format!(in alloc; "<{string}>"),
        Json::Array(values) => {
            let mut text = String::new(alloc);
            for value in values {
                text.push_str(if text.is_empty() { "[" } else { "," })?;
                text.push_str(written(alloc, value)?.as_str())?;
            }
            text.push_str(if text.is_empty() { "[]" } else { "]" })?;
            Ok(text)
        }
        Json::Object(members) => {
            let mut text = String::new(alloc);
            for member in members {
                let (name, value) = member;
                text.push_str(if text.is_empty() { "{" } else { "," })?;
                let value = written(alloc, value)?;
                text.push_str(format!(in alloc; "<{name}>:{value}")?.as_str())?;
            }
            text.push_str(if text.is_empty() { "{}" } else { "}" })?;
            Ok(text)
        }
    }
}

#[test]
fn values_are_read_with_blanks_around_them(rt: HostRuntime) -> Result<(), Fail> {
    let alloc = rt.alloc();
    let rows = [
        ("null", "null"),
        ("true", "true"),
        ("false", "false"),
        ("4294967296", "4294967296"),
        ("-0", "-0"),
        ("123e65", "123e65"),
        ("0e+1", "0e+1"),
        ("-1.50E-03", "-1.50E-03"),
        ("123456789012345678901234567890.125", "123456789012345678901234567890.125"),
        ("[]", "[]"),
        (" [ ] ", "[]"),
        ("{}", "{}"),
        ("\n{\t}\r", "{}"),
        ("\t\r\n 7 \n", "7"),
        ("[null,true,false,0]", "[null,true,false,0]"),
        (" [ null , [ 1 , 20 ] ,\r\n\t[ [ ] ] ] ", "[null,[1,20],[[]]]"),
        ("[1\n,2]", "[1,2]"),
        ("[[]   ]", "[[]]"),
        ("[1,null,null,null,2]", "[1,null,null,null,2]"),
        ("\"\"", "<>"),
        (" \"a b\" ", "<a b>"),
        ("{\"a\":1}", "{<a>:1}"),
        ("{ \"a\" : [ { \"b\" : null } ] , \"c\" : { } }", "{<a>:[{<b>:null}],<c>:{}}"),
        ("{\"\":0,\" \":\"\"}", "{<>:0,< >:<>}"),
        ("{\"foo\\u0041bar\": 42}", "{<fooAbar>:42}"),
        ("{\"a\":-1.5e3,\"b\":\"[]\",\"c\":{\"d\":{}}}", "{<a>:-1.5e3,<b>:<[]>,<c>:{<d>:{}}}"),
    ];
    for (text, as_written) in rows {
        let parsed = parse_json(alloc, text, text.len() + 1)?;
        let value = parsed.into_result().ok();
        assert!(rt; value.is_some(), "{text}");
        if let Some(value) = value {
            assert_eq!(rt; written(alloc, &value)?.as_str(), as_written, "{text}");
        }
    }
    Ok(())
}

/// Blanks stand before a colon too, a name may be there twice, and neither order nor the last is lost.
#[test]
fn members_are_kept_in_their_order(rt: HostRuntime) -> Result<(), Fail> {
    let alloc = rt.alloc();
    let rows = [
        ("{\"a\" :1}", "{<a>:1}"),
        ("{\"a\"\r\n\t :\n1 }", "{<a>:1}"),
        ("{\"a\":1,\"a\":1}", "{<a>:1,<a>:1}"),
        ("{\"b\":1,\"a\":2,\"b\":3}", "{<b>:1,<a>:2,<b>:3}"),
        ("[1,2,3]", "[1,2,3]"),
        ("{\"z\":[1,2],\"y\":{\"x\":1,\"w\":2}}", "{<z>:[1,2],<y>:{<x>:1,<w>:2}}"),
    ];
    for (text, as_written) in rows {
        let parsed = parse_json(alloc, text, text.len() + 1)?;
        let value = parsed.into_result().ok();
        assert!(rt; value.is_some(), "{text}");
        if let Some(value) = value {
            assert_eq!(rt; written(alloc, &value)?.as_str(), as_written, "{text}");
        }
    }
    Ok(())
}

#[test]
fn strings_are_read_with_their_escapes(rt: HostRuntime) -> Result<(), Fail> {
    let alloc = rt.alloc();
    let rows = [
        (r#""\"\\\/\b\f\n\r\t""#, "<\"\\/\u{8}\u{c}\n\r\t>"),
        (r#"["\u0060\u012a\u12AB"]"#, "[<\u{60}\u{12a}\u{12ab}>]"),
        (r#"["\uD801\udc37"]"#, "[<\u{10437}>]"),
        (r#"["\ud83d\ude39\ud83d\udc8d"]"#, "[<\u{1f639}\u{1f48d}>]"),
        (r#"{"\uDBFF\uDFFF":"\uD7FF\uE000"}"#, "{<\u{10ffff}>:<\u{d7ff}\u{e000}>}"),
        ("[\"\u{7f}\u{2028}\u{10ffff}\"]", "[<\u{7f}\u{2028}\u{10ffff}>]"),
    ];
    for (text, as_written) in rows {
        let parsed = parse_json(alloc, text, text.len() + 1)?;
        let value = parsed.into_result().ok();
        assert!(rt; value.is_some(), "{text}");
        if let Some(value) = value {
            assert_eq!(rt; written(alloc, &value)?.as_str(), as_written, "{text}");
        }
    }
    Ok(())
}

/// Those of JSONTestSuite that are texts, and more.
#[test]
fn other_texts_are_no_values(rt: HostRuntime) -> Result<(), Fail> {
    let alloc = rt.alloc();
    let texts = [
        "", " ", "nul", "nulll", "Null", "truE", "1 2", "[1 2]", "[", "]", "[[]", "[]]", "[1,]", "[,1]", "[,]", "[1,,2]", "[1,", "1,", "[1]x",
        "[\u{c}]", "\u{a0}1", "\u{feff}1", "[\u{2028}]", "1\u{b}", "[１]", "['1']", "[nul]", "[true false]", "[1 true]", "[a\u{e5}]", "[\"\": 1]",
        "[\"\"],", "[\"\",]", "[\"x\"", "[x", "[3[4]]", "[   , \"\"]", "[\"a\",\n4\n,1,", "[\"\u{b}a\"\\f]", "[*]", "[1,\n1\n,1", "[{}", "[\"x\", truth]",
        "[1]]", "[\"a\"", "[][]", "<.>", "[<null>]", "[1]]", "aå", "[True]", "1]", "{\"x\": true,", "[]ä", "\"", "*", "{\"a\":\"b\"}#{}", "[⁠]",
        "[\\u000A\"\"]", "[1", "[fals", "[tru", "\"a", "'a'", "a", "\u{0}", "[\u{0}]",
    ];
    for text in texts {
        let parsed = parse_json(alloc, text, 1_000)?;
        assert!(rt; parsed.has_errors() && !parsed.has_output(), "{text}");
    }
    Ok(())
}

#[test]
fn other_texts_are_no_numbers(rt: HostRuntime) -> Result<(), Fail> {
    let alloc = rt.alloc();
    let texts = [
        "01", "-", "-01", "+1", "++1234", "-1.0.", "-2.", "-NaN", ".-1", ".2e-3", "0.1.2", "0.3e+", "0.3e", "0.e1", "0E+", "0E", "0e+", "0e", "1.0e+", "1.0e-",
        "1.0e", "1 000", "1eE2", "2.e+3", "2.e-3", "2.e3", "9.e+", "Inf", "NaN", "\u{ff11}", "1+2", "0x1", "0x42", "Infinity", "0e+-1", "-123.123foo", "-Infinity",
        "-foo", "- 1", "-012", "-.123", "-1x", "1ea", "1e\u{e5}", "1.", ".123", "1.2a-3", "1.8011670033376514H-308", "012", "1_0", "0.0.0", "1e1.5", "0e", "--1",
    ];
    for text in texts {
        let parsed = parse_json(alloc, text, 1_000)?;
        assert!(rt; parsed.has_errors() && !parsed.has_output(), "{text}");
        let listed = format!(in alloc; "[{text}]")?;
        let parsed = parse_json(alloc, listed.as_str(), 1_000)?;
        assert!(rt; parsed.has_errors() && !parsed.has_output(), "{listed}");
    }
    Ok(())
}

#[test]
fn other_texts_are_no_objects(rt: HostRuntime) -> Result<(), Fail> {
    let alloc = rt.alloc();
    let texts = [
        "{", "}", "{]", "[}", "{\"a\"}", "{\"a\":}", "{\"a\":1,}", "{,\"a\":1}", "{\"a\":1,,\"b\":2}", "{\"a\" 1}", "{\"a\"::1}", "{\"a\":1 \"b\":2}", "{a:1}",
        "{1:1}", "{'a':1}", "{null:1}", "{\"a\":1", "{\"a\":1]", "{\"a\",1}", "{\"x\", null}", "{\"x\"::\"b\"}", "{\"a\":\"a\" 123}", "{key: 'value'}",
        "{\"id\":0,,,,,}", "{\"a\":\"b\"}/**/", "{\"a\":\"b\"}//", "{\"a\":\"b\",,\"c\":\"d\"}", "{9999E9999:1}", "{[]:1}", "{{}:1}", "{\"a\": true} \"x\"",
        "{\"\":", "{\"a\"", "{ \"foo\" : \"bar\", \"a\" }", "{\"a\":1};", "{\"a\"=1}", "{\"a\":1:2}", "{\"a\u{c}\":1}", "{\"asd\":\"asd\"", "[{\"a\":1,}]",
    ];
    for text in texts {
        let parsed = parse_json(alloc, text, 1_000)?;
        assert!(rt; parsed.has_errors() && !parsed.has_output(), "{text}");
    }
    Ok(())
}

#[test]
fn other_texts_are_no_strings(rt: HostRuntime) -> Result<(), Fail> {
    let alloc = rt.alloc();
    let texts = [
        r#""\uD800""#, r#""\uD800\u""#, r#""\uD800\u1""#, r#""\uD800\u1x""#, r#""\uDC00""#, r#""\uDE00\uD83D""#, r#""\uD83D\uD83D""#, r#""\uD83D \uDE00""#,
        r#""\uD83Dx""#, r#""\u00A""#, r#""\u00""#, r#""\u0g00""#, r#""\x00""#, r#""\a""#, r#""\'""#, r#""\ ""#, r#""\""#, r#""\\\""#, r#""\1""#, r#""\U0041""#,
        "\"\t\"", "\"\n\"", "\"\0\"", "\"\u{1f}\"", "\"\\\u{1f300}\"", "\"\\\t\"", "\"\\u{e5}\"", "\u{e9}", "abc", "\"\"\"", "\"a\"x", "\\n", "[\"\\\"]",
    ];
    for text in texts {
        let parsed = parse_json(alloc, text, 1_000)?;
        assert!(rt; parsed.has_errors() && !parsed.has_output(), "{text}");
        let member = format!(in alloc; "{{{text}:1}}")?;
        let parsed = parse_json(alloc, member.as_str(), 1_000)?;
        assert!(rt; parsed.has_errors() && !parsed.has_output(), "{member}");
    }
    Ok(())
}

#[test]
fn a_text_that_is_deeper_than_the_limit_is_refused(rt: HostRuntime) -> Result<(), Fail> {
    let alloc = rt.alloc();
    let rows = [("7", 1), ("[]", 2), ("{}", 1), ("[ [ ] ]", 3), ("[7,[7]]", 3), ("{\"a\":7}", 2), ("{\"a\":{}}", 2)];
    for (text, calls) in rows {
        let parsed = parse_json(alloc, text, calls)?;
        assert!(rt; parsed.into_result().is_ok(), "{text}");
        let refused = matches!(parse_json(alloc, text, calls - 1), Err(Stop::TooDeep));
        assert!(rt; refused, "{text}");
    }
    Ok(())
}

/// The same number of calls is asked of a text with one item and of one with ten thousand.
#[test]
fn a_long_text_is_read_under_as_many_calls_as_its_levels_ask(rt: HostRuntime) -> Result<(), Fail> {
    let alloc = rt.alloc();
    let rows = [
        ("[", "7", "]", 2), ("[", "[]", "]", 3), ("[", " {}", " ]", 2), ("{", "\"a\":7", "}", 2), ("{", "\"a\" : [7]", "}", 3), ("{", "\"a\":{}", "}", 2),
    ];
    for (opening, item, closing, calls) in rows {
        let mut text = String::from_str(alloc, opening)?;
        for i in 0..10_000 {
            text.push_str(if i == 0 { "" } else { "," })?;
            text.push_str(item)?;
        }
        text.push_str(closing)?;
        let parsed = parse_json(alloc, text.as_str(), calls)?;
        assert!(rt; parsed.into_result().is_ok(), "{item}");
        let refused = matches!(parse_json(alloc, text.as_str(), calls - 1), Err(Stop::TooDeep));
        assert!(rt; refused, "{item}");
    }
    Ok(())
}
