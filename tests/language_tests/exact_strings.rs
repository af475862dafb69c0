//! Strings of JSON by a function whose contract says exactly which texts it accepts.
use exact::json_string::parse_string;
use std::process::Abort;

#[test]
fn strings_are_read_with_their_escapes(rt: HostRuntime) {
    let rows = [
        (r#""""#, ""),
        (r#""a b""#, "a b"),
        ("\"\u{7f}\u{e9}\u{20ac}\u{1f600}\u{10ffff}\"", "\u{7f}\u{e9}\u{20ac}\u{1f600}\u{10ffff}"),
        (r#""\"\\\/\b\f\n\r\t""#, "\"\\/\u{8}\u{c}\n\r\t"),
        (r#""\u0041\u00e9\u00E9\u20aC""#, "A\u{e9}\u{e9}\u{20ac}"),
        (r#""\u0000\u0022\u005c\uFFFF""#, "\0\"\\\u{ffff}"),
        (r#""\uD83D\uDE00\ud800\udc00\uDBFF\uDFFF""#, "\u{1f600}\u{10000}\u{10ffff}"),
        (r#""\uD7FF\uE000""#, "\u{d7ff}\u{e000}"),
    ];
    for (text, string) in rows {
        let parsed = parse_string(rt.alloc(), text).expect(&rt, "refused");
        let read = parsed.into_result().expect(&rt, "no string");
        assert_eq!(rt; read.as_str(), string, "{text}");
    }
}

#[test]
fn other_texts_are_none(rt: HostRuntime) {
    let texts = [
        "", "a", " \"\"", "\"\" ", "\"", "\"\"\"", "\"a", "a\"", "\"\n\"", "\"\t\"", "\"\0\"", "\"\u{1f}\"", r#""\""#, r#""\a""#, r#""\'""#, r#""\B""#, r#""\0""#,
        r#""\u""#, r#""\u004""#, r#""\u004g""#, r#""\U0041""#, r#""\u+041""#, r#""\u 041""#, r#""\uD800""#, r#""\uDC00""#, r#""\uDBFFx""#, r#""\uD83D\n""#,
        r#""\uD83D\u0041""#, r#""\uDE00\uD83D""#, r#""\uD83D\uD83D""#, r#""\uD83D\uDE0""#, r#"'a'"#,
    ];
    for text in texts {
        let parsed = parse_string(rt.alloc(), text).expect(&rt, "refused");
        assert!(rt; parsed.has_errors() && !parsed.has_output(), "{text}");
    }
}
