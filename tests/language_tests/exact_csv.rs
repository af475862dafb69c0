//! Comma-separated values by a function whose contract says exactly which texts it accepts.
use exact::csv::parse_csv;
use std::alloc::{AllocError, Global};
use std::process::Abort;

/// The fields, each in brackets, with a bar before each record.
fn shown(alloc: Global, records: &[Vec<String>]) -> Result<String, AllocError> {
    let mut text = String::new(alloc);
    for record in records {
        text.push('|')?;
        for field in record {
            text.push('[')?;
            text.push_str(field.as_str())?;
            text.push(']')?;
        }
    }
    Ok(text)
}

#[test]
fn records_are_read_field_by_field(rt: HostRuntime) {
    let rows = [
        ("aaa,bbb,ccc\r\nzzz,yyy,xxx\r\n", "|[aaa][bbb][ccc]|[zzz][yyy][xxx]"),
        ("aaa,bbb,ccc\r\nzzz,yyy,xxx", "|[aaa][bbb][ccc]|[zzz][yyy][xxx]"),
        ("\"aaa\",\"bbb\",\"ccc\"\r\nzzz,yyy,xxx", "|[aaa][bbb][ccc]|[zzz][yyy][xxx]"),
        ("\"aaa\",\"b\r\nbb\",\"ccc\"\r\nzzz,yyy,xxx", "|[aaa][b\r\nbb][ccc]|[zzz][yyy][xxx]"),
        ("\"aaa\",\"b\"\"bb\",\"ccc\"", "|[aaa][b\"bb][ccc]"),
        ("a,b\nc,d\n", "|[a][b]|[c][d]"),
        ("a\nb\r\nc", "|[a]|[b]|[c]"),
        ("", "|[]"),
        ("\"\"", "|[]"),
        ("\n", "|[]"),
        ("\r\n", "|[]"),
        ("\n\n", "|[]|[]"),
        ("a\r\n\r\nb", "|[a]|[]|[b]"),
        ("a\r\n\r\n", "|[a]|[]"),
        ("a\n\"\"", "|[a]|[]"),
        ("a\n\"\"\n", "|[a]|[]"),
        (",", "|[][]"),
        ("a,,\n,b", "|[a][][]|[][b]"),
        ("\"\",\"\"\n", "|[][]"),
        ("\"\"\"\"", "|[\"]"),
        ("\"\"\"\"\"\",\"a\"\"\"", "|[\"\"][a\"]"),
        ("\"a,b\",c", "|[a,b][c]"),
        ("\",\r\n\"\"\"\n", "|[,\r\n\"]"),
        ("\"a\n\"\nb", "|[a\n]|[b]"),
        ("\"\n\"", "|[\n]"),
        ("\"\r\"", "|[\r]"),
        (" a , b c ", "|[ a ][ b c ]"),
        ("\t'a',#b;", "|[\t'a'][#b;]"),
        ("\u{e9}\u{20ac}\u{1f600},\"\u{e9}\"", "|[\u{e9}\u{20ac}\u{1f600}][\u{e9}]"),
        ("1,2,3\n4\n5,6", "|[1][2][3]|[4]|[5][6]"),
    ];
    for (text, records) in rows {
        let parsed = parse_csv(rt.alloc(), text).expect(&rt, "refused");
        let read = parsed.into_result().expect(&rt, "no records");
        let shown = shown(rt.alloc(), &read).expect(&rt, "memory");
        assert_eq!(rt; shown.as_str(), records, "{text}");
    }
}

#[test]
fn other_texts_are_none(rt: HostRuntime) {
    let texts = [
        "\"", "a\"", "a\"b", "a\"b\"", "a,b\"\n", "\"a\"b", "\"a\" ", " \"a\"", "\"a\"\"", "\"a", "\"a\n", "\"a,b\nc", "\"\"\"", "\"\"a", "\"\"\"\"\"", "\"a\"\"b",
        "\r", "a\r", "a\rb", "a\r\r\n", "a\r\r\nb", "\"a\"\r", "\"a\"\rb", "\"a\"\"\nb", "a,\"b\"c,d", "a\n\"b\"c\nd",
    ];
    for text in texts {
        let parsed = parse_csv(rt.alloc(), text).expect(&rt, "refused");
        assert!(rt; parsed.has_errors() && !parsed.has_output(), "{text}");
    }
}
