//! Records as text again: what is printed, and that it is read back.
use exact::csv::parse_csv;
use exact::print_csv::print_csv;
use std::process::Abort;

#[test]
fn fields_are_printed_between_quotes_where_they_need_them(rt: HostRuntime) {
    let rows = [
        ("a,\"b\"\n\"c\"", "a,b\r\nc\r\n"),
        ("", "\r\n"),
        ("\"\"", "\r\n"),
        ("\"\",\n\n", ",\r\n\r\n"),
        ("\"a,b\",\"c\"\"d\",\"e\r\nf\",\"\n\",\"\r\",\"\"\"\"", "\"a,b\",\"c\"\"d\",\"e\r\nf\",\"\n\",\"\r\",\"\"\"\"\r\n"),
        (" a ,\"\u{20ac}\"", " a ,\u{20ac}\r\n"),
        ("1,2\n3\n\n4,5,6\n", "1,2\r\n3\r\n\r\n4,5,6\r\n"),
    ];
    for (text, printed) in rows {
        let parsed = parse_csv(rt.alloc(), text).expect(&rt, "refused");
        let records = parsed.into_result().expect(&rt, "no records");
        let written = print_csv(rt.alloc(), &records).expect(&rt, "memory");
        assert_eq!(rt; written.as_str(), printed, "{text}");
        let again = parse_csv(rt.alloc(), written.as_str()).expect(&rt, "refused");
        let others = again.into_result().expect(&rt, "not read back");
        assert!(rt; others == records, "{text}");
    }
}
