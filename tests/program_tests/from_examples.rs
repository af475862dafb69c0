//! The parsers of the crate `examples`, on texts and bytes that they take and on ones that they don't.
use answers::asserts::assert_line;
use examples::date::parse_date;
use examples::header::parse_header;
use examples::query::parse_query;
use examples::request::parse_request;
use examples::setting::parse_setting;

#[test]
fn a_date_has_a_month_and_a_day(rt: HostRuntime) {
    let rows = [
        ("2026-11-23", "ok Date { year: 2026, month: 11, day: 23 }"),
        ("0099-01-31", "ok Date { year: 99, month: 1, day: 31 }"),
        ("9999-12-09", "ok Date { year: 9999, month: 12, day: 9 }"),
        ("2026-13-01", "error 5..7 expected a month found '1'"),
        ("2026-20-01", "error 5..7 expected a month found '2'"),
        ("2026-00-01", "error 5..7 expected a month found '0'"),
        ("2026-1-01", "error 5..6 expected a month found '1'"),
        ("2026-01-32", "error 8..10 expected a day found '3'"),
        ("2026-01", "error 7..7 expected digit, '-' found end"),
        ("2026-01-", "error 8..8 expected a day found end"),
        ("2026-01-011", "error 8..11 expected a day found '0'"),
        ("26-01-01", "error 0..2 expected a year found '2'"),
        ("May", "error 0..1 expected a year found 'M'"),
    ];
    for (text, line) in rows {
        assert_line(&rt, parse_date(rt.alloc(), text), line);
    }
}

#[test]
fn a_setting_has_a_key_and_a_value(rt: HostRuntime) {
    let rows = [
        (
            "port = 8080",
            "ok Setting { key: Port, value: Number(8080) }",
        ),
        ("level = 7", "ok Setting { key: Level, value: Number(7) }"),
        (
            "verbose = false",
            "ok Setting { key: Verbose, value: Switch(false) }",
        ),
        ("log = true", "ok Setting { key: Log, value: Switch(true) }"),
        ("port=8080", "error 4..5 expected ' ' found '='"),
        ("port = truth", "error 10..11 expected 'e' found 't'"),
        (
            "port = 80800",
            "error 11..12 expected end of input found '0'",
        ),
        ("colour = 1", "error 1..2 expected 'a' found 'o'"),
    ];
    for (text, line) in rows {
        assert_line(&rt, parse_setting(rt.alloc(), text), line);
    }
}

#[test]
fn a_header_has_its_length_with_the_high_byte_first(rt: HostRuntime) {
    let right = parse_header(rt.alloc(), &[b'P', b'K', b'T', 2, 0x81, 1, 2]);
    assert_line(
        &rt,
        right,
        "ok Header { version: 2, flags: 129, length: 258 }",
    );
    let other = parse_header(rt.alloc(), b"PKD");
    assert_line(&rt, other, "error 2..3 expected 84 found 68");
    let newer = parse_header(rt.alloc(), &[b'P', b'K', b'T', 3, 0x81, 1, 2]);
    assert_line(&rt, newer, "error 3..4 expected 1, 2 found 3");
    let short = parse_header(rt.alloc(), &[b'P', b'K', b'T', 1, 0, 0]);
    assert_line(&rt, short, "error 6..6 expected any found end");
}

#[test]
fn a_request_has_a_method_and_a_target(rt: HostRuntime) {
    let rows = [
        (
            "GET /index.html HTTP/1.1\r\n",
            "ok Request { method: Get, target: \"/index.html\", version: Http11 }",
        ),
        (
            "PUT /é HTTP/1.0\r\n",
            "ok Request { method: Put, target: \"/é\", version: Http10 }",
        ),
        (
            "PATCH / HTTP/1.1\r\n",
            "error 1..2 expected 'O', 'U' found 'A'",
        ),
        (
            "GET  HTTP/1.1\r\n",
            "error 4..5 expected something else found ' '",
        ),
        ("GET / HTTP/2.0\r\n", "error 11..12 expected '1' found '2'"),
        ("GET / HTTP/1.1", "error 14..14 expected '\\r' found end"),
    ];
    for (text, line) in rows {
        assert_line(&rt, parse_request(rt.alloc(), text), line);
    }
}

#[test]
fn a_query_has_as_many_questions_as_its_head_says(rt: HostRuntime) {
    let rows: [(&[u8], &str); 6] = [
        (
            b"\x12\x34\x01\x00\x00\x01\x00\x00\x00\x00\x00\x01\x07example\x03com\x00\x00\x01\x00\x01",
            "ok Query { head: Head { id: 4660, flags: 256, questions: 1, answers: 0, authorities: 0, additionals: 1 }, questions: [Question { name: [[101, 120, 97, 109, 112, 108, 101], [99, 111, 109]], kind: 1, class: 1 }] }",
        ),
        (
            b"\x12\x34\x01\x00\x00\x02\x00\x00\x00\x00\x00\x00\x01a\x00\x00\x1c\x00\x01\x00\x00\x02\x01\x00",
            "ok Query { head: Head { id: 4660, flags: 256, questions: 2, answers: 0, authorities: 0, additionals: 0 }, questions: [Question { name: [[97]], kind: 28, class: 1 }, Question { name: [], kind: 2, class: 256 }] }",
        ),
        (
            b"\x00\x01\x00\x00\x00\x00\x00\x00\x00\x00\x00\x00",
            "ok Query { head: Head { id: 1, flags: 0, questions: 0, answers: 0, authorities: 0, additionals: 0 }, questions: [] }",
        ),
        (
            b"\x12\x34\x01\x00\x00\x02\x00\x00\x00\x00\x00\x00\x03com\x00\x00\x01\x00\x01",
            "error 21..21 expected any, 0 found end",
        ),
        (
            b"\x12\x34\x01\x00\x01\x00\x00\x00\x00\x00\x00\x00\x00\x00\x01\x00\x01",
            "error 17..17 expected any, 0 found end",
        ),
        (
            b"\xff\x00\x00\xff\x00\x01\x00\x00\x00\x00\x00\x00\x03\x00\x40\x02\x01\x00\x00\x00\xff\xff\x00",
            "ok Query { head: Head { id: 65280, flags: 255, questions: 1, answers: 0, authorities: 0, additionals: 0 }, questions: [Question { name: [[0, 64, 2], [0]], kind: 255, class: 65280 }] }",
        ),
    ];
    for (bytes, line) in rows {
        assert_line(&rt, parse_query(rt.alloc(), bytes), line);
    }
}

/// The error stands where the bytes end.
#[test]
fn a_query_that_is_cut_short_is_refused_there(rt: HostRuntime) {
    let whole = b"\x12\x34\x01\x00\x00\x01\x00\x00\x00\x00\x00\x00\x03com\x00\x00\x01\x00\x01";
    let rows = [
        (0, "error 0..0 expected any found end"),
        (1, "error 1..1 expected any found end"),
        (5, "error 5..5 expected any found end"),
        (11, "error 11..11 expected any found end"),
        (12, "error 12..12 expected any, 0 found end"),
        (13, "error 13..13 expected any found end"),
        (15, "error 15..15 expected any found end"),
        (16, "error 16..16 expected any, 0 found end"),
        (17, "error 17..17 expected any found end"),
        (18, "error 18..18 expected any found end"),
        (20, "error 20..20 expected any found end"),
    ];
    for (length, line) in rows {
        let bytes = whole.get(..length).expect(&rt, "too short");
        assert_line(&rt, parse_query(rt.alloc(), bytes), line);
    }
}

/// A label has 63 bytes at most, and after the last question nothing follows.
#[test]
fn a_query_is_refused_at_the_byte_that_is_wrong(rt: HostRuntime) {
    let rows: [(&[u8], &str); 4] = [
        (
            b"\x12\x34\x01\x00\x00\x01\x00\x00\x00\x00\x00\x00\x40com\x00\x00\x01\x00\x01",
            "error 12..13 expected something else, 0 found 64",
        ),
        (
            b"\x12\x34\x01\x00\x00\x01\x00\x00\x00\x00\x00\x00\x03com\xc0\x0c\x00\x01\x00\x01",
            "error 16..17 expected something else, 0 found 192",
        ),
        (
            b"\x12\x34\x01\x00\x00\x01\x00\x00\x00\x00\x00\x00\x03com\x00\x00\x01\x00\x01\xff",
            "error 21..22 expected end of input found 255",
        ),
        (
            b"\x12\x34\x01\x00\x00\x00\x00\x00\x00\x00\x00\x00\x00",
            "error 12..13 expected end of input found 0",
        ),
    ];
    for (bytes, line) in rows {
        assert_line(&rt, parse_query(rt.alloc(), bytes), line);
    }
}

#[test]
fn a_label_of_63_bytes_is_taken(rt: HostRuntime) {
    let bytes =
        b"\x12\x34\x01\x00\x00\x01\x00\x00\x00\x00\x00\x00\x3f0123456789abcdef0123456789abcdef0123456789abcdef0123456789abcde\x00\x00\x01\x00\x01";
    let parsed = parse_query(rt.alloc(), bytes).expect(&rt, "refused");
    let query = parsed.output.expect(&rt, "no output");
    let lengths = query.questions.as_slice().first().map(|question| {
        (
            question.name.len(),
            question.name.as_slice().first().map(|label| label.len()),
        )
    });
    assert!(rt; lengths == Some((1, Some(63))));
}
