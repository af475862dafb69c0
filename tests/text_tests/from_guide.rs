//! The parsers of text that docs/GUIDE.md shows, run as it says.
use answers::asserts::{assert_answers, assert_line};
use chumsky::report::Report;
use guide::words::{bound, byte, identifiers, keywords, month, owned_name, setting};

#[test]
fn a_setting_is_a_name_and_a_number(rt: HostRuntime) {
    let rows = [
        ("size=10", "ok (\"size\", \"10\")"),
        (" size = 10\n", "ok (\"size\", \"10\")"),
        ("size = ten", "error 7..8 expected int found 't'"),
        ("2 = 2", "error 0..1 expected identifier found '2'"),
        ("size 10", "error 5..6 expected '=' found '1'"),
    ];
    for (line, expected) in rows {
        assert_line(&rt, setting(rt.alloc(), line), expected);
    }
}

#[test]
fn what_is_bound_stands_after_the_keyword(rt: HostRuntime) {
    let rows = [
        ("let x", "ok \"x\""),
        ("letter", "error 0..6 expected let found end"),
        ("let", "error 3..3 expected identifier found end"),
    ];
    for (line, expected) in rows {
        assert_line(&rt, bound(rt.alloc(), line), expected);
    }
}

#[test]
fn a_number_may_be_too_large_for_a_byte(rt: HostRuntime) {
    let rows = [
        ("255", "ok 255"),
        ("256", "error 0..3 expected a number below 256 found '2'"),
        ("x", "error 0..1 expected a number below 256 found 'x'"),
    ];
    for (line, expected) in rows {
        assert_line(&rt, byte(rt.alloc(), line), expected);
    }
}

#[test]
fn a_name_has_memory_of_its_own(rt: HostRuntime) {
    let rows = [
        ("size", "ok \"size\""),
        ("1", "error 0..1 expected identifier found '1'"),
    ];
    for (line, expected) in rows {
        assert_line(&rt, owned_name(rt.alloc(), line), expected);
    }
}

#[test]
fn a_month_is_expected_by_its_label(rt: HostRuntime) {
    let rows = [
        ("Feb", "ok 2"),
        ("Sep", "error 0..3 expected a month found 'S'"),
        ("Jun", "error 0..3 expected a month found 'J'"),
        ("1", "error 0..1 expected a month found '1'"),
    ];
    for (line, expected) in rows {
        assert_line(&rt, month(rt.alloc(), line), expected);
    }
    let parsed = month(rt.alloc(), "Sep").expect(&rt, "refused");
    let mut told = String::new(rt.alloc());
    for error in parsed.errors() {
        let report = Report {
            name: "log",
            text: "Sep",
            error,
        };
        write!(told, "{report}").expect(&rt, "out of memory");
    }
    let expected = "log:1:1: expected a month, found 'S'\nSep\n^^^";
    assert_eq!(rt; told.as_str(), expected);
}

#[test]
fn identifiers_of_ascii_have_no_other_letters(rt: HostRuntime) {
    let (ascii, unicode) = identifiers();
    assert_answers(&rt, &ascii, &[("a1", "ok \"a1\""), ("é", "error 0..2 expected identifier found 'é'")]);
    assert_answers(&rt, &unicode, &[("a1", "ok \"a1\""), ("é", "ok \"é\"")]);
    let (ascii, unicode) = keywords("été");
    assert_answers(&rt, &ascii, &[("été", "error 0..2 expected été found 'é'")]);
    assert_answers(&rt, &unicode, &[("été", "ok \"été\"")]);
}
