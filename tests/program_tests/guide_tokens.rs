//! The functions of `guide` over tokens that are paired with their spans, and over a line of a file.
use answers::asserts::assert_line;
use chumsky::prelude::*;
use guide::file_lines::{setting_at, wrong_setting};
use guide::tokens::{Token, sum_of_pairs};
use std::process::Abort;

fn span(start: usize, end: usize) -> SimpleSpan {
    SimpleSpan { start, end }
}

/// The end of the text.
const END: SimpleSpan = SimpleSpan { start: 20, end: 20 };

#[test]
fn errors_over_pairs_stand_where_the_text_has_them(rt: HostRuntime) {
    let one = (Token::Number(1), span(2, 3));
    let plus = (Token::Plus, span(5, 6));
    let many = (Token::Number(23), span(9, 11));
    assert_line(&rt, sum_of_pairs(rt.alloc(), &[one, plus, many], END), "ok 24");
    let two_plus = "error 5..6 expected something else found Plus";
    assert_line(&rt, sum_of_pairs(rt.alloc(), &[one, plus, plus], END), two_plus);
    let no_number = "error 20..20 expected something else found end";
    assert_line(&rt, sum_of_pairs(rt.alloc(), &[one, plus], END), no_number);
    let no_plus = "error 9..11 expected Plus, end of input found Number(23)";
    assert_line(&rt, sum_of_pairs(rt.alloc(), &[one, many], END), no_plus);
}

#[test]
fn a_report_of_a_line_names_the_line_of_the_file(rt: HostRuntime) {
    let alloc = rt.alloc();
    let file = "a = 1\nbé = x\nc =";
    assert_line(&rt, setting_at(alloc, 6, "b = 2"), "ok (\"b\", \"2\")");
    let rows = [
        (0, ""),
        (6, "settings:2:2: expected '=', found 'é'\nbé = x\n ^"),
        (14, "settings:3:4: expected int, found end of input\nc =\n   ^"),
    ];
    for (offset, expected) in rows {
        let reports = wrong_setting(alloc, file, offset).expect(&rt, "refused");
        assert_eq!(rt; reports.first().map_or("", |report| report.as_str()), expected);
        assert_eq!(rt; reports.len(), usize::from(!expected.is_empty()));
    }
}
