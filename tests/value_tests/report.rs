//! What errors look like to people: whole reports of texts and of bytes, and the places that they name.
use answers::extras::Own;
use answers::leaves::{any_char, just_char, just_text};
use chumsky::Failure;
use chumsky::extra::RichTokens;
use chumsky::prelude::*;
use chumsky::report::{ByteReport, LineIndex, Report, Source, TokenReport, place_of};
use std::alloc::{AllocError, AllocGlobal, Global};
use std::fmt::Debug;
use std::process::Abort;

/// The reports of some errors of a text, or of an index of one, each with a line end after it.
fn reports<S: Source>(
    alloc: Global,
    text: S,
    errors: &[Rich<char>],
) -> Result<String, AllocError> {
    let mut printed = String::new(alloc);
    for error in errors {
        let report = Report {
            name: "input",
            text,
            error,
        };
        writeln!(printed, "{report}")?;
    }
    Ok(printed)
}

/// Asserts how the errors of a parser are reported, of each text as its row says.
fn assert_reports<
    'src,
    O: Debug + Drop,
    P: IsParser<&'src str, O, Own> + Parser<'src, &'src str, O, Own>,
    R: Abort + AllocGlobal,
>(rt: &R, parser: &P, rows: &[(&'src str, &str)]) {
    for (text, expected) in rows {
        let parsed = parser
            .parse(rt.alloc(), *text)
            .ok()
            .expect(rt, "out of memory");
        let errors = parsed.errors.as_slice();
        let printed = reports(rt.alloc(), *text, errors).expect(rt, "out of memory");
        assert_eq!(rt; printed.as_str(), *expected);
        let lines = LineIndex::new(rt.alloc(), *text).expect(rt, "out of memory");
        let printed = reports(rt.alloc(), &lines, errors).expect(rt, "out of memory");
        assert_eq!(rt; printed.as_str(), *expected);
    }
}

#[test]
fn a_report_shows_the_line_alone(rt: HostRuntime) {
    let three_lines = just_text("one\ntwo\n").then(just_text("three"));
    let rows = [
        ("one\ntwo\nthree", ""),
        (
            "one\ntwo\nthxee\nfour",
            "input:3:3: expected 'r', found 'x'\nthxee\n  ^\n",
        ),
        (
            "one two\nthree",
            "input:1:4: expected '\\n', found ' '\none two\n   ^\n",
        ),
        (
            "one\n\nthree",
            "input:2:1: expected 't', found '\\n'\n\n^\n",
        ),
    ];
    assert_reports(&rt, &three_lines, &rows);
}

#[test]
fn carets_align_below_tabs_and_wide_characters(rt: HostRuntime) {
    let tabs = just_text("\té\tb");
    let rows = [
        (
            "\té\tc",
            "input:1:4: expected 'b', found 'c'\n\té\tc\n\t \t^\n",
        ),
        (
            "\té\tö",
            "input:1:4: expected 'b', found 'ö'\n\té\tö\n\t \t^\n",
        ),
        ("\te", "input:1:2: expected 'é', found 'e'\n\te\n\t^\n"),
    ];
    assert_reports(&rt, &tabs, &rows);
}

#[test]
fn the_end_of_input_has_a_caret(rt: HostRuntime) {
    let two_lines = just_text("ab\ncd");
    let rows = [
        ("a", "input:1:2: expected 'b', found end of input\na\n ^\n"),
        (
            "ab\n",
            "input:1:3: expected 'c', found end of input\nab\n  ^\n",
        ),
        ("", "input:1:1: expected 'a', found end of input\n\n^\n"),
        (
            "ab\ncde",
            "input:2:3: expected end of input, found 'e'\ncde\n  ^\n",
        ),
    ];
    assert_reports(&rt, &two_lines, &rows);
}

/// Asserts how the first character of a text is reported that is none of some.
fn assert_none_of<R: Abort + AllocGlobal>(rt: &R, letters: &'static str, expected: &str) {
    assert_reports(rt, &one_of::<_, _, Own>(letters), &[("~", expected)]);
}

#[test]
fn three_that_follow_one_another_are_a_range(rt: HostRuntime) {
    let rows = [
        ("a", "input:1:1: expected 'a', found '~'\n~\n^\n"),
        ("ab", "input:1:1: expected 'a' or 'b', found '~'\n~\n^\n"),
        ("abc", "input:1:1: expected 'a' to 'c', found '~'\n~\n^\n"),
        (
            "ace",
            "input:1:1: expected 'a', 'c' or 'e', found '~'\n~\n^\n",
        ),
        (
            "xabcdyz",
            "input:1:1: expected 'x', 'a' to 'd', 'y' or 'z', found '~'\n~\n^\n",
        ),
        (
            "_abcxyz",
            "input:1:1: expected '_', 'a' to 'c' or 'x' to 'z', found '~'\n~\n^\n",
        ),
        (
            "cba",
            "input:1:1: expected 'c', 'b' or 'a', found '~'\n~\n^\n",
        ),
        ("0123456789", "input:1:1: expected digit, found '~'\n~\n^\n"),
        (
            "0123456789abcdef",
            "input:1:1: expected digit or 'a' to 'f', found '~'\n~\n^\n",
        ),
        (
            "01234567",
            "input:1:1: expected '0' to '7', found '~'\n~\n^\n",
        ),
        (
            "0123456789:",
            "input:1:1: expected '0' to ':', found '~'\n~\n^\n",
        ),
        (
            "\n\r\t'\\\"\u{85}",
            "input:1:1: expected '\\n', '\\r', '\\t', '\\'', '\\\\', '\"' or '\\u{85}', found '~'\n~\n^\n",
        ),
    ];
    for (letters, expected) in rows {
        assert_none_of(&rt, letters, expected);
    }
}

#[test]
fn what_names_no_token_is_in_words(rt: HostRuntime) {
    let rows = [(
        "",
        "input:1:1: expected anything, found end of input\n\n^\n",
    )];
    assert_reports(&rt, &any_char(), &rows);
    let rows = [(
        "\u{7f}",
        "input:1:1: expected something else, found '\\u{7f}'\n\u{2421}\n^\n",
    )];
    assert_reports(&rt, &none_of::<_, _, Own>(['\u{7f}']), &rows);
    let rows = [(
        "x",
        "input:1:1: expected digit or end of input, found 'x'\nx\n^\n",
    )];
    assert_reports(&rt, &one_of::<_, _, Own>('0'..='9').or_not(), &rows);
}

/// The ten digits are called as `text::digits` calls them, and in one list once.
#[test]
fn what_a_label_says_is_said_once(rt: HostRuntime) {
    let digits = text::digits::<_, Own>(10);
    let rows = [("x", "input:1:1: expected digit, found 'x'\nx\n^\n")];
    assert_reports(&rt, &digits, &rows);
    assert_reports(&rt, &one_of::<_, _, Own>('0'..='9'), &rows);
    assert_reports(
        &rt,
        &digits.ignored().or(one_of('0'..='9').ignored()),
        &rows,
    );
    let rows = [(
        "x",
        "input:1:1: expected '-', digit or '.', found 'x'\nx\n^\n",
    )];
    let number = one_of("-0123456789").ignored();
    assert_reports(
        &rt,
        &number.or(digits.ignored()).or(just_char('.').ignored()),
        &rows,
    );
    let rows = [(
        "x",
        "input:1:1: expected '0' to '7' or digit, found 'x'\nx\n^\n",
    )];
    let octal = one_of("01234567").ignored();
    assert_reports(&rt, &octal.or(digits.ignored()), &rows);
}

#[test]
fn white_space_is_said_once(rt: HostRuntime) {
    let inline = text::inline_whitespace::<_, Own>();
    let rows = [(
        "x",
        "input:1:1: expected inline whitespace or 'a', found 'x'\nx\n^\n",
    )];
    assert_reports(&rt, &inline.ignore_then(just_char('a')), &rows);
    let rows = [(
        "x",
        "input:1:1: expected whitespace or 'a', found 'x'\nx\n^\n",
    )];
    let both = inline.ignore_then(text::whitespace());
    assert_reports(&rt, &both.ignore_then(just_char('a')), &rows);
    let rows = [("x", "input:1:1: expected 'a', found 'x'\nx\n^\n")];
    assert_reports(&rt, &just_char('a').padded(), &rows);
}

#[test]
fn a_label_stands_as_it_is(rt: HostRuntime) {
    let month = custom::<_, &str, char, Own>(|inp| match inp.parse(just_char('J')) {
        Err(Failure::Error(error)) => {
            Err(Failure::Error(error.with_label(inp.alloc(), "a month")?))
        }
        other => other,
    });
    let rows = [
        ("J", ""),
        ("x", "input:1:1: expected a month, found 'x'\nx\n^\n"),
        ("", "input:1:1: expected a month, found end of input\n\n^\n"),
    ];
    assert_reports(&rt, &month, &rows);
    let rows = [("x", "input:1:1: expected 'a' or a month, found 'x'\nx\n^\n")];
    assert_reports(&rt, &just_char('a').or(month), &rows);
}

#[test]
fn each_error_has_a_report(rt: HostRuntime) {
    let emitting = custom::<_, &str, char, Own>(|inp| {
        let message = String::from_str(inp.alloc(), "first")?;
        let span = SimpleSpan { start: 0, end: 2 };
        inp.emit(Rich::custom(span, message))?;
        Ok('x')
    });
    let rows = [(
        "ab",
        "input:1:1: first\nab\n^^\ninput:1:1: expected 'c', found 'a'\nab\n^\n",
    )];
    assert_reports(&rt, &emitting.then(just_char('c')), &rows);
}

/// The report of a message over a span of a text.
fn report_of_message(
    alloc: Global,
    text: &str,
    start: usize,
    end: usize,
) -> Result<String, AllocError> {
    let error = Rich::custom_in(alloc, SimpleSpan { start, end }, "no such day")?;
    let report = Report {
        name: "days.txt",
        text,
        error: &error,
    };
    format!(in alloc; "{report}")
}

#[test]
fn a_caret_stands_below_each_character_of_the_span(rt: HostRuntime) {
    let text = "let x\n\tlet y = é1;\nend";
    let rows = [
        (0, 3, "days.txt:1:1: no such day\nlet x\n^^^"),
        (5, 6, "days.txt:1:6: no such day\nlet x\n     ^"),
        (
            15,
            18,
            "days.txt:2:10: no such day\n\tlet y = é1;\n\t        ^^",
        ),
        (
            11,
            23,
            "days.txt:2:6: no such day\n\tlet y = é1;\n\t    ^^^^^^^ to line 3",
        ),
        (9, 7, "days.txt:2:4: no such day\n\tlet y = é1;\n\t  ^"),
        (20, 20, "days.txt:3:1: no such day\nend\n^"),
        (23, 23, "days.txt:3:4: no such day\nend\n   ^"),
        (30, 40, "days.txt:3:4: no such day\nend\n   ^"),
    ];
    for (start, end, expected) in rows {
        let printed = report_of_message(rt.alloc(), text, start, end).expect(&rt, "out of memory");
        assert_eq!(rt; printed.as_str(), expected);
    }
}

/// A line end belongs to the line that it ends, and so does the end of a text.
#[test]
fn a_span_over_several_lines_says_to_which_it_goes(rt: HostRuntime) {
    let text = "one\ntwo\r\n\nfour";
    let rows = [
        (1, 3, "days.txt:1:2: no such day\none\n ^^"),
        (1, 4, "days.txt:1:2: no such day\none\n ^^"),
        (1, 5, "days.txt:1:2: no such day\none\n ^^ to line 2"),
        (3, 4, "days.txt:1:4: no such day\none\n   ^"),
        (3, 5, "days.txt:1:4: no such day\none\n   ^ to line 2"),
        (1, 9, "days.txt:1:2: no such day\none\n ^^ to line 2"),
        (1, 10, "days.txt:1:2: no such day\none\n ^^ to line 3"),
        (0, 14, "days.txt:1:1: no such day\none\n^^^ to line 4"),
        (0, 99, "days.txt:1:1: no such day\none\n^^^ to line 4"),
        (9, 14, "days.txt:3:1: no such day\n\n^ to line 4"),
        (10, 10, "days.txt:4:1: no such day\nfour\n^"),
        (10, 2, "days.txt:4:1: no such day\nfour\n^"),
        (14, 20, "days.txt:4:5: no such day\nfour\n    ^"),
    ];
    for (start, end, expected) in rows {
        let printed = report_of_message(rt.alloc(), text, start, end).expect(&rt, "out of memory");
        assert_eq!(rt; printed.as_str(), expected, "of {start}..{end}");
    }
    let lines = "a\nb\n";
    for (end, expected) in [
        (2, "days.txt:1:1: no such day\na\n^"),
        (4, "days.txt:1:1: no such day\na\n^ to line 2"),
        (9, "days.txt:1:1: no such day\na\n^ to line 2"),
    ] {
        let printed = report_of_message(rt.alloc(), lines, 0, end).expect(&rt, "out of memory");
        assert_eq!(rt; printed.as_str(), expected, "of 0..{end}");
    }
}

/// Spans at the end of a text, which may end in line feeds and carriage returns.
#[test]
fn the_end_is_shown_behind_the_last_line_that_has_something(rt: HostRuntime) {
    let rows = [
        ("ab", "days.txt:1:3: no such day\nab\n  ^"),
        ("ab\n", "days.txt:1:3: no such day\nab\n  ^"),
        ("ab\ncd\r\n\n\r\n", "days.txt:2:3: no such day\ncd \n  ^"),
        ("ab\n  \n", "days.txt:2:3: no such day\n  \n  ^"),
        ("\n\n", "days.txt:1:1: no such day\n\n^"),
        ("", "days.txt:1:1: no such day\n\n^"),
    ];
    for (text, expected) in rows {
        for past in [0, 1, 7] {
            let start = text.len() + past;
            let printed =
                report_of_message(rt.alloc(), text, start, start).expect(&rt, "out of memory");
            assert_eq!(rt; printed.as_str(), expected, "of {text:?}");
        }
    }
}

#[test]
fn control_characters_of_the_line_show_as_signs(rt: HostRuntime) {
    let text = "\u{1b}[31mr\u{e9}d\0\u{7}\u{9b}\u{7f}\tx\r\nnext";
    let expected = "days.txt:1:9: no such day\n\u{241b}[31mr\u{e9}d\u{2400}\u{2407}\u{fffd}\u{2421}\tx \n        ^^^^^^";
    let printed = report_of_message(rt.alloc(), text, 9, 16).expect(&rt, "out of memory");
    assert_eq!(rt; printed.as_str(), expected);
}

/// A byte order mark, a mark that turns the direction, and one of width zero, in the line and between quotes.
#[test]
fn hidden_characters_show(rt: HostRuntime) {
    let rows = [
        (
            "\u{feff}ab",
            "input:1:1: expected 'a', found '\\u{feff}'\n\u{fffd}ab\n^\n",
        ),
        (
            "a\u{202e}\u{200b}b",
            "input:1:2: expected 'b', found '\\u{202e}'\na\u{fffd}\u{fffd}b\n ^\n",
        ),
        (
            "a\u{2010}\u{2060}",
            "input:1:2: expected 'b', found '\u{2010}'\na\u{2010}\u{fffd}\n ^\n",
        ),
    ];
    assert_reports(&rt, &just_text("ab"), &rows);
}

/// A span that begins or ends within a character.
#[test]
fn a_place_within_a_character_is_where_it_begins(rt: HostRuntime) {
    let printed = report_of_message(rt.alloc(), "\u{e9}\u{e9}", 3, 4).expect(&rt, "out of memory");
    let expected = "days.txt:1:2: no such day\n\u{e9}\u{e9}\n ^";
    assert_eq!(rt; printed.as_str(), expected);
}

/// Of a line of so many characters, what is reported at one of them.
fn report_of_line(alloc: Global, length: usize, at: usize) -> Result<String, AllocError> {
    let line = "a".repeat(alloc, length)?;
    report_of_message(alloc, line.as_str(), at, at + 2)
}

/// What is expected of that: the column, the characters before it and from it on, and whether others are left out on a side.
fn expected_of_line(
    alloc: Global,
    at: usize,
    sides: (usize, usize),
    cut: (bool, bool),
) -> Result<String, AllocError> {
    let before = "a".repeat(alloc, sides.0)?;
    let after = "a".repeat(alloc, sides.1)?;
    let below = " ".repeat(alloc, sides.0)?;
    let carets = "^".repeat(alloc, sides.1.clamp(1, 2))?;
    let first = if cut.0 { "\u{2026}" } else { "" };
    let last = if cut.1 { "\u{2026}" } else { "" };
    let space = if cut.0 { " " } else { "" };
    let column = at + 1;
    format!(in alloc; "days.txt:1:{column}: no such day\n{first}{before}{after}{last}\n{space}{below}{carets}")
}

#[test]
fn of_a_long_line_160_characters_are_shown(rt: HostRuntime) {
    let rows = [
        (160, 0, (0, 160), (false, false)),
        (160, 80, (80, 80), (false, false)),
        (160, 160, (160, 0), (false, false)),
        (161, 0, (0, 160), (false, true)),
        (161, 80, (80, 80), (false, true)),
        (161, 81, (80, 80), (true, false)),
        (161, 161, (160, 0), (true, false)),
        (300, 20, (20, 140), (false, true)),
        (300, 150, (80, 80), (true, true)),
        (300, 290, (150, 10), (true, false)),
        (200_000, 200_000, (160, 0), (true, false)),
        (200_000, 100_000, (80, 80), (true, true)),
    ];
    for (length, at, sides, cut) in rows {
        let printed = report_of_line(rt.alloc(), length, at).expect(&rt, "out of memory");
        let expected = expected_of_line(rt.alloc(), at, sides, cut).expect(&rt, "out of memory");
        assert_eq!(rt; printed.as_str(), expected.as_str(), "of {length} at {at}");
    }
}

/// A text of some lines, long and short, some with characters of two and three bytes.
fn many_lines(alloc: Global) -> Result<String, AllocError> {
    let mut text = String::new(alloc);
    for number in 0..100 {
        text.push_str(if number % 7 == 0 { "\u{e9}\u{20ac}" } else { "" })?;
        let line = "x".repeat(alloc, number % 90)?;
        text.push_str(line.as_str())?;
        text.push('\n')?;
    }
    Ok(text)
}

#[test]
fn an_index_finds_each_place(rt: HostRuntime) {
    let text = many_lines(rt.alloc()).expect(&rt, "out of memory");
    let lines = LineIndex::new(rt.alloc(), text.as_str()).expect(&rt, "out of memory");
    let source = &lines;
    for offset in (0..text.len() + 3).step_by(7) {
        assert!(rt;
            source.place(offset) == place_of(text.as_str(), offset),
            "at {offset}"
        );
    }
}

/// The report of the first error of two bytes, `RT`.
fn report_of_bytes(alloc: Global, bytes: &[u8]) -> Result<Option<String>, AllocError> {
    let parser = just::<_, _, Own>(b"RT").then(one_of([1u8, 2, 3, 9]));
    let parsed = match parser.parse(alloc, bytes) {
        Ok(parsed) => parsed,
        Err(_) => return Err(AllocError),
    };
    match parsed.errors.as_slice() {
        [error, ..] => Ok(Some(format!(in alloc;
            "{}",
            ByteReport {
                name: "blob",
                error
            }
        )?)),
        [] => Ok(None),
    }
}

#[test]
fn bytes_are_reported_in_hexadecimal(rt: HostRuntime) {
    let rows: [(&[u8], Option<&str>); 5] = [
        (b"RT\x03", None),
        (b"RZ", Some("blob:1 (0x1): expected 0x54, found 0x5a")),
        (b"", Some("blob:0 (0x0): expected 0x52, found end of input")),
        (
            b"RT\x00",
            Some("blob:2 (0x2): expected 0x01 to 0x03 or 0x09, found 0x00"),
        ),
        (
            b"RT\x09\xff",
            Some("blob:3 (0x3): expected end of input, found 0xff"),
        ),
    ];
    for (bytes, expected) in rows {
        let printed = report_of_bytes(rt.alloc(), bytes).expect(&rt, "out of memory");
        assert!(rt;
            printed.as_ref().map(|it| it.as_str()) == expected,
            "of {bytes:?}"
        );
    }
    let span = SimpleSpan { start: 26, end: 30 };
    let error: Rich<u8> = Rich::custom_in(rt.alloc(), span, "no such block").expect(
        &rt,
        "out of memory",
    );
    let report = ByteReport {
        name: "blob",
        error: &error,
    };
    let printed = format!(in rt.alloc(); "{report}").expect(&rt, "out of memory");
    assert_eq!(rt; printed.as_str(), "blob:26 (0x1a): no such block");
}

/// A token over some bytes of a text.
fn token(inner: char, start: usize, end: usize) -> Spanned<char, SimpleSpan> {
    Spanned {
        inner,
        span: SimpleSpan { start, end },
    }
}

#[test]
fn an_error_of_tokens_is_reported_in_the_text_that_they_were_read_from(rt: HostRuntime) {
    let text = "let\nxx 7";
    let tokens = [token('l', 0, 3), token('x', 4, 6), token('7', 7, 8)];
    let end = SimpleSpan { start: 8, end: 8 };
    let parser = just::<_, SpannedTokens<'_, char>, RichTokens<char>>('l')
        .then(one_of(['a', 'b', 'c']));
    let rows = [
        (3, "input:2:1: expected 'a', 'b' or 'c', found 'x'\nxx 7\n^^"),
        (1, "input:2:5: expected 'a', 'b' or 'c', found end of input\nxx 7\n    ^"),
        (0, "input:2:5: expected 'l', found end of input\nxx 7\n    ^"),
    ];
    let lines = LineIndex::new(rt.alloc(), text).expect(&rt, "out of memory");
    for (count, expected) in rows {
        let read = split_spanned(&tokens[..count], end);
        let parsed = parser.parse(rt.alloc(), read).ok().expect(&rt, "refused");
        let error = &parsed.errors[0];
        let report = TokenReport { name: "input", text, error };
        let printed = format!(in rt.alloc(); "{report}").expect(&rt, "out of memory");
        assert_eq!(rt; printed.as_str(), expected);
        let report = TokenReport { name: "input", text: &lines, error };
        let printed = format!(in rt.alloc(); "{report}").expect(&rt, "out of memory");
        assert_eq!(rt; printed.as_str(), expected);
    }
}

#[test]
fn lines_and_columns_count_from_one(rt: HostRuntime) {
    let rows = [
        ("", 0, 1, 1),
        ("", 5, 1, 1),
        ("ab\nc", 1, 1, 2),
        ("ab\nc", 2, 1, 3),
        ("ab\nc", 3, 2, 1),
        ("ab\nc", 4, 2, 2),
        ("ab\nc", 9, 2, 2),
        ("é\r\n", 2, 1, 2),
        ("é\r\n", 3, 1, 3),
        ("é\r\n", 4, 2, 1),
        ("\n\n\n", 2, 3, 1),
    ];
    for (text, offset, line, column) in rows {
        let place = place_of(text, offset);
        assert_eq!(rt;
            (place.line, place.column),
            (line, column),
            "at {offset} of {text:?}"
        );
    }
}
