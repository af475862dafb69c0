//! The items of docs/GUIDE.md, and the parser that README.md begins with, run as they say; and laws called at parsers.
use answers::asserts::{assert_answers, assert_line};
use chumsky::laws::steady::{end_is_steady, just_is_steady};
use chumsky::laws::{or_not_never_says_no, then_is_associative};
use chumsky::prelude::*;
use guide::arithmetic::value_of;
use guide::checking::{day_of_month, minute, minutes, port, share};
use guide::closure::{day, foo_or_nothing, one_x};
use guide::conclusion::two;
use guide::contexts::{declared, prefixed, settings};
use guide::csv::parse_csv;
use guide::extras::Plain;
use guide::flattening::{all_letters, number_plate};
use guide::folding::{spanned_sum, sum};
use guide::forms::{Word, ab, names_in, range, word_of};
use guide::handed::{check_two_tokens, each};
use guide::laws::token_past;
use guide::mapping::percent;
use guide::operators::{listed_sum, sum as sum_by_operators, sum_or_span};
use guide::parts::{on_or_off, switch_is_steady, ticket, time_of_day};
use guide::payments::parse_payments;
use guide::picking::span_past_x;
use guide::readme::tell_level;
use guide::recovering::{numbers, numbers_read};
use guide::running::{keyword, one_two, pair};
use guide::tokens::{Token, sum_of, tokens_of};

#[test]
fn a_pair_is_taken(rt: HostRuntime) {
    let rows = [
        ("ab", "ok ('a', 'b')"),
        ("ba", "ok ('b', 'a')"),
        ("ac", "error 1..2 expected 'b' found 'c'"),
        ("", "error 0..0 expected 'a', 'b' found end"),
        ("abc", "error 2..3 expected end of input found 'c'"),
    ];
    for (text, line) in rows {
        assert_line(&rt, pair(rt.alloc(), text), line);
    }
}

#[test]
fn each_line_that_is_no_number_is_reported(rt: HostRuntime) {
    let rows = [
        ("1\n22\n", "ok [Some(1), Some(22)]"),
        (
            "1\nx\n300\n4y\n\n5\n",
            "ok [Some(1), None, None, None, None, Some(5)]; \
             error 2..3 expected a number below 256 found 'x'; \
             error 4..7 expected a number below 256 found '3'; \
             error 9..10 expected digit, '\\n' found 'y'; \
             error 11..12 expected a number below 256 found '\\n'",
        ),
    ];
    for (text, line) in rows {
        assert_line(&rt, numbers(rt.alloc(), text), line);
        assert_line(&rt, numbers_read(rt.alloc(), text), line);
    }
}

#[test]
fn each_line_that_is_wrong_is_told_in_one_run(rt: HostRuntime) {
    let rows = [
        ("7;Ada;1250\n", "ok [Payment { id: 7, name: \"Ada\", cents: 1250 }]"),
        (
            "x;Ada;1\n7;;2\n9;Cy;4x\n\n5;Di;7",
            "ok [Payment { id: 5, name: \"Di\", cents: 7 }]; \
             error 0..1 expected a number found 'x'; \
             error 10..11 expected a name found ';'; \
             error 19..20 expected digit, newline, end of input found 'x'",
        ),
        (
            "x;Ada;1\r5;Di;7\r\n6;;8\r\n7;Ed;9\r\n",
            "ok [Payment { id: 5, name: \"Di\", cents: 7 }, Payment { id: 7, name: \"Ed\", cents: 9 }]; \
             error 0..1 expected a number found 'x'; \
             error 18..19 expected a name found ';'",
        ),
        // No name goes on in the next line, however the line ends.
        (
            "7;Ada\r8;5\u{2028}5;Di;7",
            "ok [Payment { id: 5, name: \"Di\", cents: 7 }]; \
             error 5..6 expected something else, ';' found '\\r'; \
             error 9..12 expected something else, ';' found '\\u{2028}'",
        ),
        ("", "ok []"),
    ];
    for (text, line) in rows {
        assert_line(&rt, parse_payments(rt.alloc(), text), line);
    }
}

#[test]
fn a_field_in_quotes_may_hold_commas_ends_of_lines_and_quotes(rt: HostRuntime) {
    let rows = [
        ("a,b\r\n1,\r\n", "ok [[\"a\", \"b\"], [\"1\", \"\"]]"),
        ("\"a,\"\"b\"\"\n\",c", "ok [[\"a,\\\"b\\\"\\n\", \"c\"]]"),
        ("a\n\nb", "ok [[\"a\"], [\"\"], [\"b\"]]"),
        ("", "ok []"),
    ];
    for (text, line) in rows {
        assert_line(&rt, parse_csv(rt.alloc(), text), line);
    }
    let wrong = parse_csv(rt.alloc(), "a,\"b").expect(&rt, "refused");
    assert_eq!(rt; wrong.errors[0].span().start, 4);
}

#[test]
fn a_parser_stands_in_two_places_and_words_borrow_from_their_text(rt: HostRuntime) {
    assert_line(&rt, range(rt.alloc(), "1-9"), "ok ('1', '9')");
    assert_line(&rt, range(rt.alloc(), "1-a"), "error 2..3 expected '0', '1', '2', '3', '4', '5', '6', '7', '8', '9' found 'a'");
    assert_line(&rt, word_of(rt.alloc(), "12"), "ok Number(\"12\")");
    assert_line(&rt, word_of(rt.alloc(), "ab"), "ok Name(\"ab\")");
}

#[test]
fn a_part_is_handed_a_value_and_a_list_is_taken_out(rt: HostRuntime) {
    assert_line(&rt, ab(rt.alloc(), "xb"), "ok ('x', 'b')");
    assert_line(&rt, ab(rt.alloc(), "ba"), "error 0..1 expected 'a', 'x' found 'b'");
    let words = text::ascii::ident::<&str, extra::RichText>()
        .map(|name| Word::Name(name))
        .or(text::int(10).map(|digits| Word::Number(digits)))
        .separated_by(just(' '))
        .collect::<Vec<_>>();
    for (text, names) in [("a 1 b", 2), ("1", 0), ("", 0), ("a-", 0)] {
        let parsed = words.parse(rt.alloc(), text).expect(&rt, "refused");
        assert_eq!(rt; names_in(parsed), names);
    }
}

#[test]
fn a_minute_is_below_sixty(rt: HostRuntime) {
    assert_line(&rt, minute(rt.alloc(), "59"), "ok 59");
    let too_large = "error 0..2 expected something else found '6'";
    assert_line(&rt, minute(rt.alloc(), "60"), too_large);
    let not_a_digit =
        "error 1..2 expected '0', '1', '2', '3', '4', '5', '6', '7', '8', '9' found 'x'";
    assert_line(&rt, minute(rt.alloc(), "5x"), not_a_digit);
}

#[test]
fn a_port_fits_its_type(rt: HostRuntime) {
    assert_line(&rt, port(rt.alloc(), "65535"), "ok 65535");
    let too_large = "error 0..5 expected something else found '6'";
    assert_line(&rt, port(rt.alloc(), "65536"), too_large);
    let no_digit = "error 0..0 expected '0', '1', '2', '3', '4', '5', '6', '7', '8', '9' found end";
    assert_line(&rt, port(rt.alloc(), ""), no_digit);
}

#[test]
fn a_day_that_is_none_is_an_error_with_a_message(rt: HostRuntime) {
    assert_line(&rt, day_of_month(rt.alloc(), "31"), "ok 31");
    let no_day = "error 0..2 \"no such day\"";
    assert_line(&rt, day_of_month(rt.alloc(), "32"), no_day);
    assert_line(&rt, day_of_month(rt.alloc(), "00"), no_day);
}

#[test]
fn a_share_that_is_too_large_is_reported(rt: HostRuntime) {
    assert_line(&rt, share(rt.alloc(), "100"), "ok 100");
    let too_large = "ok 100; error 0..3 \"a share is at most 100\"";
    assert_line(&rt, share(rt.alloc(), "101"), too_large);
    assert_line(&rt, share(rt.alloc(), "256"), too_large);
    assert_line(&rt, minutes(rt.alloc(), "59m"), "ok 59");
    let no_minute = "error 0..2 expected something else found '6'";
    assert_line(&rt, minutes(rt.alloc(), "60m"), no_minute);
}

#[test]
fn a_text_is_read_as_tokens_and_tokens_as_a_sum(rt: HostRuntime) {
    let tokens = "ok [Number(1), Plus, Number(23), Plus]";
    assert_line(&rt, tokens_of(rt.alloc(), "1 +23+  "), tokens);
    let no_token =
        "error 2..3 expected ' ', '0', '1', '2', '3', '4', '5', '6', '7', '8', '9', '+', end of input found 'x'";
    assert_line(&rt, tokens_of(rt.alloc(), "1 x"), no_token);
    let sum = [Token::Number(1), Token::Plus, Token::Number(23)];
    assert_line(&rt, sum_of(rt.alloc(), &sum), "ok 24");
    let two_plus = [Token::Number(1), Token::Plus, Token::Plus];
    let no_number = "error 2..3 expected something else found Plus";
    assert_line(&rt, sum_of(rt.alloc(), &two_plus), no_number);
}

#[test]
fn each_function_takes_what_it_says(rt: HostRuntime) {
    assert_line(&rt, keyword(rt.alloc(), "if"), "ok \"if\"");
    assert_line(&rt, one_two(rt.alloc(), &[1, 2]), "ok [1, 2]");
    assert_line(&rt, two(rt.alloc(), "éb"), "ok ('é', 'b')");
    assert_line(&rt, foo_or_nothing(rt.alloc(), "foo"), "ok true");
    assert_line(&rt, foo_or_nothing(rt.alloc(), ""), "ok false");
    assert_line(&rt, one_x(rt.alloc(), "x"), "ok \"x\"");
    let parsed = span_past_x(rt.alloc(), "xé")
        .ok()
        .expect(&rt, "the run was refused");
    assert!(rt; parsed.output() == Some(&('x', SimpleSpan { start: 1, end: 3 })));
}

#[test]
fn a_sum_is_folded(rt: HostRuntime) {
    let rows = [
        ("1+2+3", "ok 6"),
        ("7", "ok 7"),
        (
            "",
            "error 0..0 expected '0', '1', '2', '3', '4', '5', '6', '7', '8', '9' found end",
        ),
    ];
    for (text, line) in rows {
        assert_line(&rt, sum(rt.alloc(), text), line);
    }
}

#[test]
fn items_come_out_of_collections(rt: HostRuntime) {
    assert_line(&rt, all_letters(rt.alloc(), "ab,,c"), "ok \"abc\"");
    assert_line(&rt, all_letters(rt.alloc(), ""), "ok \"\"");
    assert_line(&rt, number_plate(rt.alloc(), "AB-123"), "ok \"AB123\"");
    let no_digit = "error 3..3 expected '0', '1', '2', '3', '4', '5', '6', '7', '8', '9' found end";
    assert_line(&rt, number_plate(rt.alloc(), "AB-"), no_digit);
}

#[test]
fn a_sum_has_the_span_of_all_its_numbers(rt: HostRuntime) {
    let rows = [
        (
            "1+2+3",
            "ok Term { value: 6, span: 0..5 }",
        ),
        (
            "7",
            "ok Term { value: 7, span: 0..1 }",
        ),
    ];
    for (text, line) in rows {
        assert_line(&rt, spanned_sum(rt.alloc(), text), line);
    }
}

#[test]
fn a_parser_is_handed_in(rt: HostRuntime) {
    let (parsed, checked) = each(&any::<&str, Plain>(), rt.alloc(), "a", "ab")
        .ok()
        .expect(&rt, "the run was refused");
    assert_line(&rt, Ok(parsed), "ok 'a'");
    assert_line(&rt, Ok(checked), "error");
}

#[test]
fn a_generic_caller_runs_its_parser(rt: HostRuntime) {
    for (text, line) in [("éb", "ok ()"), ("éba", "error")] {
        assert_line(
            &rt,
            check_two_tokens::<_, extra::Default>(rt.alloc(), text),
            line,
        );
    }
}

#[test]
fn an_error_has_a_message_of_its_own(rt: HostRuntime) {
    let rows = [
        ("7", "ok '7'"),
        ("8", "error 0..1 \"no such day\""),
        ("é", "error 0..2 \"no such day\""),
        ("", "error 0..0 \"no such day\""),
    ];
    for (text, line) in rows {
        assert_line(&rt, day(rt.alloc(), text), line);
    }
}

#[test]
fn a_number_is_made_of_its_digits(rt: HostRuntime) {
    assert_line(&rt, percent(rt.alloc(), "07%"), "ok 7");
    assert_line(&rt, percent(rt.alloc(), "93%"), "ok 93");
    assert_line(
        &rt,
        percent(rt.alloc(), "9x%"),
        "error 1..2 expected '0', '1', '2', '3', '4', '5', '6', '7', '8', '9' found 'x'",
    );
}

#[test]
fn a_part_keeps_the_furthest_failure(rt: HostRuntime) {
    let rows = [
        ("07:30 4.50", "ok ((7, 30), 450)"),
        ("23:05 9.99", "ok ((23, 5), 999)"),
        (
            "24:05 9.99",
            "error 1..2 expected '0', '1', '2', '3' found '4'",
        ),
        ("07.30 4.50", "error 2..3 expected ':' found '.'"),
        ("07:30 4,50", "error 7..8 expected '.' found ','"),
    ];
    for (text, line) in rows {
        assert_line(&rt, ticket(rt.alloc(), text), line);
    }
    let parser = time_of_day().to('t').or(just("07:3a").to('a'));
    let line =
        "error 4..5 expected '0', '1', '2', '3', '4', '5', '6', '7', '8', '9', 'a' found 'x'";
    assert_answers(
        &rt,
        &parser,
        &[("07:30", "ok 't'"), ("07:3a", "ok 'a'"), ("07:3x", line)],
    );
}

/// What a law says stands in its contract; at run time it does nothing.
#[test]
fn laws_are_called_at_parsers(rt: HostRuntime) {
    let parser = any::<&str, extra::Err<EmptyErr>>().ignore_then(just('é'));
    just_is_steady(&parser.second);
    token_past(&parser, &any());
    or_not_never_says_no(&parser);
    then_is_associative(&parser, &any(), &parser);
    end_is_steady::<&str, extra::Err<EmptyErr>>(&end(), &empty());
    let switch = on_or_off();
    switch_is_steady(&switch);
    assert_answers(&rt, &parser, &[("xé", "ok 'é'")]);
    assert_answers(
        &rt,
        &switch,
        &[
            ("off", "ok false"),
            ("of", "error 2..2 expected 'f' found end"),
        ],
    );
}

#[test]
fn a_level_is_told_or_what_is_wrong_with_it(rt: HostRuntime) {
    let rows = [
        ("level=info", "Info\n"),
        (
            "level=wart",
            "settings:1:10: expected 'n', found 't'\nlevel=wart\n         ^\n",
        ),
        (
            "level=loud",
            "settings:1:7: expected 'e', 'w', 'i' or 'd', found 'l'\nlevel=loud\n      ^\n",
        ),
    ];
    for (text, told) in rows {
        let line = tell_level(rt.alloc(), text)
            .ok()
            .expect(&rt, "the run was refused");
        assert_eq!(rt; line.as_str(), told);
    }
}

#[test]
fn products_come_before_sums(rt: HostRuntime) {
    let rows = [
        ("7", 7),
        ("1+2*3", 7),
        ("2*3+1", 7),
        ("(1+2)*3", 9),
        ("2*(3+4)*5", 70),
        ("((1))+((2+3)*4)", 21),
        ("0*(9+9)", 0),
    ];
    for (text, value) in rows {
        let parsed = value_of(rt.alloc(), text).expect(&rt, "refused");
        assert!(rt; parsed.output() == Some(&value));
    }
}

#[test]
fn arithmetic_fails_where_it_is_amiss(rt: HostRuntime) {
    for (text, start, end) in [
        ("", 0, 0),
        ("1+", 2, 2),
        ("(1+2", 4, 4),
        ("1+2)", 3, 4),
        ("1++2", 2, 3),
    ] {
        let parsed = value_of(rt.alloc(), text).expect(&rt, "refused");
        assert!(rt; parsed.output() == None);
        for error in parsed.errors() {
            assert!(rt; *error.span() == SimpleSpan { start, end });
        }
    }
}

#[test]
fn arithmetic_stays_at_the_greatest_number(rt: HostRuntime) {
    let mut text = String::new(rt.alloc());
    text.push('9').expect(&rt, "out of memory");
    for _ in 0..30 {
        text.push_str("*9").expect(&rt, "out of memory");
    }
    let parsed = value_of(rt.alloc(), text.as_str()).expect(&rt, "refused");
    assert!(rt; parsed.output() == Some(&u64::MAX));
}

#[test]
fn a_byte_says_how_many_follow(rt: HostRuntime) {
    let rows: [(&[u8], &str); 3] = [
        (&[2, 7, 8], "ok [7, 8]"),
        (&[2, 7], "error 2..2 expected any found end"),
        (&[0, 7], "error 1..2 expected end of input found 7"),
    ];
    for (bytes, line) in rows {
        assert_line(&rt, prefixed(rt.alloc(), bytes), line);
    }
}

#[test]
fn a_name_that_is_called_is_not_declared(rt: HostRuntime) {
    let names = declared(rt.alloc(), "a;b!c;").expect(&rt, "refused");
    assert!(rt; names.as_slice() == ['a', 'c'].as_slice());
}

#[test]
fn each_line_holds_a_setting(rt: HostRuntime) {
    let rows: [(&[&str], &str); 3] = [
        (&["a=1", "b=2"], "ok [('a', '1'), ('b', '2')]"),
        (&["a=1", "b:2"], "error 1..2"),
        (&["a=12"], "error 3..4"),
    ];
    for (lines, line) in rows {
        assert_line(&rt, settings(rt.alloc(), lines), line);
    }
}

#[test]
fn operators_bind_by_their_powers(rt: HostRuntime) {
    let rows = [
        ("1 + 2 * -3", "ok -5"),
        ("2*3 - 4*5", "ok -14"),
        ("9 - 3 - 2", "ok 4"),
        ("7 / 0", "error 0..5 expected a number that 64 bits hold found '7'"),
    ];
    for (text, line) in rows {
        assert_line(&rt, sum_by_operators(rt.alloc(), text), line);
    }
}

#[test]
fn operators_may_stand_in_a_list(rt: HostRuntime) {
    let rows = [
        ("1+2*3", "ok Some(7)"),
        ("8-3-2", "ok Some(3)"),
        ("1+8/0", "ok None"),
        ("1+", "error 2..2 expected int found end"),
    ];
    for (text, line) in rows {
        assert_line(&rt, listed_sum(rt.alloc(), text), line);
    }
}

#[test]
fn an_operation_is_shown_its_span(rt: HostRuntime) {
    let rows = [
        ("1+2*3", "ok Ok(7)"),
        ("1+8/0", "ok Err(2..5)"),
        ("1/0+2/0", "ok Err(0..3)"),
        ("1-9223372036854775808", "ok Err(2..21)"),
        ("9223372036854775807+1-2", "ok Err(0..21)"),
    ];
    for (text, line) in rows {
        assert_line(&rt, sum_or_span(rt.alloc(), text), line);
    }
}
