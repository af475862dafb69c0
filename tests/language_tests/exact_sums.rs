//! Sums that are read exactly.
use arithmetic::exact_sum::parse_exact_sum;
use arithmetic::{read_by_powers, read_by_rules};
use std::alloc::{AllocError, Global};
use std::test::Fail;

#[test]
fn what_sums_come_to(rt: HostRuntime) -> Result<(), Fail> {
    let alloc = rt.alloc();
    let rows = [
        ("1", 1),
        ("2*(3+4)-1", 13),
        ("2+3*4", 14),
        ("2*3+4*5-6/2", 23),
        ("10-2-3", 5),
        ("10-(2-3)", 11),
        ("100/5/2*3", 30),
        ("17%5-17/5", -1),
        ("007", 7),
        ("((((1))))", 1),
        ("(0-7)/2", -3),
        ("9223372036854775807", 9_223_372_036_854_775_807),
        ("0-9223372036854775807-1", -9_223_372_036_854_775_808),
        ("2 * (3 + 4) - 1", 13),
        (" 007\n", 7),
        ("\t( 1 +\r\n2 ) * 3 ", 9),
        ("\u{3000}1\u{a0}+\u{2009}1\u{85}", 2),
        ("-1", -1),
        ("- 7 / 2", -3),
        ("-7 % 2", -1),
        ("-2 + 3", 1),
        ("1--1", 2),
        ("1 - - -1", 0),
        ("--5 + -(2 * -3)", 11),
        ("2*-3", -6),
        ("- ( - ( 4 ) )", 4),
        ("-9223372036854775807 - 1", -9_223_372_036_854_775_808),
    ];
    for (text, number) in rows {
        let parsed = parse_exact_sum(alloc, text)?;
        assert_eq!(rt; parsed.into_result(), Ok(Some(number)), "{text}");
    }
    Ok(())
}

#[test]
fn what_no_number_holds_is_none(rt: HostRuntime) -> Result<(), Fail> {
    let alloc = rt.alloc();
    for text in [
        "9223372036854775808",
        "9223372036854775807+1-1",
        "1+(9223372036854775807+1)*0",
        "4611686018427387904*2",
        "1/0",
        "1%(2-2)+1",
        "(0-9223372036854775807-1)/(0-1)",
        "-9223372036854775808",
        "-(-9223372036854775807 - 1)",
        "(-9223372036854775807 - 1) / -1",
        "- (1 / 0)",
        "3 * -(7 % 0)",
    ] {
        let parsed = parse_exact_sum(alloc, text)?;
        assert_eq!(rt; parsed.into_result(), Ok(None), "{text}");
    }
    Ok(())
}

#[test]
fn other_texts_are_no_sums(rt: HostRuntime) -> Result<(), Fail> {
    let alloc = rt.alloc();
    for text in [
        "", " ", "+", "-", "- ", "1+", "+1", "1++2", "1-+2", "-*1", "1 2", "1 -", "()", "( )", "(-)", "(1", "1)", "(1)2", "2(1)", "(1) -(2) 3", "1*", "a", "1+a", "1.5", "(1+2)(3)",
    ] {
        let parsed = parse_exact_sum(alloc, text)?;
        assert!(rt; parsed.has_errors() && !parsed.has_output(), "{text}");
    }
    Ok(())
}

#[test]
fn minuses_stand_before_one_another(rt: HostRuntime) -> Result<(), Fail> {
    let alloc = rt.alloc();
    let mut text = String::new(alloc);
    for _ in 0..10_001 {
        text.push_str("- ")?;
    }
    text.push('7')?;
    let parsed = parse_exact_sum(alloc, text.as_str())?;
    assert_eq!(rt; parsed.into_result(), Ok(Some(-7)));
    Ok(())
}

/// So many opening brackets, a number, and as many closing ones.
fn within(alloc: Global, depth: usize) -> Result<String, AllocError> {
    let mut text = String::new(alloc);
    for _ in 0..depth {
        text.push('(')?;
    }
    text.push('7')?;
    for _ in 0..depth {
        text.push(')')?;
    }
    Ok(text)
}

#[test]
fn brackets_go_as_deep_as_the_text_is_long(rt: HostRuntime) -> Result<(), Fail> {
    let alloc = rt.alloc();
    let text = within(alloc, 10_000)?;
    let parsed = parse_exact_sum(alloc, text.as_str())?;
    assert_eq!(rt; parsed.into_result(), Ok(Some(7)));
    Ok(())
}

#[test]
fn sums_may_be_long(rt: HostRuntime) -> Result<(), Fail> {
    let alloc = rt.alloc();
    let mut text = String::from_str(alloc, "1")?;
    for _ in 0..3_000 {
        text.push_str("+2*3-5")?;
    }
    let parsed = parse_exact_sum(alloc, text.as_str())?;
    assert_eq!(rt; parsed.into_result(), Ok(Some(3_001)));
    Ok(())
}

/// The text that a number stands for, in digits that are the characters.
fn text_of(alloc: Global, characters: &[char], number: usize) -> Result<String, AllocError> {
    let mut text = String::new(alloc);
    let mut left = number;
    while left > 0 {
        left = left - 1;
        text.push(characters[left % characters.len()])?;
        left = left / characters.len();
    }
    Ok(text)
}

/// All texts of at most five of six characters: the readers that keep errors have the number of the one that keeps none, and errors
/// where there is no number.
#[test]
fn the_readers_of_sums_agree(rt: HostRuntime) {
    let alloc = rt.alloc();
    for number in 0..9_331 {
        let text = text_of(alloc, &['7', '-', '/', '(', ')', ' '], number).expect(&rt, "out of memory");
        let text = text.as_str();
        let exact = parse_exact_sum(alloc, text).expect(&rt, "refused");
        let number = exact.into_output().flatten();
        let rules = read_by_rules(alloc, text).expect(&rt, "refused");
        assert_eq!(rt; rules.output().copied(), number, "{text}");
        assert_eq!(rt; rules.errors().as_slice().is_empty(), number.is_some(), "{text}");
        let powers = read_by_powers(alloc, text).expect(&rt, "refused");
        assert_eq!(rt; powers.output().copied(), number, "{text}");
        assert_eq!(rt; powers.errors().as_slice().is_empty(), number.is_some(), "{text}");
    }
}
