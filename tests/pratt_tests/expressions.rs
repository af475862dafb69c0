//! Expressions of operators by precedence.
use answers::asserts::assert_answers;
use answers::extras::Own;
use answers::leaves::just_char;
use chumsky::pratt::{
    InfixFolder, PostfixFolder, PrefixFolder, infix, infix_by, left, none, postfix, postfix_by, prefix, prefix_by,
    right,
};
use chumsky::prelude::*;
use std::alloc::{AllocError, Global};

/// A digit, as what it counts.
macro_rules! digit {
    () => {
        one_of::<_, &str, Own>('0'..='9').map(|c: char| i64::from(u32::from(c)).wrapping_sub(48))
    };
}

/// Sums, products, powers, negatives and a postfix operator.
macro_rules! sums {
    () => {
        digit!().pratt((
                prefix(5, just_char('-'), |_: char, a: i64| a.wrapping_neg()),
                postfix(7, just_char('!'), |a: i64, _: char| a.wrapping_mul(100)),
                infix(left(1), just_char('+'), |a: i64, _: char, b: i64| a.wrapping_add(b)),
                infix(left(1), just_char('-'), |a: i64, _: char, b: i64| a.wrapping_sub(b)),
                infix(left(2), just_char('*'), |a: i64, _: char, b: i64| a.wrapping_mul(b)),
                infix(right(3), just_char('^'), |a: i64, _: char, b: i64| {
                    a.wrapping_mul(10).wrapping_sub(b)
                }),
        ))
    };
}

/// The number of the other sign.
#[derive(Clone, Copy)]
struct Negates;

impl PrefixFolder<i64, char> for Negates {
    fn fold_prefix(&self, _operator: char, operand: i64) -> i64 {
        operand.wrapping_neg()
    }
}

/// A number in hundreds.
#[derive(Clone, Copy)]
struct Hundreds;

impl PostfixFolder<i64, char> for Hundreds {
    fn fold_postfix(&self, operand: i64, _operator: char) -> i64 {
        operand.wrapping_mul(100)
    }
}

/// The sum of two numbers.
#[derive(Clone, Copy)]
struct Adds;

impl InfixFolder<i64, char> for Adds {
    fn fold_infix(&self, before: i64, _operator: char, after: i64) -> i64 {
        before.wrapping_add(after)
    }
}

#[test]
fn each_kind_of_operator_stands_alone(rt: HostRuntime) {
    let negatives = digit!().pratt((prefix_by(3, just_char('-'), Negates),));
    let rows = [
        ("--1", "ok 1"),
        (
            "-",
            "error 1..1 expected '-', '0', '1', '2', '3', '4', '5', '6', '7', '8', '9' found end",
        ),
    ];
    assert_answers(&rt, &negatives, &rows);
    let hundreds = digit!().pratt((postfix_by(3, just_char('!'), Hundreds),));
    let rows = [
        ("3!", "ok 300"),
        ("!", "error 0..1 expected '0', '1', '2', '3', '4', '5', '6', '7', '8', '9' found '!'"),
    ];
    assert_answers(&rt, &hundreds, &rows);
    let sums = digit!().pratt((infix_by(left(1), just_char('+'), Adds),));
    let rows = [
        ("9+3+2", "ok 14"),
        ("9+", "error 2..2 expected '0', '1', '2', '3', '4', '5', '6', '7', '8', '9' found end"),
    ];
    assert_answers(&rt, &sums, &rows);
}

#[test]
fn the_stronger_operator_binds_first(rt: HostRuntime) {
    let rows = [
        ("7", "ok 7"),
        ("1+2*3", "ok 7"),
        ("2*3+1", "ok 7"),
        ("1+2*3^2", "ok 57"),
        ("2^3*2+1", "ok 35"),
        ("-1+2*3!^2", "ok 5995"),
        ("--3", "ok 3"),
        ("-3!", "ok -300"),
        ("2*-3+1", "ok -5"),
        ("3!!", "ok 30000"),
    ];
    assert_answers(&rt, &sums!(), &rows);
}

#[test]
fn operators_of_one_power_bind_by_their_associativity(rt: HostRuntime) {
    let rows = [
        ("9-3-2", "ok 4"),
        ("9-3+2-1", "ok 7"),
        ("1^2^3", "ok -7"),
        ("1^2^3-1-1", "ok -9"),
    ];
    assert_answers(&rt, &sums!(), &rows);
}

#[test]
fn an_operator_without_its_operand_is_left(rt: HostRuntime) {
    let rows = [
        (
            "1+",
            "error 2..2 expected '-', '0', '1', '2', '3', '4', '5', '6', '7', '8', '9' found end",
        ),
        (
            "+1",
            "error 0..1 expected '-', '0', '1', '2', '3', '4', '5', '6', '7', '8', '9' found '+'",
        ),
        (
            "",
            "error 0..0 expected '-', '0', '1', '2', '3', '4', '5', '6', '7', '8', '9' found end",
        ),
        (
            "1 2",
            "error 1..2 expected '!', '+', '-', '*', '^', end of input found ' '",
        ),
    ];
    assert_answers(&rt, &sums!(), &rows);
    let followed = sums!().then_ignore(just_char('+'));
    assert_answers(&rt, &followed, &[("1*2+", "ok 2"), ("1+2+", "ok 3")]);
}

#[test]
fn operators_without_associativity_do_not_follow_one_another(rt: HostRuntime) {
    let compared = digit!().pratt((
            infix(none(1), just_char('<'), |a: i64, _: char, b: i64| {
                a.wrapping_mul(10).wrapping_sub(b)
            }),
            infix(left(2), just_char('+'), |a: i64, _: char, b: i64| a.wrapping_add(b)),
            infix(left(0), just_char('&'), |a: i64, _: char, b: i64| {
                a.wrapping_mul(100).wrapping_add(b)
            }),
        ));
    let rows = [
        ("1<2", "ok 8"),
        ("1+1<2+2", "ok 16"),
        ("1<2&1<3", "ok 807"),
        ("1<2<3", "error 3..4 expected '+', '&', end of input found '<'"),
        ("1<2&1<2<3", "error 7..8 expected '+', '&', end of input found '<'"),
        ("1<2&3<4&5<6", "ok 82644"),
        ("1&2<3<4", "ok 1166"),
    ];
    assert_answers(&rt, &compared, &rows);
}

#[test]
fn an_operator_too_weak_is_not_tried(rt: HostRuntime) {
    let arrows = digit!().pratt((
            infix(left(1), just_char('-'), |a: i64, _: char, b: i64| a.wrapping_sub(b)),
            infix(left(2), just("->"), |a: i64, _: &str, b: i64| {
                a.wrapping_mul(10).wrapping_add(b)
            }),
        ));
    let rows = [
        ("1-2", "ok -1"),
        ("1->2", "ok 12"),
        ("9-1->2", "ok -3"),
        ("1->2-3", "ok 9"),
        ("9-1->2->3-1", "ok -115"),
    ];
    assert_answers(&rt, &arrows, &rows);
}

#[test]
fn what_would_go_on_for_ever_is_refused(rt: HostRuntime) {
    let empty = digit!().pratt((prefix(5, just(""), |_: &str, a: i64| a),));
    assert_answers(&rt, &empty, &[("1", "refused NoProgress")]);
    let empty = digit!().pratt((postfix(5, just(""), |a: i64, _: &str| a),));
    assert_answers(&rt, &empty, &[("1", "refused NoProgress")]);
    let joined = digit!().pratt((
            infix(left(5), just(""), |a: i64, _: &str, b: i64| a.wrapping_mul(10).wrapping_add(b)),
            infix(left(1), just_char('+'), |a: i64, _: char, b: i64| a.wrapping_add(b)),
        ));
    assert_answers(&rt, &joined, &[("1", "ok 1"), ("12+34", "ok 46"), ("12+345", "ok 357")]);
    let joined = digit!().pratt((
            infix(right(5), just(""), |a: i64, _: &str, b: i64| a.wrapping_mul(10).wrapping_sub(b)),
        ));
    assert_answers(&rt, &joined, &[("1", "ok 1"), ("123", "ok -7")]);
}

/// How many operators nest: few enough for runs that check each access.
const NESTED: usize = 100_000;

/// A text, so many times.
fn add_times(text: &mut String, part: &str) -> Result<(), AllocError> {
    for _ in 0..NESTED {
        text.push_str(part)?;
    }
    Ok(())
}

#[test]
fn prefix_operators_do_not_nest_on_the_stack(rt: HostRuntime) {
    let turned = one_of::<_, &str, extra::EmptyText>('0'..='9')
        .to(0u32)
        .pratt((prefix(2, just('-'), |_: char, count: u32| count.wrapping_add(1)),));
    let mut text = String::new(rt.alloc());
    add_times(&mut text, "-").expect(&rt, "out of memory");
    let open = turned.parse(rt.alloc(), text.as_str()).expect(&rt, "a refusal");
    assert!(rt; open.has_errors());
    text.push('1').expect(&rt, "out of memory");
    let parsed = turned.parse(rt.alloc(), text.as_str()).expect(&rt, "a refusal");
    assert!(rt; !parsed.has_errors());
    assert!(rt; parsed.output() == Some(&100_000));
    let checked = turned.check(rt.alloc(), text.as_str()).expect(&rt, "a refusal");
    assert!(rt; !checked.has_errors());
}

#[test]
fn right_operands_do_not_nest_on_the_stack(rt: HostRuntime) {
    let towers = one_of::<_, &str, extra::EmptyText>('0'..='9')
        .to(0u32)
        .pratt((infix(right(1), just('^'), |_: u32, _: char, after: u32| after.wrapping_add(1)),));
    let mut text = String::new(rt.alloc());
    text.push('1').expect(&rt, "out of memory");
    add_times(&mut text, "^0").expect(&rt, "out of memory");
    let parsed = towers.parse(rt.alloc(), text.as_str()).expect(&rt, "a refusal");
    assert!(rt; !parsed.has_errors());
    assert!(rt; parsed.output() == Some(&100_000));
    let checked = towers.check(rt.alloc(), text.as_str()).expect(&rt, "a refusal");
    assert!(rt; !checked.has_errors());
    text.push('^').expect(&rt, "out of memory");
    let open = towers.parse(rt.alloc(), text.as_str()).expect(&rt, "a refusal");
    assert!(rt; open.has_errors());
}

/// A digit, or two sums with a `+` between them.
#[derive(Debug, Drop)]
enum Sum {
    Digit(char),
    Plus(Box<Sum>, Box<Sum>),
}

/// Two sums with a `+` between them.
fn plus(
    alloc: Global,
    a: Result<Sum, AllocError>,
    b: Result<Sum, AllocError>,
) -> Result<Sum, AllocError> {
    Ok(Sum::Plus(Box::new(alloc, a?)?, Box::new(alloc, b?)?))
}

#[test]
fn a_tree_is_taken_out_of_the_answer_of_its_closures(rt: HostRuntime) {
    let alloc = rt.alloc();
    let digit = one_of::<_, &str, Own>('0'..='9').map(|c| Ok::<Sum, AllocError>(Sum::Digit(c)));
    let tree = digit
        .pratt((infix(left(1), just_char('+'), move |a, _: char, b| {
            plus(alloc, a, b)
        }),))
        .map_in(|tree, _| tree);
    let rows = [
        ("1", "ok Digit('1')"),
        ("1+2+3", "ok Plus(Plus(Digit('1'), Digit('2')), Digit('3'))"),
    ];
    assert_answers(&rt, &tree, &rows);
}
