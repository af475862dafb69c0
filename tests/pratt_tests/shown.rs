//! Operators whose folders are shown the run.
use answers::asserts::{assert_answers, assert_answers_from};
use answers::extras::{Own, Tallied, Telling};
use answers::leaves::just_char;
use chumsky::pratt::{infix, infix_with, left, postfix_with, prefix_with, right};
use chumsky::prelude::*;
use extending::states::{Tally, Told};

/// A digit, as where it stands.
macro_rules! place {
    ($extra:ty) => {
        one_of::<_, &str, $extra>('0'..='9').map_with(|_: char, extra| {
            let span = extra.span();
            (span.start, span.end)
        })
    };
}

/// Operators that give the span of the whole operation.
macro_rules! spans {
    () => {
        place!(Own).pratt((
                prefix_with(3, just_char('-'), |_, _, extra| {
                    let span = extra.span();
                    (span.start, span.end)
                }),
                postfix_with(4, just_char('!'), |_, _, extra| {
                    let span = extra.span();
                    (span.start, span.end)
                }),
                infix_with(left(1), just_char('+'), |_, _, _, extra| {
                    let span = extra.span();
                    (span.start, span.end)
                }),
                infix_with(right(2), just_char('^'), |_, _, after: (usize, usize), extra| {
                    (extra.span().start, after.1)
                }),
        ))
    };
}

#[test]
fn a_fold_is_shown_all_that_its_operation_took(rt: HostRuntime) {
    let rows = [
        ("x7", "ok (1, 2)"),
        ("x-7", "ok (1, 3)"),
        ("x7!", "ok (1, 3)"),
        ("x--7!!", "ok (1, 6)"),
        ("x1+2", "ok (1, 4)"),
        ("x-1+2!+3", "ok (1, 8)"),
        ("x1^2^3", "ok (1, 6)"),
        ("x1+", "error 3..3 expected '-', '0', '1', '2', '3', '4', '5', '6', '7', '8', '9' found end"),
    ];
    assert_answers(&rt, &just_char('x').ignore_then(spans!()), &rows);
}

#[test]
fn a_fold_may_give_the_span_of_its_operation(rt: HostRuntime) {
    let places = one_of::<_, &str, Own>('0'..='9')
        .to_span()
        .pratt((infix_with(left(1), just_char('+'), |_, _, _, extra| extra.span()),));
    let rows = [
        ("1+2", "ok 0..3"),
        ("1+", "error 2..2 expected '0', '1', '2', '3', '4', '5', '6', '7', '8', '9' found end"),
    ];
    assert_answers(&rt, &places, &rows);
}

/// The span of a right operand begins where that operand does.
#[test]
fn a_fold_within_an_operand_is_shown_the_operand_alone(rt: HostRuntime) {
    let last = place!(Own).pratt((
            infix(left(1), just_char('+'), |_: (usize, usize), _: char, b: (usize, usize)| b),
            infix_with(left(2), just_char('*'), |_, _, _, extra| {
                let span = extra.span();
                (span.start, span.end)
            }),
            prefix_with(3, just_char('-'), |_, _, extra| {
                let span = extra.span();
                (span.start, span.end)
            }),
        ));
    let rows = [
        ("1+2*3", "ok (2, 5)"),
        ("1*2+3*4*5", "ok (4, 9)"),
        ("1+-2", "ok (2, 4)"),
        ("1+2+-3*4", "ok (4, 8)"),
    ];
    assert_answers(&rt, &last, &rows);
}

#[test]
fn a_fold_is_shown_the_slice_of_its_operation(rt: HostRuntime) {
    let slices = one_of::<_, &str, Own>('0'..='9')
        .to_slice()
        .pratt((
            infix_with(left(1), just_char('+'), |_: &str, _: char, _: &str, extra| extra.slice()),
            infix(left(2), just_char('*'), |_: &str, _: char, b: &str| b),
        ));
    let rows = [
        ("1*2+3*4", "ok \"1*2+3*4\""),
        ("1+2*3", "ok \"1+2*3\""),
        ("1*2", "ok \"2\""),
    ];
    assert_answers(&rt, &slices, &rows);
}

/// It is called once for each operation of an output, and where none is wanted not at all.
#[test]
fn what_a_fold_writes_to_the_state_stands(rt: HostRuntime) {
    let plus = just::<_, &str, Telling>('+');
    let sums = one_of('0'..='9').to(0u8).pratt((
            infix_with(left(1), plus, |a: u8, _: char, _: u8, extra| {
                let told = extra.state();
                told.tokens = told.tokens.saturating_add(10);
                a
            }),
        ));
    let rows = [
        ("1", "ok 0; state Told { tokens: 1 }"),
        ("1+2", "ok 0; state Told { tokens: 13 }, by check Told { tokens: 3 }"),
        ("1+2+3", "ok 0; state Told { tokens: 25 }, by check Told { tokens: 5 }"),
    ];
    assert_answers_from(&rt, &sums, Told { tokens: 0 }, &rows);
}

/// Where the run goes back past an operation, a state that goes back forgets what its fold wrote.
#[test]
fn what_a_fold_writes_is_undone_where_its_operation_is_gone_back_past(rt: HostRuntime) {
    let products = one_of::<_, &str, Tallied>('0'..='9').to(0u8).pratt((
            infix_with(left(2), just::<_, &str, Tallied>('*'), |a: u8, _: char, _: u8, extra| {
                let tally = extra.state();
                tally.count = tally.count.saturating_add(1);
                a
            }),
            prefix_with(3, just::<_, &str, Tallied>('-'), |_: char, a: u8, extra| {
                let tally = extra.state();
                tally.count = tally.count.saturating_add(10);
                a
            }),
            postfix_with(4, just::<_, &str, Tallied>('!'), |a: u8, _: char, extra| {
                let tally = extra.state();
                tally.count = tally.count.saturating_add(100);
                a
            }),
        ));
    let whole = products.then_ignore(just(';')).or(any().repeated().to(9u8));
    let rows = [
        ("1*2;", "ok 0; state Tally { count: 1 }, by check Tally { count: 0 }"),
        ("-1!*2*3;", "ok 0; state Tally { count: 112 }, by check Tally { count: 0 }"),
        ("-1!*2*3", "ok 9; state Tally { count: 0 }"),
    ];
    assert_answers_from(&rt, &whole, Tally { count: 0 }, &rows);
}
