//! Operators of one type in an array, a `Vec` or a slice.
use answers::asserts::assert_answers;
use answers::extras::Own;
use answers::leaves::just_char;
use chumsky::pratt::{Infix, InfixFolder, infix, infix_by, left, right};
use chumsky::prelude::*;
use chumsky::primitive::Just;

/// A digit, as what it counts.
macro_rules! digit {
    () => {
        one_of::<_, &str, Own>('0'..='9').map(|c: char| i64::from(u32::from(c)).wrapping_sub(48))
    };
}

/// What two numbers come to.
fn work_out(a: i64, sign: char, b: i64) -> i64 {
    match sign {
        '+' => a.wrapping_add(b),
        '-' => a.wrapping_sub(b),
        '*' => a.wrapping_mul(b),
        _ => a.wrapping_mul(10).wrapping_sub(b),
    }
}

/// The two numbers after one of its own.
#[derive(Clone, Copy)]
struct Puts {
    first: i64,
}

impl<W: Drop> InfixFolder<i64, W> for Puts {
    fn fold_infix(&self, before: i64, _operator: W, after: i64) -> i64 {
        let first = self.first.wrapping_mul(100);
        first.wrapping_add(before.wrapping_mul(10)).wrapping_add(after)
    }
}

#[test]
fn operators_of_a_list_bind_as_those_of_a_tuple_do(rt: HostRuntime) {
    let rows = [
        ("7", "ok 7"),
        ("1+2*3", "ok 7"),
        ("2*3+1", "ok 7"),
        ("9-3-2", "ok 4"),
        ("1+2*3^2", "ok 57"),
        ("1^2^3", "ok -7"),
        ("1 2", "error 1..2 expected '*', '+', '-', '^', end of input found ' '"),
        ("1+", "error 2..2 expected '0', '1', '2', '3', '4', '5', '6', '7', '8', '9' found end"),
    ];
    let array = [
        infix(left(2), just_char('*'), work_out),
        infix(left(1), just_char('+'), work_out),
        infix(left(1), just_char('-'), work_out),
        infix(right(3), just_char('^'), work_out),
    ];
    assert_answers(&rt, &digit!().pratt(array), &rows);
    assert_answers(&rt, &digit!().pratt(array.as_slice()), &rows);
    let mut list = Vec::new(rt.alloc());
    for sign in array {
        list.push(sign).expect(&rt, "out of memory");
    }
    assert_answers(&rt, &digit!().pratt(list), &rows);
}

#[test]
fn the_first_operator_of_a_list_that_fits_stands(rt: HostRuntime) {
    let signs = [
        infix_by(left(2), just_char('+'), Puts { first: 1 }),
        infix_by(left(2), just_char('-'), Puts { first: 2 }),
        infix_by(left(1), just_char('-'), Puts { first: 3 }),
        infix_by(left(1), just_char('+'), Puts { first: 4 }),
    ];
    let rows = [("1+2", "ok 112"), ("1-2", "ok 212"), ("1+2-3", "ok 1323")];
    assert_answers(&rt, &digit!().pratt(signs), &rows);
    let arrows = [
        infix_by(left(1), just("-"), Puts { first: 1 }),
        infix_by(left(2), just("->"), Puts { first: 2 }),
    ];
    let rows = [
        ("1-2", "ok 112"),
        ("1->2", "ok 212"),
        ("9-1->2", "ok 402"),
        ("1->2-3", "ok 2223"),
    ];
    assert_answers(&rt, &digit!().pratt(arrows), &rows);
}

#[test]
fn a_list_without_operators_leaves_the_atom(rt: HostRuntime) {
    let none: [Infix<Just<char, &str, Own>, Puts, i64, char>; 0] = [];
    let rows = [("7", "ok 7"), ("7+", "error 1..2 expected end of input found '+'")];
    assert_answers(&rt, &digit!().pratt(none), &rows);
}
