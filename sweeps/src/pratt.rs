//! Expressions of operators.
use crate::line::Line;
use crate::run::{Asked, over, text_of};
use chumsky::extra::RichText;
use chumsky::pratt::{infix, left, none, postfix, prefix, right};
use chumsky::prelude::*;
use std::alloc::Global;

/// Operators of each kind over a digit, one without its operand, and one that does not follow another.
pub fn sweep_operators(alloc: Global, row: usize, check: bool, again: bool) -> Line {
    let asked = Asked { check, again };
    let text = text_of(&["--1!+1^1^1+1", "1+-", "1<1+1<1"], row);
    let expression = just::<_, &str, RichText>('1').to(1usize).pratt((
        prefix(4, just('-'), |_: char, a: usize| a.wrapping_add(10)),
        postfix(5, just('!'), |a: usize, _: char| a.wrapping_mul(5)),
        infix(left(2), just('+'), |a: usize, _: char, b: usize| {
            a.wrapping_mul(2).wrapping_add(b)
        }),
        infix(right(3), just('^'), |a: usize, _: char, b: usize| {
            b.wrapping_mul(3).wrapping_add(a)
        }),
        infix(none(1), just('<'), |a: usize, _: char, b: usize| {
            a.wrapping_add(b)
        }),
    ));
    over(&expression, alloc, text, asked)
}

/// Operators that give texts, which are dropped where what they stand in fails.
pub fn sweep_kept_operators(alloc: Global, row: usize, check: bool, again: bool) -> Line {
    let asked = Asked { check, again };
    let text = text_of(&["--1+1+1", "-1+-1+"], row);
    let atom = just::<_, &str, RichText>('1').repeated().at_least(1).collect::<Vec<char>>();
    let minus = just::<_, &str, RichText>('-').repeated().exactly(1).collect::<Vec<char>>();
    let plus = just::<_, &str, RichText>('+').repeated().exactly(1).collect::<Vec<char>>();
    let expression = atom.pratt((
        prefix(2, minus, |sign: Vec<char>, _: Vec<char>| sign),
        infix(left(1), plus, |_: Vec<char>, _: Vec<char>, b: Vec<char>| b),
    ));
    over(&expression, alloc, text, asked)
}
