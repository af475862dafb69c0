//! A sum of products on each line, as `12+3*45-6`.
use super::run::again;
use chumsky::PResult;
use chumsky::combinator::{Part, part_of, run_part};
use chumsky::extra::EmptyText;
use chumsky::input::TextRef;
use chumsky::pratt::{infix, left};
use chumsky::prelude::*;
use std::alloc::Global;

/// The sum of what all lines come to.
#[unsafe(no_mangle)]
pub extern "C" fn bench_sums_parse(alloc: Global, bytes: &[u8]) -> u64 {
    sums(alloc, bytes, true)
}

/// The number of lines.
#[unsafe(no_mangle)]
pub extern "C" fn bench_sums_check(alloc: Global, bytes: &[u8]) -> u64 {
    sums(alloc, bytes, false)
}

/// The sum of what all lines come to, by operators with their powers.
#[unsafe(no_mangle)]
pub extern "C" fn bench_sums_by_powers_parse(alloc: Global, bytes: &[u8]) -> u64 {
    sums_by_powers(alloc, bytes, true)
}

/// The number of lines.
#[unsafe(no_mangle)]
pub extern "C" fn bench_sums_by_powers_check(alloc: Global, bytes: &[u8]) -> u64 {
    sums_by_powers(alloc, bytes, false)
}

fn digit(digit: char) -> u64 {
    (digit as u32 as u64).wrapping_sub('0' as u32 as u64)
}

fn with_digit(number: u64, digit: u64) -> u64 {
    number.wrapping_mul(10).wrapping_add(digit)
}

fn times(one: u64, two: u64) -> u64 {
    one.wrapping_mul(two)
}

fn plus_or_minus(sum: u64, term: (char, u64)) -> u64 {
    let (sign, number) = term;
    if sign == '+' {
        sum.wrapping_add(number)
    } else {
        sum.wrapping_sub(number)
    }
}

/// A number of one digit or more.
#[derive(Clone, Copy)]
struct Number;

impl<'src> IsParser<&'src str, u64, EmptyText> for Number {}

impl<'src> Part<'src, &'src str, u64, EmptyText> for Number {
    #[inline(always)]
    fn run(&self, wanted: bool, inp: &mut TextRef<'src, '_, EmptyText>) -> PResult<Option<u64>> {
        let number = one_of('0'..='9')
            .map(digit)
            .foldl(one_of('0'..='9').map(digit).repeated(), with_digit);
        run_part(&number, wanted, inp)
    }
}

/// Numbers, multiplied.
#[derive(Clone, Copy)]
struct Product;

impl<'src> IsParser<&'src str, u64, EmptyText> for Product {}

impl<'src> Part<'src, &'src str, u64, EmptyText> for Product {
    #[inline(always)]
    fn run(&self, wanted: bool, inp: &mut TextRef<'src, '_, EmptyText>) -> PResult<Option<u64>> {
        let factors = just('*').ignore_then(part_of(Number)).repeated();
        run_part(&part_of(Number).foldl(factors, times), wanted, inp)
    }
}

fn sums(alloc: Global, bytes: &[u8], wanted: bool) -> u64 {
    match std::str::from_utf8(bytes) {
        Ok(text) => {
            let terms = one_of::<_, &str, EmptyText>("+-")
                .then(part_of(Product))
                .repeated();
            let sum = part_of(Product).foldl(terms, plus_or_minus);
            again(&sum.then_ignore(just('\n')), alloc, text, wanted)
        }
        Err(_) => 0,
    }
}

fn worked_out(before: u64, sign: char, after: u64) -> u64 {
    if sign == '*' {
        times(before, after)
    } else {
        plus_or_minus(before, (sign, after))
    }
}

fn sums_by_powers(alloc: Global, bytes: &[u8], wanted: bool) -> u64 {
    match std::str::from_utf8(bytes) {
        Ok(text) => {
            let sum = part_of(Number).pratt((
                infix(left(2), just('*'), worked_out),
                infix(left(1), one_of::<_, &str, EmptyText>("+-"), worked_out),
            ));
            again(&sum.then_ignore(just('\n')), alloc, text, wanted)
        }
        Err(_) => 0,
    }
}
