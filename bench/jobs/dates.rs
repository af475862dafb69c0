//! A date on each line, as `2026-11-23`.
use super::run::{Asked, over_lines};
use chumsky::combinator::{Map, Mapper};
use chumsky::extra::{EmptyText, RichText};
use chumsky::prelude::*;
use chumsky::primitive::{Group, Just, OneOf};
use std::alloc::Global;
use std::ops::RangeInclusive;

/// The sum of the digits of all dates, as characters.
#[unsafe(no_mangle)]
pub extern "C" fn bench_dates_parse(alloc: Global, bytes: &[u8]) -> u64 {
    over_dates(alloc, bytes, Asked::Sum)
}

/// The number of dates.
#[unsafe(no_mangle)]
pub extern "C" fn bench_dates_check(alloc: Global, bytes: &[u8]) -> u64 {
    over_dates(alloc, bytes, Asked::Count)
}

/// Lines that are refused, with errors that say nothing.
#[unsafe(no_mangle)]
pub extern "C" fn bench_fail_empty(alloc: Global, bytes: &[u8]) -> u64 {
    over_dates(alloc, bytes, Asked::EachLine(11))
}

/// The same with errors that say what was expected and found.
#[unsafe(no_mangle)]
pub extern "C" fn bench_fail_rich(alloc: Global, bytes: &[u8]) -> u64 {
    match std::str::from_utf8(bytes) {
        Ok(text) => over_lines(&date::<RichText>(), alloc, text, Asked::EachLine(11)),
        Err(_) => 0,
    }
}

fn over_dates(alloc: Global, bytes: &[u8], asked: Asked) -> u64 {
    match std::str::from_utf8(bytes) {
        Ok(text) => over_lines(&date::<EmptyText>(), alloc, text, asked),
        Err(_) => 0,
    }
}

type Digit<'src, E> = OneOf<RangeInclusive<char>, &'src str, E>;

type Mark<'src, E> = Just<char, &'src str, E>;

type Two<'src, E> = Group<(Digit<'src, E>, Digit<'src, E>)>;

type Four<'src, E> = Group<
    (
        Digit<'src, E>,
        Digit<'src, E>,
        Digit<'src, E>,
        Digit<'src, E>,
    ),
>;

type Line<'src, E> = Group<
    (
        Four<'src, E>,
        Mark<'src, E>,
        Two<'src, E>,
        Mark<'src, E>,
        Two<'src, E>,
        Mark<'src, E>,
    ),
>;

type Digits = (
    (char, char, char, char),
    char,
    (char, char),
    char,
    (char, char),
    char,
);

/// The sum of the digits, as characters.
#[derive(Clone, Copy)]
struct Sum;

impl Mapper<Digits, u64> for Sum {
    ghost use Rattle.std.specs.Prelude.{⊤};

    ghost gives = { λ _ _ _. ⊤ };

    fn apply(&self, value: Digits) -> u64 {
        let (year, _, month, _, day, _) = value;
        (year.0 as u64)
            .wrapping_add(year.1 as u64)
            .wrapping_add(year.2 as u64)
            .wrapping_add(year.3 as u64)
            .wrapping_add(month.0 as u64)
            .wrapping_add(month.1 as u64)
            .wrapping_add(day.0 as u64)
            .wrapping_add(day.1 as u64)
    }
}

fn date<'src, E>() -> Map<Line<'src, E>, Digits, Sum, u64> {
    let year = group((
        one_of('0'..='9'),
        one_of('0'..='9'),
        one_of('0'..='9'),
        one_of('0'..='9'),
    ));
    let month = group((one_of('0'..='9'), one_of('0'..='9')));
    let day = group((one_of('0'..='9'), one_of('0'..='9')));
    group((year, just('-'), month, just('-'), day, just('\n'))).map_by(Sum)
}
