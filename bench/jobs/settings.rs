//! A setting on each line, as `port = 8080` or `verbose = true`.
use super::run::again;
use chumsky::PResult;
use chumsky::combinator::{Part, To, part_of, run_part};
use chumsky::extra::{EmptyText, ParserExtra, RichText};
use chumsky::input::{InputRef, ValueInput};
use chumsky::prelude::*;
use chumsky::primitive::{Choice, Just};
use std::alloc::Global;

/// The sum, over all lines, of the keyword's number times the value's: 1 of `true`, 2 of `false`, and of a number how many
/// digits it has.
#[unsafe(no_mangle)]
pub extern "C" fn bench_settings_parse(alloc: Global, bytes: &[u8]) -> u64 {
    settings(alloc, bytes, true)
}

/// The number of lines.
#[unsafe(no_mangle)]
pub extern "C" fn bench_settings_check(alloc: Global, bytes: &[u8]) -> u64 {
    settings(alloc, bytes, false)
}

/// The sum of `bench_settings_parse`, by keywords in tuples.
#[unsafe(no_mangle)]
pub extern "C" fn bench_keys_parse(alloc: Global, bytes: &[u8]) -> u64 {
    keys(alloc, bytes, true)
}

/// The number of lines.
#[unsafe(no_mangle)]
pub extern "C" fn bench_keys_check(alloc: Global, bytes: &[u8]) -> u64 {
    keys(alloc, bytes, false)
}

/// The sum of `bench_keys_parse`, with errors that say what was expected and found.
#[unsafe(no_mangle)]
pub extern "C" fn bench_keys_rich_parse(alloc: Global, bytes: &[u8]) -> u64 {
    keys_rich(alloc, bytes, true)
}

/// The number of lines.
#[unsafe(no_mangle)]
pub extern "C" fn bench_keys_rich_check(alloc: Global, bytes: &[u8]) -> u64 {
    keys_rich(alloc, bytes, false)
}

type Word<I, E> = To<Just<&'static str, I, E>, &'static str, u64>;

fn word<I, E>(text: &'static str, number: u64) -> Word<I, E> {
    just(text).to(number)
}

fn keyword<'src>() -> Choice<[Word<&'src str, EmptyText>; 12]> {
    choice([
        word("host", 1),
        word("port", 2),
        word("user", 3),
        word("group", 4),
        word("root", 5),
        word("index", 6),
        word("log", 7),
        word("level", 8),
        word("cache", 9),
        word("timeout", 10),
        word("retries", 11),
        word("verbose", 12),
    ])
}

/// A keyword, as its number, by tuples.
#[derive(Clone, Copy)]
struct Key;

impl<I, E> IsParser<I, u64, E> for Key {}

impl<'src, I, E> Part<'src, I, u64, E> for Key
where
    I: ValueInput<'src, Token = char>,
    E: ParserExtra<I>,
{
    #[inline(always)]
    fn run(&self, wanted: bool, inp: &mut InputRef<'src, '_, I, E>) -> PResult<Option<u64>> {
        let first = choice((
            word("host", 1),
            word("port", 2),
            word("user", 3),
            word("group", 4),
            word("root", 5),
            word("index", 6),
        ));
        let second = choice((
            word("log", 7),
            word("level", 8),
            word("cache", 9),
            word("timeout", 10),
            word("retries", 11),
            word("verbose", 12),
        ));
        run_part(&choice((first, second)), wanted, inp)
    }
}

fn switch<'src>() -> Choice<[Word<&'src str, EmptyText>; 2]> {
    choice([word("true", 1), word("false", 2)])
}

fn settings(alloc: Global, bytes: &[u8], wanted: bool) -> u64 {
    match std::str::from_utf8(bytes) {
        Ok(text) => {
            let digits = one_of('0'..='9').repeated().at_least(1).at_most(4);
            let value = switch().or(digits.count().map(|count| count as u64));
            let line = group((keyword(), just(" = "), value, just('\n'))).map(|(key, _, value, _): (
                u64,
                &str,
                u64,
                char,
            )| key.wrapping_mul(value));
            again(&line, alloc, text, wanted)
        }
        Err(_) => 0,
    }
}

fn keys(alloc: Global, bytes: &[u8], wanted: bool) -> u64 {
    match std::str::from_utf8(bytes) {
        Ok(text) => run_keys::<&str, EmptyText>(alloc, text, wanted),
        Err(_) => 0,
    }
}

fn keys_rich(alloc: Global, bytes: &[u8], wanted: bool) -> u64 {
    match std::str::from_utf8(bytes) {
        Ok(text) => run_keys::<&str, RichText>(alloc, text, wanted),
        Err(_) => 0,
    }
}

fn run_keys<'src, I, E>(alloc: Global, input: I, wanted: bool) -> u64
where
    I: ValueInput<'src, Token = char>,
    E: ParserExtra<I>,
    E::State: Default + Drop,
    E::Context: Default + Drop,
{
    let digits = one_of::<_, I, E>('0'..='9')
        .repeated()
        .at_least(1)
        .at_most(4);
    let count = digits.count().map(|count| count as u64);
    let value = choice((word("true", 1), word("false", 2))).or(count);
    let line = group((part_of(Key), just(" = "), value, just('\n'))).map(|(key, _, value, _): (
        u64,
        &str,
        u64,
        char,
    )| key.wrapping_mul(value));
    again(&line, alloc, input, wanted)
}
