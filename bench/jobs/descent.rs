//! Pairs of brackets within one another, and JSON: the grammars of `grammars.rt`, by functions that call themselves.
use super::run::once;
use chumsky::PResult;
use chumsky::combinator::{Part, part_of, run_part};
use chumsky::extra::{EmptyText, ParserExtra};
use chumsky::input::{InputRef, TextRef, ValueInput};
use chumsky::prelude::*;
use chumsky::recursive::{RunsUnder, Unsaid};
use std::alloc::Global;

/// How many calls may be open at once.
pub const DEPTH: usize = 1_000;

/// Any number of pairs, one after another and within one another: how many.
pub fn brackets<'src>(
    inp: &mut TextRef<'src, '_, EmptyText>,
    wanted: bool,
    depth: usize,
) -> PResult<Option<u64>>
    ensures { ⟦<Unsaid as RunsUnder<'src, &'src str, u64, EmptyText>>⟧.runs depth wanted inp.old inp.new result }
{
    run_pairs(recursive(brackets, depth), wanted, inp)
}

/// Pairs, of the parser of what is inside.
pub fn run_pairs<'src, I, E, V>(
    inside: V,
    wanted: bool,
    inp: &mut InputRef<'src, '_, I, E>,
) -> PResult<Option<u64>>
where
    I: Input<'src>,
    I::Token: 'src,
    E: ParserExtra<I>,
    V: IsParser<I, u64, E> + Parser<'src, I, u64, E> + Drop,
    Mark: IsParser<I, char, E> + Part<'src, I, char, E>,
    requires { V.ready inside }
    ensures { ⟦<Unsaid as RunsUnder<'src, I, u64, E>>⟧.runs 0 wanted inp.old inp.new result }
{
    let pairs = inside
        .delimited_by(part_of(Mark('[')), part_of(Mark(']')))
        .map(|count: u64| count.wrapping_add(1))
        .repeated()
        .fold(0, |sum: u64, count: u64| sum.wrapping_add(count));
    run_part(&pairs, wanted, inp)
}

/// The number of pairs of brackets.
#[unsafe(no_mangle)]
pub extern "C" fn bench_called_brackets_parse(alloc: Global, bytes: &[u8]) -> u64 {
    run_brackets(alloc, bytes, true)
}

/// 1 where all brackets are paired.
#[unsafe(no_mangle)]
pub extern "C" fn bench_called_brackets_check(alloc: Global, bytes: &[u8]) -> u64 {
    run_brackets(alloc, bytes, false)
}

pub fn run_brackets(alloc: Global, bytes: &[u8], wanted: bool) -> u64 {
    let Ok(text) = std::str::from_utf8(bytes) else {
        return 0;
    };
    let all = recursive::<_, _, _, EmptyText>(brackets, DEPTH);
    once(&all, alloc, text, wanted)
}

/// Letters and digits between quotes, which count one.
#[derive(Clone, Copy)]
pub struct Word;

impl<I, E> IsParser<I, u64, E> for Word {}

impl<'src, I, E> Part<'src, I, u64, E> for Word
where
    I: ValueInput<'src, Token = char>,
    E: ParserExtra<I>,
{
    #[inline(always)]
    fn run(&self, wanted: bool, inp: &mut InputRef<'src, '_, I, E>) -> PResult<Option<u64>> {
        let word = one_of("abcdefghijklmnopqrstuvwxyz0123456789")
            .repeated()
            .delimited_by(one_of("\""), one_of("\""));
        run_part(&word.to(1), wanted, inp)
    }
}

/// A word, a number, or the name of a value, which counts one.
#[derive(Clone, Copy)]
pub struct Scalar;

impl<I, E> IsParser<I, u64, E> for Scalar {}

impl<'src, I, E> Part<'src, I, u64, E> for Scalar
where
    I: ValueInput<'src, Token = char>,
    E: ParserExtra<I>,
{
    #[inline(always)]
    fn run(&self, wanted: bool, inp: &mut InputRef<'src, '_, I, E>) -> PResult<Option<u64>> {
        let scalar = choice((
            part_of(Word),
            one_of("0123456789").repeated().at_least(1).to(1),
            just("true").to(1),
            just("false").to(1),
            just("null").to(1),
        ));
        run_part(&scalar, wanted, inp)
    }
}

/// A comma, a colon or a bracket.
#[derive(Clone, Copy)]
pub struct Mark(char);

impl<I, E> IsParser<I, char, E> for Mark {}

impl<'src, I, E> Part<'src, I, char, E> for Mark
where
    I: ValueInput<'src, Token = char>,
    E: ParserExtra<I>,
{
    #[inline(always)]
    fn run(&self, wanted: bool, inp: &mut InputRef<'src, '_, I, E>) -> PResult<Option<char>> {
        run_part(&just(self.0), wanted, inp)
    }
}

/// An array, of the parser of its items.
pub fn run_array<'src, I, E, V>(
    value: V,
    wanted: bool,
    inp: &mut InputRef<'src, '_, I, E>,
) -> PResult<Option<u64>>
where
    I: Input<'src>,
    I::Token: 'src,
    E: ParserExtra<I>,
    V: IsParser<I, u64, E> + Parser<'src, I, u64, E> + Drop,
    Mark: IsParser<I, char, E> + Part<'src, I, char, E>,
    requires { V.ready value }
    ensures { ⟦<Unsaid as RunsUnder<'src, I, u64, E>>⟧.runs 0 wanted inp.old inp.new result }
{
    let items = value
        .separated_by(part_of(Mark(',')))
        .fold(0, |sum: u64, count: u64| sum.wrapping_add(count))
        .delimited_by(part_of(Mark('[')), part_of(Mark(']')));
    run_part(&items, wanted, inp)
}

/// An object, of the parser of its values.
pub fn run_object<'src, I, E, V>(
    value: V,
    wanted: bool,
    inp: &mut InputRef<'src, '_, I, E>,
) -> PResult<Option<u64>>
where
    I: Input<'src>,
    I::Token: 'src,
    E: ParserExtra<I>,
    V: IsParser<I, u64, E> + Parser<'src, I, u64, E> + Drop,
    Word: IsParser<I, u64, E> + Part<'src, I, u64, E>,
    Mark: IsParser<I, char, E> + Part<'src, I, char, E>,
    requires { V.ready value }
    ensures { ⟦<Unsaid as RunsUnder<'src, I, u64, E>>⟧.runs 0 wanted inp.old inp.new result }
{
    let member = part_of(Word)
        .then_ignore(part_of(Mark(':')))
        .then(value)
        .map(|(name, value): (u64, u64)| name.wrapping_add(value));
    let members = member
        .separated_by(part_of(Mark(',')))
        .fold(0, |sum: u64, count: u64| sum.wrapping_add(count))
        .delimited_by(part_of(Mark('{')), part_of(Mark('}')));
    run_part(&members, wanted, inp)
}

#[cycle(json)]
pub fn array<'src>(
    inp: &mut TextRef<'src, '_, EmptyText>,
    wanted: bool,
    depth: usize,
) -> PResult<Option<u64>>
    ensures { ⟦<Unsaid as RunsUnder<'src, &'src str, u64, EmptyText>>⟧.runs depth wanted inp.old inp.new result }
{
    run_array(recursive(json, depth), wanted, inp)
}

#[cycle(json)]
pub fn object<'src>(
    inp: &mut TextRef<'src, '_, EmptyText>,
    wanted: bool,
    depth: usize,
) -> PResult<Option<u64>>
    ensures { ⟦<Unsaid as RunsUnder<'src, &'src str, u64, EmptyText>>⟧.runs depth wanted inp.old inp.new result }
{
    run_object(recursive(json, depth), wanted, inp)
}

/// JSON without spaces: how many words, numbers and names.
#[cycle(json)]
pub fn json<'src>(
    inp: &mut TextRef<'src, '_, EmptyText>,
    wanted: bool,
    depth: usize,
) -> PResult<Option<u64>>
    ensures { ⟦<Unsaid as RunsUnder<'src, &'src str, u64, EmptyText>>⟧.runs depth wanted inp.old inp.new result }
{
    let json = choice((
        recursive(object, depth),
        recursive(array, depth),
        part_of(Scalar),
    ));
    run_part(&json, wanted, inp)
}

/// The number of strings, numbers and words, names of members among them.
#[unsafe(no_mangle)]
pub extern "C" fn bench_called_json_parse(alloc: Global, bytes: &[u8]) -> u64 {
    run_json(alloc, bytes, true)
}

/// 1 where the text is JSON.
#[unsafe(no_mangle)]
pub extern "C" fn bench_called_json_check(alloc: Global, bytes: &[u8]) -> u64 {
    run_json(alloc, bytes, false)
}

pub fn run_json(alloc: Global, bytes: &[u8], wanted: bool) -> u64 {
    let Ok(text) = std::str::from_utf8(bytes) else {
        return 0;
    };
    let all = recursive::<_, _, _, EmptyText>(json, DEPTH);
    once(&all, alloc, text, wanted)
}
