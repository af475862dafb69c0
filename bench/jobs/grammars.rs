//! Pairs of brackets within one another, and JSON: grammars by rules, each run once over the whole text.
ghost use Rattle.std.specs.Prelude.{IfOk, ⊤};

use super::run::once;
use chumsky::extra::EmptyText;
use chumsky::prelude::*;
use chumsky::recursive::{BuildError, Leaves, Node, RecursiveError, SepCfg, Values};
use either::Either;
use std::alloc::{AllocError, Global};

/// Values are counts: of several parts the sum, of nothing none, and a mapped part counts one more.
#[derive(Drop)]
struct Counts;

impl Values<SimpleSpan, EmptyErr> for Counts {
    type Value = u64;

    fn pair(&self, _alloc: Global, _number: usize, a: u64, b: u64) -> Result<u64, AllocError> {
        Ok(a.wrapping_add(b))
    }

    fn list(&self, _alloc: Global, counts: Vec<u64>) -> Result<u64, AllocError>
        ensures { IfOk result (λ _. ⊤) }
    {
        let mut sum = 0u64;
        for count in counts.as_slice() {
            sum = sum.wrapping_add(*count);
        }
        Ok(sum)
    }

    fn option(&self, _alloc: Global, count: Option<u64>) -> Result<u64, AllocError>
        ensures { IfOk result (λ _. ⊤) }
    {
        Ok(count.unwrap_or(0))
    }

    fn unit(&self, _alloc: Global) -> Result<u64, AllocError> {
        Ok(0)
    }

    fn map(&self, _alloc: Global, _mapper: usize, count: u64) -> Result<u64, AllocError> {
        Ok(count.wrapping_add(1))
    }

    fn try_map(
        &self,
        _alloc: Global,
        _mapper: usize,
        count: u64,
        _span: SimpleSpan,
    ) -> Result<Result<u64, EmptyErr>, AllocError> {
        Ok(Ok(count))
    }
}

/// The number of pairs of brackets.
#[unsafe(no_mangle)]
pub extern "C" fn bench_brackets_parse(alloc: Global, bytes: &[u8]) -> u64 {
    run_brackets(alloc, bytes, true)
}

/// 1 where all brackets are paired.
#[unsafe(no_mangle)]
pub extern "C" fn bench_brackets_check(alloc: Global, bytes: &[u8]) -> u64 {
    run_brackets(alloc, bytes, false)
}

/// Any number of pairs, one after another and within one another.
fn brackets(rules: &mut Rules) -> Result<Recursive, RecursiveError> {
    rules.recursive(|rules, brackets| {
        let opening = rules.leaf(0)?;
        let inside = rules.rule(brackets)?;
        let closing = rules.leaf(1)?;
        let closed = rules.then(inside, closing)?;
        let opened = rules.then(opening, closed)?;
        let pair = rules.map(opened, 0)?;
        rules.repeated(pair, 0, None)
    })
}

fn run_brackets(alloc: Global, bytes: &[u8], wanted: bool) -> u64 {
    let Ok(text) = std::str::from_utf8(bytes) else {
        return 0;
    };
    let mut rules = Rules::new(alloc);
    let Ok(start) = brackets(&mut rules) else {
        return 0;
    };
    let leaves = [just::<_, &str, EmptyText>('[').to(0), just(']').to(0)];
    let actions = Leaves {
        leaves: &leaves,
        values: Counts,
    };
    match close(&rules, start, &actions, usize::MAX) {
        Ok(grammar) => once(&grammar, alloc, text, wanted),
        Err(_) => 0,
    }
}

/// The number of strings, numbers and words, names of members among them.
#[unsafe(no_mangle)]
pub extern "C" fn bench_json_parse(alloc: Global, bytes: &[u8]) -> u64 {
    run_json(alloc, bytes, true)
}

/// 1 where the text is JSON.
#[unsafe(no_mangle)]
pub extern "C" fn bench_json_check(alloc: Global, bytes: &[u8]) -> u64 {
    run_json(alloc, bytes, false)
}

/// The leaves of JSON, by number.
const QUOTE: usize = 0;

const LETTER: usize = 1;

const DIGIT: usize = 2;

const COMMA: usize = 3;

const COLON: usize = 4;

const OPENING_BRACKET: usize = 5;

const CLOSING_BRACKET: usize = 6;

const OPENING_BRACE: usize = 7;

const CLOSING_BRACE: usize = 8;

const TRUE: usize = 9;

const FALSE: usize = 10;

const NULL: usize = 11;

/// JSON without spaces; letters and digits in strings, digits in numbers.
fn json(rules: &mut Rules) -> Result<Recursive, RecursiveError> {
    rules.recursive(|rules, json| {
        let value = rules.rule(json)?;
        let string = string(rules)?;
        let number = number(rules)?;
        let array = listed(rules, OPENING_BRACKET, value, CLOSING_BRACKET)?;
        let colon = rules.leaf(COLON)?;
        let named = rules.then(string, colon)?;
        let member = rules.then(named, value)?;
        let object = listed(rules, OPENING_BRACE, member, CLOSING_BRACE)?;
        let true_word = rules.leaf(TRUE)?;
        let false_word = rules.leaf(FALSE)?;
        let null_word = rules.leaf(NULL)?;
        rules.choice(&[
            object, array, string, number, true_word, false_word, null_word,
        ])
    })
}

fn string(rules: &mut Rules) -> Result<Node, BuildError> {
    let quote = rules.leaf(QUOTE)?;
    let letter = rules.leaf(LETTER)?;
    let letters = rules.repeated(letter, 0, None)?;
    let closed = rules.then(letters, quote)?;
    let opened = rules.then(quote, closed)?;
    rules.map(opened, 0)
}

fn number(rules: &mut Rules) -> Result<Node, BuildError> {
    let digit = rules.leaf(DIGIT)?;
    let digits = rules.repeated(digit, 1, None)?;
    rules.map(digits, 0)
}

/// Items with commas between them, within brackets.
fn listed(
    rules: &mut Rules,
    opening: usize,
    item: Node,
    closing: usize,
) -> Result<Node, BuildError> {
    let opening = rules.leaf(opening)?;
    let comma = rules.leaf(COMMA)?;
    let bounds = SepCfg {
        at_least: 0,
        at_most: None,
        allow_leading: false,
        allow_trailing: false,
    };
    let items = rules.separated_by(item, comma, bounds)?;
    let closing = rules.leaf(closing)?;
    let closed = rules.then(items, closing)?;
    rules.then(opening, closed)
}

fn run_json(alloc: Global, bytes: &[u8], wanted: bool) -> u64 {
    let Ok(text) = std::str::from_utf8(bytes) else {
        return 0;
    };
    let mut rules = Rules::new(alloc);
    let Ok(start) = json(&mut rules) else {
        return 0;
    };
    let leaves = [
        Either::Left(one_of::<&str, &str, EmptyText>("\"").to(0)),
        Either::Left(one_of("abcdefghijklmnopqrstuvwxyz0123456789").to(0)),
        Either::Left(one_of("0123456789").to(0)),
        Either::Left(one_of(",").to(0)),
        Either::Left(one_of(":").to(0)),
        Either::Left(one_of("[").to(0)),
        Either::Left(one_of("]").to(0)),
        Either::Left(one_of("{").to(0)),
        Either::Left(one_of("}").to(0)),
        Either::Right(just("true").to(1)),
        Either::Right(just("false").to(1)),
        Either::Right(just("null").to(1)),
    ];
    let actions = Leaves {
        leaves: &leaves,
        values: Counts,
    };
    match close(&rules, start, &actions, usize::MAX) {
        Ok(grammar) => once(&grammar, alloc, text, wanted),
        Err(_) => 0,
    }
}
