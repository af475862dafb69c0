//! JSON into a tree: a grammar by rules whose leaves read a whole token each.
ghost use Rattle.std.specs.Prelude.{[], ◌||◌, ◌==◌, IfOk, ⊤};

use super::run::once;
use chumsky::PResult;
use chumsky::combinator::{OfPart, Part, part_of, run_part};
use chumsky::extra::EmptyText;
use chumsky::input::TextRef;
use chumsky::prelude::*;
use chumsky::primitive::Select;
use chumsky::recursive::{BuildError, Leaves, MayStay, Node, RecursiveError, SepCfg, Values};
use chumsky::text::Kind;
use chumsky::util::Plain;
use either::Either;
use std::alloc::{AllocError, Global};
use std::char;

/// A value of JSON. A number is its text, and an object has its members in the order of the text.
#[derive(Drop)]
pub enum Tree {
    Null,
    False,
    True,
    Number(String),
    Text(String),
    List(Vec<Tree>),
    Object(Vec<(String, Tree)>),
}

/// What a node of the grammar gives.
#[derive(Drop)]
enum Value {
    /// A comma, a colon or a bracket.
    Mark,
    Tree(Tree),
    Member(String, Tree),
    Items(Vec<Value>),
}

/// Spaces, tabs and ends of lines.
#[derive(Clone, Copy)]
pub struct Blank;

impl Kind<char> for Blank {
    ghost fits = { λ _. ⊤ };

    ghost holds = { λ _ c. (c == 32) || (c == 9) || (c == 13) || (c == 10) };

    ghost wants = { λ _. [] };

    fn test(&self, token: &char) -> bool {
        *token == ' ' || *token == '\t' || *token == '\r' || *token == '\n'
    }

    fn expected(&self) -> Plain<'_> {
        Plain::Nothing
    }
}

/// Four hexadecimal digits: the number that they make.
#[derive(Clone, Copy)]
struct Unit;

impl<'src> IsParser<&'src str, u32, EmptyText> for Unit {}

impl<'src> Part<'src, &'src str, u32, EmptyText> for Unit {
    fn run(&self, wanted: bool, inp: &mut TextRef<'src, '_, EmptyText>) -> PResult<Option<u32>> {
        let digit = any().filter_map(|digit: char| digit.to_digit(16));
        let unit = digit.repeated().exactly(4).fold(
            0,
            |unit: u32, digit: u32| unit.wrapping_mul(16).wrapping_add(digit),
        );
        run_part(&unit, wanted, inp)
    }
}

/// The character that two units name together.
fn joined(high: u32, low: u32) -> Option<char> {
    char::from_u32(0x1_0000 + (high & 0x3FF) * 0x400 + (low & 0x3FF))
}

/// The character that stands for another, or is named by its number, after a `\`.
#[derive(Clone, Copy)]
struct Escaped;

impl<'src> IsParser<&'src str, char, EmptyText> for Escaped {}

impl<'src> Part<'src, &'src str, char, EmptyText> for Escaped {
    fn run(&self, wanted: bool, inp: &mut TextRef<'src, '_, EmptyText>) -> PResult<Option<char>> {
        let named: Select<_, &'src str, char, EmptyText> = select! {
            '"' => '"',
            '\\' => '\\',
            '/' => '/',
            'b' => '\u{8}',
            'f' => '\u{c}',
            'n' => '\n',
            'r' => '\r',
            't' => '\t',
        };
        let high = part_of(Unit).filter(|unit: &u32| matches!(*unit, 0xD800..=0xDBFF));
        let low = part_of(Unit).filter(|unit: &u32| matches!(*unit, 0xDC00..=0xDFFF));
        let pair = high
            .then_ignore(just("\\u"))
            .then(low)
            .filter_map(|(high, low): (u32, u32)| joined(high, low));
        let single = part_of(Unit).filter_map(|unit: u32| char::from_u32(unit));
        let numbered = just('u').ignore_then(pair.or(single));
        run_part(&named.or(numbered), wanted, inp)
    }
}

/// A string between quotes, as the text that it stands for.
#[derive(Clone, Copy)]
pub struct Quoted;

impl<'src> IsParser<&'src str, String, EmptyText> for Quoted {}

impl<'src> Part<'src, &'src str, String, EmptyText> for Quoted {
    fn run(&self, wanted: bool, inp: &mut TextRef<'src, '_, EmptyText>) -> PResult<Option<String>> {
        let plain = any().filter(|c: &char| *c >= ' ' && *c != '"' && *c != '\\');
        let text = plain
            .or(just('\\').ignore_then(part_of(Escaped)))
            .repeated()
            .collect::<String>()
            .delimited_by(just('"'), just('"'));
        run_part(&text, wanted, inp)
    }
}

/// A number, as its text.
#[derive(Clone, Copy)]
pub struct Number;

impl<'src> IsParser<&'src str, String, EmptyText> for Number {}

impl<'src> Part<'src, &'src str, String, EmptyText> for Number {
    fn run(&self, wanted: bool, inp: &mut TextRef<'src, '_, EmptyText>) -> PResult<Option<String>> {
        let fraction = just('.').ignore_then(text::digits(10));
        let sign = one_of("+-").or_not();
        let exponent = one_of("eE").then(sign).ignore_then(text::digits(10));
        let number = group((
            just('-').or_not(),
            text::int(10),
            fraction.or_not(),
            exponent.or_not(),
        ));
        let all = any().repeated().collect::<String>();
        run_part(&all.nested_in(number.to_slice()), wanted, inp)
    }
}

/// A leaf of the grammar, with what is blank around it: a value that is no list and no object, or a name and its colon.
#[derive(Clone, Copy)]
enum Leaf {
    Scalar,
    Name,
}

impl<'src> IsParser<&'src str, Value, EmptyText> for Leaf {}

impl<'src> Part<'src, &'src str, Value, EmptyText> for Leaf {
    fn run(&self, wanted: bool, inp: &mut TextRef<'src, '_, EmptyText>) -> PResult<Option<Value>> {
        match *self {
            Leaf::Scalar => {
                let scalar = choice((
                    part_of(Quoted).map(|text| Value::Tree(Tree::Text(text))),
                    part_of(Number).map(|number| Value::Tree(Tree::Number(number))),
                    just("null").map(|_| Value::Tree(Tree::Null)),
                    just("true").map(|_| Value::Tree(Tree::True)),
                    just("false").map(|_| Value::Tree(Tree::False)),
                ));
                run_part(&scalar.padded_with(Blank), wanted, inp)
            }
            Leaf::Name => {
                let name = part_of(Quoted).map(|name| Value::Tree(Tree::Text(name)));
                let colon = just(':').padded_with(Blank);
                run_part(&name.padded_with(Blank).then_ignore(colon), wanted, inp)
            }
        }
    }
}

impl MayStay for Leaf {}

/// A comma or a bracket, with what is blank around it.
#[derive(Clone, Copy)]
struct Mark(char);

impl<'src> IsParser<&'src str, Value, EmptyText> for Mark {}

impl<'src> Part<'src, &'src str, Value, EmptyText> for Mark {
    fn run(&self, wanted: bool, inp: &mut TextRef<'src, '_, EmptyText>) -> PResult<Option<Value>> {
        let mark = just(self.0).map(|_| Value::Mark);
        run_part(&mark.padded_with(Blank), wanted, inp)
    }
}

impl MayStay for Mark {}

/// The leaves, by number.
const SCALAR: usize = 0;

const NAME: usize = 1;

const COMMA: usize = 2;

const LIST_OPENS: usize = 3;

const LIST_ENDS: usize = 4;

const OBJECT_OPENS: usize = 5;

const OBJECT_ENDS: usize = 6;

/// The mappers, by number.
const LIST: usize = 0;

const OBJECT: usize = 1;

/// How values are made of values.
#[derive(Drop)]
struct Trees;

impl Values<SimpleSpan, EmptyErr> for Trees {
    type Value = Value;

    /// Of a mark and a value the value, and of a name and a value the member.
    fn pair(
        &self,
        _alloc: Global,
        _number: usize,
        first: Value,
        second: Value,
    ) -> Result<Value, AllocError> {
        match (first, second) {
            (Value::Mark, inside) => Ok(inside),
            (Value::Tree(Tree::Text(name)), Value::Tree(value)) => Ok(Value::Member(name, value)),
            (inside, _closing) => Ok(inside),
        }
    }

    fn list(&self, _alloc: Global, items: Vec<Value>) -> Result<Value, AllocError>
        ensures { IfOk result (λ _. ⊤) }
    {
        Ok(Value::Items(items))
    }

    fn map(&self, alloc: Global, mapper: usize, value: Value) -> Result<Value, AllocError> {
        match value {
            Value::Items(items) if mapper == LIST => list_of(alloc, items),
            Value::Items(items) => object_of(alloc, items),
            other => Ok(other),
        }
    }

    fn option(&self, _alloc: Global, value: Option<Value>) -> Result<Value, AllocError>
        ensures { IfOk result (λ _. ⊤) }
    {
        Ok(value.unwrap_or(Value::Mark))
    }

    fn unit(&self, _alloc: Global) -> Result<Value, AllocError> {
        Ok(Value::Mark)
    }

    fn try_map(
        &self,
        _alloc: Global,
        _mapper: usize,
        value: Value,
        _span: SimpleSpan,
    ) -> Result<Result<Value, EmptyErr>, AllocError> {
        Ok(Ok(value))
    }
}

/// The list of these items.
fn list_of(alloc: Global, items: Vec<Value>) -> Result<Value, AllocError> {
    let mut list = Vec::new(alloc);
    for item in items {
        match item {
            Value::Tree(tree) => list.push(tree)?,
            other => drop(other),
        }
    }
    Ok(Value::Tree(Tree::List(list)))
}

/// The object of these members.
fn object_of(alloc: Global, items: Vec<Value>) -> Result<Value, AllocError> {
    let mut members = Vec::new(alloc);
    for item in items {
        match item {
            Value::Member(name, value) => members.push((name, value))?,
            other => drop(other),
        }
    }
    Ok(Value::Tree(Tree::Object(members)))
}

/// Any number of items, with commas between them.
const ANY_NUMBER: SepCfg = SepCfg {
    at_least: 0,
    at_most: None,
    allow_leading: false,
    allow_trailing: false,
};

/// Items with commas between them, from one mark to another.
fn items_rules(
    rules: &mut Rules,
    opening: usize,
    item: Node,
    closing: usize,
) -> Result<Node, BuildError> {
    let opening = rules.leaf(opening)?;
    let comma = rules.leaf(COMMA)?;
    let items = rules.separated_by(item, comma, ANY_NUMBER)?;
    let closing = rules.leaf(closing)?;
    let closed = rules.then(items, closing)?;
    rules.then(opening, closed)
}

/// A value.
fn tree_rules(rules: &mut Rules) -> Result<Recursive, RecursiveError> {
    rules.recursive(|rules, tree| {
        let value = rules.rule(tree)?;
        let scalar = rules.leaf(SCALAR)?;
        let values = items_rules(rules, LIST_OPENS, value, LIST_ENDS)?;
        let list = rules.map(values, LIST)?;
        let name = rules.leaf(NAME)?;
        let member = rules.then(name, value)?;
        let members = items_rules(rules, OBJECT_OPENS, member, OBJECT_ENDS)?;
        let object = rules.map(members, OBJECT)?;
        rules.choice(&[scalar, list, object])
    })
}

/// A sum over the tree.
#[unsafe(no_mangle)]
pub extern "C" fn bench_tree_parse(alloc: Global, bytes: &[u8]) -> u64 {
    run_tree(alloc, bytes, true)
}

/// 1 where the text is JSON.
#[unsafe(no_mangle)]
pub extern "C" fn bench_tree_check(alloc: Global, bytes: &[u8]) -> u64 {
    run_tree(alloc, bytes, false)
}

/// The leaves, in the order of their numbers.
fn tree_leaves() -> [Either<OfPart<Leaf>, OfPart<Mark>>; 7] {
    [
        Either::Left(part_of(Leaf::Scalar)),
        Either::Left(part_of(Leaf::Name)),
        Either::Right(part_of(Mark(','))),
        Either::Right(part_of(Mark('['))),
        Either::Right(part_of(Mark(']'))),
        Either::Right(part_of(Mark('{'))),
        Either::Right(part_of(Mark('}'))),
    ]
}

fn run_tree(alloc: Global, bytes: &[u8], wanted: bool) -> u64 {
    let Ok(text) = std::str::from_utf8(bytes) else {
        return 0;
    };
    let mut rules = Rules::new(alloc);
    let Ok(start) = tree_rules(&mut rules) else {
        return 0;
    };
    let leaves = tree_leaves();
    let actions = Leaves {
        leaves: &leaves,
        values: Trees,
    };
    match close(&rules, start, &actions, usize::MAX) {
        Ok(grammar) => once(&grammar.map(weight_of_value), alloc, text, wanted),
        Err(_) => 0,
    }
}

/// A number that depends on each value of a tree and on where it stands.
pub fn weight_of(tree: &Tree) -> u64 {
    match tree {
        Tree::Null => 1,
        Tree::False => 2,
        Tree::True => 3,
        Tree::Number(text) | Tree::Text(text) => text.len() as u64,
        Tree::List(items) => {
            let mut weight = 4u64;
            for item in items {
                weight = weight.wrapping_mul(31).wrapping_add(weight_of(item));
            }
            weight
        }
        Tree::Object(members) => {
            let mut weight = 5u64;
            for (name, value) in members {
                weight = weight.wrapping_mul(31).wrapping_add(name.len() as u64);
                weight = weight.wrapping_mul(31).wrapping_add(weight_of(value));
            }
            weight
        }
    }
}

fn weight_of_value(value: Value) -> u64 {
    match value {
        Value::Tree(tree) => weight_of(&tree),
        _other => 0,
    }
}
