//! S-expressions with texts as JSON has them, and texts of a length that stands before them.
use super::printed::Refusal;
use chumsky::PResult;
use chumsky::combinator::{Part, part_of, run_part};
use chumsky::extra::RichText;
use chumsky::input::InputRef;
use chumsky::prelude::*;
use chumsky::recursive::{Leaves, MayStay, RecursiveError, Values};
use json_tree::leaves::Quoted;
use json_tree::tree::QuotedText;
use std::alloc::{AllocError, Global};
use std::fmt;
use std::fmt::{Display, Formatter};

/// The leaves, by number.
const GAP: usize = 0;

const ATOM: usize = 1;

const OPENING: usize = 2;

const CLOSING: usize = 3;

/// How deep lists may stand within one another.
pub const DEEPEST: usize = 1000;

/// An expression.
#[derive(Debug, Drop)]
pub enum Expression {
    Word(String),
    Text(String),
    List(Vec<Expression>),
}

/// What a node of the grammar gives: an expression, or a mark.
type Value = Option<Expression>;

/// White space, and comments: what follows a `;` on its line.
#[derive(Clone, Copy)]
struct Gap;

impl<'src> IsParser<&'src str, (), RichText> for Gap {}

impl<'src> Part<'src, &'src str, (), RichText> for Gap {
    fn run(
        &self,
        wanted: bool,
        inp: &mut InputRef<'src, '_, &'src str, RichText>,
    ) -> PResult<Option<()>> {
        let comment = just(';')
            .then(none_of("\n").repeated())
            .labelled("a comment");
        let gap = text::whitespace()
            .then(comment.then(text::whitespace()).repeated())
            .ignored();
        run_part(&gap, wanted, inp)
    }
}

/// A text of a length that stands before it, whatever is in it, as `#5:(" ;)`.
#[derive(Clone, Copy)]
struct Counted;

impl<'src> IsParser<&'src str, String, RichText> for Counted {}

impl<'src> Part<'src, &'src str, String, RichText> for Counted {
    fn run(
        &self,
        wanted: bool,
        inp: &mut InputRef<'src, '_, &'src str, RichText>,
    ) -> PResult<Option<String>> {
        let length = text::int::<_, RichText>(10)
            .from_str::<usize>()
            .filter_map(|length| length.ok())
            .labelled("a length");
        let text = any()
            .repeated()
            .configure(|config, length| config.exactly(*length))
            .collect::<String>();
        let counted = length.then_ignore(just(':')).ignore_with_ctx(text);
        run_part(&just('#').ignore_then(counted), wanted, inp)
    }
}

/// A leaf of the grammar, with any gap after it.
#[derive(Clone, Copy)]
enum Leaf {
    Gap,
    Atom,
    Mark(char),
}

impl<'src> IsParser<&'src str, Value, RichText> for Leaf {}

impl MayStay for Leaf {}

impl<'src> Part<'src, &'src str, Value, RichText> for Leaf {
    fn run(
        &self,
        wanted: bool,
        inp: &mut InputRef<'src, '_, &'src str, RichText>,
    ) -> PResult<Option<Value>> {
        match *self {
            Leaf::Gap => run_part(&part_of(Gap).map(|_| None), wanted, inp),
            Leaf::Atom => {
                let word = none_of("()\"#; \t\r\n").repeated().at_least(1);
                let text = part_of(Quoted).or(part_of(Counted));
                let atom = word
                    .collect::<String>()
                    .map(|word| Some(Expression::Word(word)))
                    .or(text.map(|text| Some(Expression::Text(text))))
                    .labelled("an atom");
                run_part(&atom.then_ignore(part_of(Gap)), wanted, inp)
            }
            Leaf::Mark(mark) => {
                let mark = just(mark).map(|_| None);
                run_part(&mark.then_ignore(part_of(Gap)), wanted, inp)
            }
        }
    }
}

/// How expressions are made of expressions.
#[derive(Drop)]
struct Expressions;

impl Values<SimpleSpan, Rich<char>> for Expressions {
    type Value = Value;

    fn pair(
        &self,
        _alloc: Global,
        _number: usize,
        first: Value,
        second: Value,
    ) -> Result<Value, AllocError> {
        Ok(first.or(second))
    }

    fn option(&self, _alloc: Global, value: Option<Value>) -> Result<Value, AllocError> {
        Ok(value.flatten())
    }

    fn unit(&self, _alloc: Global) -> Result<Value, AllocError> {
        Ok(None)
    }

    fn map(&self, _alloc: Global, _mapper: usize, value: Value) -> Result<Value, AllocError> {
        Ok(value)
    }

    fn list(&self, alloc: Global, items: Vec<Value>) -> Result<Value, AllocError> {
        let mut list = Vec::new(alloc);
        for item in items {
            if let Some(expression) = item {
                list.push(expression)?;
            }
        }
        Ok(Some(Expression::List(list)))
    }

    fn try_map(
        &self,
        _alloc: Global,
        _mapper: usize,
        value: Value,
        _span: SimpleSpan,
    ) -> Result<Result<Value, Rich<char>>, AllocError> {
        Ok(Ok(value))
    }
}

/// Any number of expressions, after a gap.
fn all_expressions(rules: &mut Rules) -> Result<Recursive, RecursiveError> {
    let expression = rules.recursive(|rules, expression| {
        let atom = rules.leaf(ATOM)?;
        let opening = rules.leaf(OPENING)?;
        let inside = rules.rule(expression)?;
        let items = rules.repeated(inside, 0, None)?;
        let closing = rules.leaf(CLOSING)?;
        let closed = rules.then(items, closing)?;
        let list = rules.then(opening, closed)?;
        rules.choice(&[atom, list])
    })?;
    rules.recursive(|rules, _| {
        let gap = rules.leaf(GAP)?;
        let one = rules.rule(expression)?;
        let all = rules.repeated(one, 0, None)?;
        rules.then(gap, all)
    })
}

/// The expressions of a text. One that is deeper than `DEEPEST` is refused by `Stop::TooDeep`.
pub fn parse_expressions(
    alloc: Global,
    text: &str,
) -> Result<ParseResult<Vec<Expression>, Rich<char>>, Refusal> {
    let mut rules = Rules::new(alloc);
    let start = all_expressions(&mut rules)?;
    let leaves = [
        part_of(Leaf::Gap),
        part_of(Leaf::Atom),
        part_of(Leaf::Mark('(')),
        part_of(Leaf::Mark(')')),
    ];
    let actions = Leaves {
        leaves: &leaves,
        values: Expressions,
    };
    match rules.close(start, &actions, DEEPEST + 2) {
        Ok(grammar) => {
            let all = grammar.map(|value| whole(alloc, value));
            all.parse(alloc, text).map_err(Refusal::Run)
        }
        Err(_) => Err(Refusal::Rules),
    }
}

/// The expressions at the end.
fn whole(alloc: Global, value: Value) -> Vec<Expression> {
    match value {
        Some(Expression::List(items)) => items,
        _other => Vec::new(alloc),
    }
}

impl Display for Expression {
    fn fmt<W: fmt::Write>(&self, f: &mut Formatter<W>) -> fmt::Result {
        match self {
            Expression::Word(word) => write!(f, "{word}"),
            Expression::Text(text) => write!(f, "{}", QuotedText(text.as_str())),
            Expression::List(items) => {
                write!(f, "(")?;
                for (index, item) in items.iter().enumerate() {
                    if index > 0 {
                        write!(f, " ")?;
                    }
                    write!(f, "{item}")?;
                }
                write!(f, ")")
            }
        }
    }
}

/// Expressions as text, each on a line of its own.
#[derive(Clone, Copy)]
pub struct ExpressionsText<'a>(pub &'a [Expression]);

impl Display for ExpressionsText<'_> {
    fn fmt<W: fmt::Write>(&self, f: &mut Formatter<W>) -> fmt::Result {
        for expression in self.0 {
            writeln!(f, "{expression}")?;
        }
        Ok(())
    }
}
