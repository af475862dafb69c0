//! One clone of each type that can be cloned, of parts whose clones take memory.
use crate::cloning::Cloning;
use crate::line::Line;
use arrayvec::ArrayVec;
use chumsky::combinator::RepeatedCfg;
use chumsky::extra::RichText;
use chumsky::inspector::{RollbackState, SimpleState, TruncateState};
use chumsky::pratt::{infix, infix_with, left, postfix, postfix_with, prefix, prefix_with};
use chumsky::prelude::*;
use chumsky::primitive::{select, select_ref};
use chumsky::recovery::Closes;
use chumsky::recursive::{BuildError, CloseError, DefineError, SepCfg};
use chumsky::span::SimpleSpan;
use chumsky::util::MaybeRef;
use chumsky::{DefaultExpected, IterParserDebug, Stop};
use std::alloc::Global;
use std::marker::PhantomData;

/// Primitives.
pub fn sweep_clone_primitive(alloc: Global, row: usize, _check: bool, again: bool) -> Line {
    let mut cloning = Cloning::new(alloc, again);
    match row {
        0 => cloning.show(end::<&str, RichText>()),
        1 => cloning.show(empty::<&str, RichText>()),
        2 => {
            let held = cloning.held();
            cloning.show(held);
        }
        3 => {
            let letters = cloning.text();
            cloning.show(one_of::<_, &str, RichText>(letters));
        }
        4 => {
            let letters = cloning.text();
            cloning.show(none_of::<_, &str, RichText>(letters));
        }
        5 => cloning.show(any::<&str, RichText>()),
        6 => cloning.show(any_ref::<&[char], extra::Default>()),
        7 => cloning.show(custom::<_, &str, (), RichText>(|_| Ok(()))),
        8 => cloning.show(select::<_, &str, char, RichText>(|c, _| Some(c))),
        9 => cloning.show(select_ref::<_, &[char], char, extra::Default>(|c, _| Some(*c))),
        _ => cloning.none(),
    }
    cloning.line()
}

/// Sequences, choices, groups and sets.
pub fn sweep_clone_sequence(alloc: Global, row: usize, _check: bool, again: bool) -> Line {
    let mut cloning = Cloning::new(alloc, again);
    let (a, b) = (cloning.held(), cloning.held());
    match row {
        0 => cloning.show(a.then(b)),
        1 => cloning.show(a.ignore_then(b)),
        2 => cloning.show(a.then_ignore(b)),
        3 => {
            let c = cloning.held();
            cloning.show(a.delimited_by(b, c));
        }
        4 => cloning.show(a.padded_by(b)),
        5 => cloning.show(a.or(b)),
        6 => cloning.show(a.or_not()),
        7 => cloning.show(choice((a, b))),
        8 => cloning.show(group((a, b))),
        9 => cloning.show(set((a, b))),
        10 => cloning.show(a.and_is(b)),
        11 => cloning.show(a.not()),
        12 => cloning.show(a.rewind()),
        13 => cloning.show(a.lazy()),
        _ => cloning.none(),
    }
    cloning.line()
}

/// Expressions of operators.
pub fn sweep_clone_operators(alloc: Global, row: usize, _check: bool, again: bool) -> Line {
    let mut cloning = Cloning::new(alloc, again);
    let (a, b) = (cloning.held(), cloning.held());
    match row {
        0 => cloning.show(a.pratt((prefix(1, b, |_: String, x: String| x),))),
        1 => cloning.show(a.pratt((postfix(1, b, |x: String, _: String| x),))),
        2 => cloning.show(a.pratt((infix(left(1), b, |x: String, _: String, _: String| x),))),
        3 => {
            let c = cloning.held();
            cloning.show(a.pratt((
                prefix(2, b, |_: String, x: String| x),
                infix(left(1), c, |x: String, _: String, _: String| x),
            )));
        }
        4 => cloning.show(a.pratt((prefix_with(1, b, |_: String, x: String, _| x),))),
        5 => cloning.show(a.pratt((postfix_with(1, b, |x: String, _: String, _| x),))),
        6 => cloning.show(a.pratt((infix_with(left(1), b, |x: String, _: String, _: String, _| x),))),
        _ => cloning.none(),
    }
    cloning.line()
}

/// What is made of an output.
pub fn sweep_clone_mapped(alloc: Global, row: usize, _check: bool, again: bool) -> Line {
    let mut cloning = Cloning::new(alloc, again);
    let a = cloning.held();
    match row {
        0 => cloning.show(a.map(|text| text)),
        1 => cloning.show(a.map_with(|text, _| text)),
        2 => {
            let text = cloning.text();
            cloning.show(a.to(text));
        }
        3 => cloning.show(a.ignored()),
        4 => cloning.show(a.map(Some).unwrapped()),
        5 => cloning.show(a.from_str::<u8>()),
        6 => cloning.show(a.to_slice()),
        7 => cloning.show(a.to_span()),
        8 => cloning.show(a.spanned()),
        9 => cloning.show(a.filter(|_| true)),
        10 => cloning.show(a.filter_map(Some)),
        11 => cloning.show(a.try_map(|text, _| Ok(text))),
        12 => cloning.show(a.try_map_with(|text, _| Ok(text))),
        13 => cloning.show(a.validate(|text, _, _| text)),
        14 => cloning.show(a.map_err(|error| error)),
        15 => cloning.show(a.map_err_with(|error, _| error)),
        16 => cloning.show(a.map_err_with_state(|error, _, _| error)),
        17 => cloning.show(a.map_in(|text, _| Ok(text))),
        18 => cloning.show(a.try_map_in(|text, _, _| Ok(Ok(text)))),
        _ => cloning.none(),
    }
    cloning.line()
}

/// Parsers with a strategy.
pub fn sweep_clone_recovered(alloc: Global, row: usize, _check: bool, again: bool) -> Line {
    let mut cloning = Cloning::new(alloc, again);
    let (a, b, c) = (cloning.held(), cloning.held(), cloning.held());
    match row {
        0 => cloning.show(a.recover_with(via_parser(b))),
        1 => {
            let skipped = skip_until(b.ignored(), c.ignored(), || ());
            cloning.show(a.ignored().recover_with(skipped));
        }
        2 => cloning.show(a.recover_with(skip_then_retry_until(b.ignored(), c.ignored()))),
        3 => {
            let (start, end) = (cloning.text(), cloning.text());
            let others = [(cloning.text(), cloning.text())];
            cloning.show(Closes {
                start,
                end,
                others,
                of: PhantomData::<(&str, RichText)>,
            });
        }
        4 => {
            let nested = nested_delimiters::<_, _, &str, _, _, RichText>(
                '[',
                ']',
                [('(', ')')],
                |span: SimpleSpan| span.end,
            );
            cloning.show(b.map(|_| 0).recover_with(via_parser(nested)));
        }
        _ => cloning.none(),
    }
    cloning.line()
}

/// Lists, and what is made of them.
pub fn sweep_clone_items(alloc: Global, row: usize, _check: bool, again: bool) -> Line {
    let mut cloning = Cloning::new(alloc, again);
    let a = cloning.held();
    match row {
        0 => cloning.show(a.repeated()),
        1 => {
            let b = cloning.held();
            cloning.show(a.separated_by(b));
        }
        2 => cloning.show(a.repeated().enumerate()),
        3 => cloning.show(a.repeated().count()),
        4 => cloning.show(a.repeated().collect::<Vec<String>>()),
        5 => cloning.show(a.repeated().collect_exactly::<ArrayVec<String, 2>>()),
        6 => cloning.show(a.map(Some).into_iter()),
        7 => cloning.show(a.map(Some).repeated().flatten()),
        8 => {
            let start = cloning.text();
            cloning.show(a.repeated().fold(start, |text, _| text));
        }
        9 => {
            let b = cloning.held();
            cloning.show(a.foldl(b.repeated(), |text, _| text));
        }
        10 => {
            let b = cloning.held();
            cloning.show(a.foldl_with(b.repeated(), |text, _, _| text));
        }
        11 => {
            let b = cloning.held();
            cloning.show(a.try_foldl(b.repeated(), |text, _, _| Ok(text)));
        }
        12 => {
            let b = cloning.held();
            cloning.show(a.repeated().foldr(b, |_, text| text));
        }
        13 => {
            let b = cloning.held();
            cloning.show(a.repeated().foldr_with(b, |_, text, _| text));
        }
        _ => cloning.none(),
    }
    cloning.line()
}

/// Parsers under contexts, states and configurations, and over nested inputs.
pub fn sweep_clone_under(alloc: Global, row: usize, _check: bool, again: bool) -> Line {
    let mut cloning = Cloning::new(alloc, again);
    let text = cloning.text();
    match row {
        0 => cloning.show(just::<_, &str, OnText>(text).contextual()),
        1 => cloning.show(just::<_, &str, OnText>(text).configure(|c, _| c)),
        2 => cloning.show(just::<_, &str, OnText>(text).repeated().configure(|c, _| c)),
        3 => cloning.show(
            just::<_, &str, OnText>(text)
                .repeated()
                .try_configure(|c: RepeatedCfg, _: &String, _: SimpleSpan| Ok(c)),
        ),
        4 => {
            let context = cloning.text();
            cloning.show(just::<_, &str, OnText>(text).with_ctx(context));
        }
        5 => cloning.show(map_ctx::<&str, String, OnByte, OnByte, _, _>(
            |byte: &u8| *byte,
            just(text),
        )),
        6 => {
            let other = cloning.text();
            cloning.show(just::<_, &str, RichText>(text).ignore_with_ctx(just::<_, &str, OnText>(
                other,
            )));
        }
        7 => {
            let other = cloning.text();
            cloning.show(just::<_, &str, RichText>(text).then_with_ctx(just::<_, &str, OnText>(
                other,
            )));
        }
        8 => {
            let state = cloning.text();
            cloning.show(just::<_, &str, extra::State<SimpleState<String>>>(text).with_state(
                SimpleState(state),
            ));
        }
        9 => {
            let other = cloning.held();
            cloning.show(just::<_, &str, RichText>(text).nested_in(other.to_slice()));
        }
        _ => cloning.none(),
    }
    cloning.line()
}

/// Errors that say what was expected, under a text.
type OnText = extra::Full<Rich<char>, (), String>;

/// Errors that say what was expected, under a byte.
type OnByte = extra::Full<Rich<char>, (), u8>;

/// Values.
pub fn sweep_clone_value(alloc: Global, row: usize, _check: bool, again: bool) -> Line {
    let mut cloning = Cloning::new(alloc, again);
    let text = cloning.text();
    match row {
        0 => cloning.show(ParseResult::<String, EmptyErr> {
            output: Some(text),
            errors: Vec::new(alloc),
        }),
        1 => cloning.show(DefaultExpected::Token(MaybeRef::Val(text))),
        2 => cloning.show(IterParserDebug {
            nonconsumption_is_ok: true,
        }),
        3 => cloning.show(SimpleSpan { start: 1, end: 2 }),
        4 => cloning.show(SepCfg {
            at_least: 0,
            at_most: None,
            allow_leading: false,
            allow_trailing: false,
        }),
        5 => cloning.show(Stop::TooDeep),
        6 => cloning.show(DefineError::Twice(0)),
        7 => cloning.show(BuildError::Memory),
        8 => cloning.show(CloseError::Undefined(0)),
        9 => cloning.show(SimpleState(text)),
        10 => cloning.show(RollbackState(text)),
        11 => {
            let mut list = Vec::new(alloc);
            cloning.fill(&mut list, text);
            cloning.show(TruncateState(list));
        }
        12 => match cloning.rule() {
            Some(rule) => cloning.show(rule),
            None => cloning.none(),
        },
        13 => match cloning.node() {
            Some(node) => cloning.show(node),
            None => cloning.none(),
        },
        _ => cloning.none(),
    }
    cloning.line()
}

/// An expectation of a token that is lent, as one of its own.
pub fn sweep_into_owned(alloc: Global, _row: usize, _check: bool, again: bool) -> Line {
    let mut cloning = Cloning::new(alloc, again);
    let text = cloning.text();
    cloning.show_owned(&text);
    cloning.line()
}
