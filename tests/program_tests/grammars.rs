//! Grammars that call themselves: what they answer, and how deep they go.
use chumsky::extra::RichText;
use chumsky::prelude::*;
use chumsky::recursive::{Leaves, RecursiveError, Stack, Todo, Values, step};
use chumsky::{Failure, Fault, Stop};
use guide::arithmetic::value_of;
use guide::recursion::{Refused, depth, depth_within};
use std::alloc::{AllocError, Global};

#[test]
fn brackets_tell_how_deep_they_go(rt: HostRuntime) {
    let rows = [("", 0), ("[]", 1), ("[[][]]", 2), ("[][[[]]][]", 3)];
    for (text, deep) in rows {
        let parsed = depth(rt.alloc(), text).expect(&rt, "refused");
        assert!(rt; parsed.output() == Some(&deep));
    }
}

#[test]
fn brackets_fail_where_they_are_amiss(rt: HostRuntime) {
    for (text, start, end) in [("[[]", 3, 3), ("[]]", 2, 3)] {
        let parsed = depth(rt.alloc(), text).expect(&rt, "refused");
        assert!(rt; parsed.output() == None);
        for error in parsed.errors() {
            assert!(rt; *error.span() == SimpleSpan { start, end });
        }
    }
}

#[test]
fn depth_costs_no_stack(rt: HostRuntime) {
    let mut text = String::new(rt.alloc());
    for _ in 0..2_000 {
        text.push('[').expect(&rt, "out of memory");
    }
    for _ in 0..2_000 {
        text.push(']').expect(&rt, "out of memory");
    }
    let parsed = depth(rt.alloc(), text.as_str()).expect(&rt, "refused");
    assert!(rt; parsed.output() == Some(&2_000));
}

/// Each pair of brackets opens one rule within.
#[test]
fn one_rule_more_than_the_limit_is_too_deep(rt: HostRuntime) {
    for (text, least) in [("", 1), ("[]", 2), ("[][]", 2), ("[[]]", 3), ("[[][]]", 3)] {
        assert!(rt; depth_within(rt.alloc(), text, least).is_ok());
        match depth_within(rt.alloc(), text, least - 1) {
            Err(Refused::Running(stop)) => assert!(rt; stop == Stop::TooDeep),
            _ => assert!(rt; false),
        }
    }
}

/// Values are how many leaves there are.
#[derive(Drop)]
pub struct Counts;

impl Values<SimpleSpan, Rich<char>> for Counts {
    type Value = usize;

    fn pair(
        &self,
        _alloc: Global,
        _number: usize,
        a: usize,
        b: usize,
    ) -> Result<usize, AllocError> {
        Ok(a + b)
    }

    fn option(&self, _alloc: Global, count: Option<usize>) -> Result<usize, AllocError> {
        Ok(count.unwrap_or(0))
    }

    fn unit(&self, _alloc: Global) -> Result<usize, AllocError> {
        Ok(0)
    }

    fn map(&self, _alloc: Global, _mapper: usize, count: usize) -> Result<usize, AllocError> {
        Ok(count)
    }

    fn list(&self, _alloc: Global, counts: Vec<usize>) -> Result<usize, AllocError> {
        let mut all = 0;
        for count in counts.as_slice() {
            all = all + *count;
        }
        Ok(all)
    }

    fn try_map(
        &self,
        _alloc: Global,
        _mapper: usize,
        count: usize,
        _span: SimpleSpan,
    ) -> Result<Result<usize, Rich<char>>, AllocError> {
        Ok(Ok(count))
    }
}

/// Brackets within one another, and beside one another.
fn nested(rules: &mut Rules) -> Result<Recursive, RecursiveError> {
    rules.recursive(|rules, brackets| {
        let opening = rules.leaf(0)?;
        let inside = rules.rule(brackets)?;
        let closing = rules.leaf(1)?;
        let opened = rules.then(opening, inside)?;
        let pair = rules.then(opened, closing)?;
        rules.repeated(pair, 0, None)
    })
}

/// A run that a caller takes step by step has the answer of the grammar, and never more frames than one and the limit times
/// the nodes.
#[test]
fn steps_by_hand_end_with_the_answer_and_have_room(rt: HostRuntime) {
    let mut rules = Rules::new(rt.alloc());
    let start = nested(&mut rules).expect(&rt, "refused");
    let leaves = [just::<_, &str, RichText>("[").to(1), just("]").to(1)];
    let actions = Leaves {
        leaves: &leaves,
        values: Counts,
    };
    let limit = 4;
    let most = 1 + limit * rules.nodes().len();
    let body = rules.bodies()[start.number()].expect(&rt, "a rule without a body");
    let by_steps = custom::<_, &str, (Option<usize>, usize), RichText>(|inp| {
        let mut stack = Stack::new(inp.alloc());
        let mut todo = Todo::Begin(body, limit - 1, true);
        let mut deepest = 0;
        loop {
            match step(&actions, &rules, &mut stack, todo, inp) {
                Ok(next) => todo = next,
                Err(Ok(value)) => return Ok((value, deepest)),
                Err(Err(Fault::Stop(stop))) => return Err(inp.stop(stop)),
                Err(Err(Fault::Fail)) => {
                    return match inp.last_error() {
                        Ok(error) => Err(Failure::Error(error)),
                        Err(_) => Err(inp.stop(Stop::Memory)),
                    };
                }
            }
            deepest = deepest.max(stack.len());
        }
    });
    let grammar = close(&rules, start, &actions, limit).expect(&rt, "not closed");
    for (text, count, frames) in [("", 0, 2), ("[]", 2, 5), ("[][]", 4, 5), ("[[[]][]]", 8, 11)] {
        let parsed = by_steps.parse(rt.alloc(), text).expect(&rt, "refused");
        assert!(rt; parsed.output() == Some(&(Some(count), frames)));
        assert!(rt; frames <= most);
        let whole = grammar.parse(rt.alloc(), text).expect(&rt, "refused");
        assert!(rt; whole.output() == Some(&count));
    }
    match by_steps.parse(rt.alloc(), "[[[[]]]]") {
        Err(stop) => assert!(rt; stop == Stop::TooDeep),
        Ok(_) => assert!(rt; false),
    }
}

/// Each grammar of the guide is closed with the limit for its text, which only rules in order have.
#[test]
fn each_grammar_of_the_guide_is_well_founded(rt: HostRuntime) {
    for text in ["", "[]", "]"] {
        assert!(rt; depth(rt.alloc(), text).is_ok());
    }
    for text in ["", "1+2*(3)", "+"] {
        assert!(rt; value_of(rt.alloc(), text).is_ok());
    }
}
