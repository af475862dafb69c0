//! What nodes of a grammar do to a state that is restored, and to a list that is cut, where they go back.
use answers::asserts::assert_line;
use chumsky::Failure;
use chumsky::input::InputRef;
use chumsky::inspector::{Inspector, RollbackState, TruncateState};
use chumsky::prelude::*;
use chumsky::primitive::Reader;
use chumsky::recursive::{BuildError, Leaves, Node, Recursive, SepCfg, Values};
use std::alloc::{AllocError, AllocGlobal, Global};
use std::process::Abort;

/// The errors of a text, and a state.
type On<S> = extra::Full<Rich<char>, S, ()>;

/// A state that adds up numbers.
trait Adds {
    /// Nothing yet.
    fn nothing(alloc: Global) -> Self;

    /// Adds a number, unless it is zero.
    fn add(&mut self, number: u64);

    /// The sum of what was added and not gone back from.
    fn sum(&self) -> u64;
}

/// The sum is restored.
impl Adds for RollbackState<u64> {
    fn nothing(_alloc: Global) -> RollbackState<u64> {
        RollbackState(0)
    }

    fn add(&mut self, number: u64) {
        self.0 = self.0.wrapping_add(number);
    }

    fn sum(&self) -> u64 {
        self.0
    }
}

/// The numbers are a list that is cut.
impl Adds for TruncateState<u64> {
    fn nothing(alloc: Global) -> TruncateState<u64> {
        TruncateState(Vec::new(alloc))
    }

    fn add(&mut self, number: u64) {
        if number != 0 {
            let _pushed = self.0.push(number);
        }
    }

    fn sum(&self) -> u64 {
        let mut sum: u64 = 0;
        for number in self.0.as_slice() {
            sum = sum.wrapping_add(*number);
        }
        sum
    }
}

/// Takes a letter. First it adds to the state, on both paths.
#[derive(Clone, Copy, Drop)]
struct Adding {
    letter: char,
    adds: u64,
}

impl<'src, S: Adds + Inspector<&'src str>> Reader<'src, &'src str, u64, On<S>> for Adding {
    fn read(
        &self,
        inp: &mut InputRef<'src, '_, &'src str, On<S>>,
    ) -> Result<u64, Failure<Rich<char>>> {
        inp.state().add(self.adds);
        match inp.check(just(self.letter)) {
            Ok(()) => Ok(self.adds),
            Err(Failure::Error(error)) => Err(Failure::Error(error)),
            Err(Failure::Stop(stop)) => Err(Failure::Stop(stop)),
        }
    }
}

/// Values are sums.
#[derive(Drop)]
struct Sums;

impl Values<SimpleSpan, Rich<char>> for Sums {
    type Value = u64;

    fn pair(&self, _alloc: Global, _number: usize, a: u64, b: u64) -> Result<u64, AllocError> {
        Ok(a.wrapping_add(b))
    }

    fn option(&self, _alloc: Global, value: Option<u64>) -> Result<u64, AllocError> {
        Ok(value.unwrap_or(0))
    }

    fn unit(&self, _alloc: Global) -> Result<u64, AllocError> {
        Ok(0)
    }

    fn map(&self, _alloc: Global, _mapper: usize, value: u64) -> Result<u64, AllocError> {
        Ok(value)
    }

    fn list(&self, _alloc: Global, items: Vec<u64>) -> Result<u64, AllocError> {
        let mut sum: u64 = 0;
        for item in items.as_slice() {
            sum = sum.wrapping_add(*item);
        }
        Ok(sum)
    }

    fn try_map(
        &self,
        _alloc: Global,
        _mapper: usize,
        value: u64,
        _span: SimpleSpan,
    ) -> Result<Result<u64, Rich<char>>, AllocError> {
        Ok(Ok(value))
    }
}

/// The number of the leaf that takes an `a` and adds one.
const ADDING_A: usize = 0;
/// The number of the leaf that takes a `b` and adds ten.
const ADDING_B: usize = 1;
/// The numbers of the leaves that take a letter and add nothing.
const A: usize = 2;

const B: usize = 3;

const C: usize = 4;

/// Asserts what a node answers as the body of the one rule, and which sum `parse` and `check` leave, both in a number that is
/// restored and in a list that is cut.
fn assert_node<R: Abort + AllocGlobal>(
    rt: &R,
    rules: &mut Rules,
    node: Result<Node, BuildError>,
    rows: &[(&str, &str, u64)],
) {
    let node = node.expect(rt, "refused");
    let start = rules.declare().expect(rt, "refused");
    rules.define(start, node).expect(rt, "refused");
    assert_on::<RollbackState<u64>, R>(rt, rules, start, rows);
    assert_on::<TruncateState<u64>, R>(rt, rules, start, rows);
}

/// Asserts what rules answer in states of a type, and which sum `parse` and `check` leave.
fn assert_on<'src, S, R>(rt: &R, rules: &Rules, start: Recursive, rows: &[(&'src str, &str, u64)])
where
    S: Adds + Inspector<&'src str> + Drop,
    R: Abort + AllocGlobal,
{
    let leaves = [
        custom_by::<_, &str, u64, On<S>>(Adding {
            letter: 'a',
            adds: 1,
        }),
        custom_by(Adding {
            letter: 'b',
            adds: 10,
        }),
        custom_by(Adding {
            letter: 'a',
            adds: 0,
        }),
        custom_by(Adding {
            letter: 'b',
            adds: 0,
        }),
        custom_by(Adding {
            letter: 'c',
            adds: 0,
        }),
    ];
    let actions = Leaves {
        leaves: &leaves,
        values: Sums,
    };
    match close(rules, start, &actions, 1) {
        Ok(grammar) => {
            for (input, line, left) in rows {
                let mut state = S::nothing(rt.alloc());
                let parsed = grammar.parse_with_state(rt.alloc(), *input, &mut state);
                assert_line(rt, parsed, *line);
                assert_eq!(rt; state.sum(), *left);
                let mut other = S::nothing(rt.alloc());
                let checked = grammar.check_with_state(rt.alloc(), *input, &mut other);
                assert!(rt; checked.is_ok());
                assert_eq!(rt; other.sum(), *left);
            }
        }
        Err(_) => assert!(rt; false),
    }
}

/// Two leaves, one after the other.
fn pair(rules: &mut Rules, first: usize, second: usize) -> Result<Node, BuildError> {
    let first = rules.leaf(first)?;
    let second = rules.leaf(second)?;
    rules.then(first, second)
}

/// An adding `a` and a `b`, or an `a` and a `c`.
fn either(rules: &mut Rules) -> Result<Node, BuildError> {
    let first = pair(rules, ADDING_A, B)?;
    let second = pair(rules, A, C)?;
    rules.choice(&[first, second])
}

#[test]
fn a_choice_undoes_what_an_alternative_wrote(rt: HostRuntime) {
    let mut rules = Rules::new(rt.alloc());
    let node = either(&mut rules);
    let rows = [("ac", "ok 0", 0), ("ab", "ok 1", 1)];
    assert_node(&rt, &mut rules, node, &rows);
}

/// An adding `a` and a `b` that may be absent, and an `a` and a `c`.
fn absent(rules: &mut Rules) -> Result<Node, BuildError> {
    let part = pair(rules, ADDING_A, B)?;
    let perhaps = rules.or_not(part)?;
    let rest = pair(rules, A, C)?;
    rules.then(perhaps, rest)
}

#[test]
fn or_not_undoes_what_an_absent_part_wrote(rt: HostRuntime) {
    let mut rules = Rules::new(rt.alloc());
    let node = absent(&mut rules);
    let rows = [("ac", "ok 0", 0), ("abac", "ok 1", 1)];
    assert_node(&rt, &mut rules, node, &rows);
}

/// Adding `a`s with a `b` after each, and an `a`.
fn many(rules: &mut Rules) -> Result<Node, BuildError> {
    let item = pair(rules, ADDING_A, B)?;
    let items = rules.repeated(item, 0, None)?;
    let last = rules.leaf(A)?;
    rules.then(items, last)
}

#[test]
fn a_list_undoes_what_the_item_wrote_that_is_not_there(rt: HostRuntime) {
    let mut rules = Rules::new(rt.alloc());
    let node = many(&mut rules);
    let rows = [("ababa", "ok 2", 2), ("a", "ok 0", 0)];
    assert_node(&rt, &mut rules, node, &rows);
}

/// Adding `a`s with an adding `b` between two, and perhaps a `b`.
fn separated(rules: &mut Rules) -> Result<Node, BuildError> {
    let item = rules.leaf(ADDING_A)?;
    let separator = rules.leaf(ADDING_B)?;
    let settings = SepCfg {
        at_least: 0,
        at_most: None,
        allow_leading: false,
        allow_trailing: false,
    };
    let items = rules.separated_by(item, separator, settings)?;
    let last = rules.leaf(B)?;
    let perhaps = rules.or_not(last)?;
    rules.then(items, perhaps)
}

#[test]
fn a_separated_list_undoes_what_its_last_separator_wrote(rt: HostRuntime) {
    let mut rules = Rules::new(rt.alloc());
    let node = separated(&mut rules);
    let rows = [("aba", "ok 2", 12), ("abab", "ok 2", 12)];
    assert_node(&rt, &mut rules, node, &rows);
}

/// No adding `a` with a `b` after it, and an adding `a` and a `c`.
fn denied(rules: &mut Rules) -> Result<Node, BuildError> {
    let part = pair(rules, ADDING_A, B)?;
    let denied = rules.not(part)?;
    let rest = pair(rules, ADDING_A, C)?;
    rules.then(denied, rest)
}

#[test]
fn not_undoes_what_its_part_wrote(rt: HostRuntime) {
    let mut rules = Rules::new(rt.alloc());
    let node = denied(&mut rules);
    let rows = [
        ("ac", "ok 1", 1),
        ("ab", "error 0..2 expected something else found 'a'", 0),
    ];
    assert_node(&rt, &mut rules, node, &rows);
}
