//! Grammars that call themselves before they take anything, limits of none and of one, lists that want too many items; and
//! errors that merge in their own way.
ghost use Rattle.std.specs.Prelude.{◌≡◌, ⊤, ℕ, List, Option, Some, None, IfOk, IsOk, map, slice_get};
ghost use Rattle.std.specs.List.{filter_map};
ghost use Rattle.std.specs.Iterator.{IsFinite, Drains};
ghost use Rattle.chumsky_input.specs.Wanted.{named_token};

use super::grammars::Counts;
use answers::asserts::assert_answers;
use answers::extras::Own;
use answers::leaves::just_text;
use answers::says::Says;
use chumsky::error::{DefaultExpected, Error};
use chumsky::input::{InputRef, Tokens};
use chumsky::prelude::*;
use chumsky::recursive::{BuildError, Leaves, Node, WellFounded};
use chumsky::util::{Expectation, MaybeRef};
use chumsky::{Failure, Stop};
use std::alloc::{AllocError, AllocGlobal, Global};
use std::process::Abort;

/// Asserts what the one rule of this body answers under a limit. Leaf 0 is an `a`, leaf 1 a `b`, and the value of a text is
/// how many leaves took it.
fn assert_rule<
    R: Abort + AllocGlobal,
    F: FnOnce(&mut Rules, Recursive) -> Result<Node, BuildError>,
>(rt: &R, limit: usize, body: F, rows: &[(&str, &str)]) {
    let mut rules = Rules::new(rt.alloc());
    let start = rules.recursive(body).expect(rt, "refused");
    let leaves = [just_text("a").to(1), just_text("b").to(1)];
    let actions = Leaves {
        leaves: &leaves,
        values: Counts,
    };
    match close(&rules, start, &actions, limit) {
        Ok(grammar) => assert_answers(rt, &grammar, rows),
        Err(_) => assert!(rt; false),
    }
}

#[test]
fn a_rule_that_is_a_call_of_itself_is_too_deep(rt: HostRuntime) {
    let rows = [("", "refused TooDeep"), ("a", "refused TooDeep")];
    assert_rule(&rt, 1_000, |rules, again| rules.rule(again), &rows);
    assert_rule(
        &rt,
        1_000,
        |rules, again| {
            let call = rules.rule(again)?;
            rules.not(call)
        },
        &rows,
    );
    assert_rule(
        &rt,
        1_000,
        |rules, again| {
            let call = rules.rule(again)?;
            rules.or_not(call)
        },
        &rows,
    );
}

/// Any number of an `a`, and then a `b`.
fn some_a_then_b(rules: &mut Rules, again: Recursive) -> Result<Node, BuildError> {
    let a = rules.leaf(0)?;
    let call = rules.rule(again)?;
    let more = rules.then(a, call)?;
    let b = rules.leaf(1)?;
    rules.choice(&[more, b])
}

/// The start is a call too.
#[test]
fn a_limit_counts_the_calls_that_are_open(rt: HostRuntime) {
    let rows = [("b", "refused TooDeep"), ("", "refused TooDeep")];
    assert_rule(&rt, 0, some_a_then_b, &rows);
    let rows = [
        ("b", "ok 1"),
        ("ab", "refused TooDeep"),
        ("b", "ok 1"),
        ("a", "refused TooDeep"),
        ("c", "error 0..1 expected 'a', 'b' found 'c'"),
    ];
    assert_rule(&rt, 1, some_a_then_b, &rows);
    let rows = [
        ("ab", "ok 2"),
        ("aab", "refused TooDeep"),
        ("b", "ok 1"),
        ("ac", "error 1..2 expected 'a', 'b' found 'c'"),
    ];
    assert_rule(&rt, 2, some_a_then_b, &rows);
}

/// A list of a leaf, and a list of an item that is none.
#[test]
fn a_list_node_may_want_more_items_than_any_input_has(rt: HostRuntime) {
    let rows = [
        ("a", "error 1..1 expected 'a' found end"),
        ("", "error 0..0 expected 'a' found end"),
        ("ab", "error 1..2 expected 'a' found 'b'"),
    ];
    assert_rule(
        &rt,
        1,
        |rules, _| {
            let a = rules.leaf(0)?;
            rules.repeated(a, usize::MAX, None)
        },
        &rows,
    );
    let rows = [
        ("ab", "error 2..2 expected 'a', 'b' found end"),
        ("", "error 0..0 expected 'a', 'b' found end"),
        ("ac", "error 1..2 expected 'a', 'b' found 'c'"),
    ];
    assert_rule(
        &rt,
        1,
        |rules, _| {
            let a = rules.leaf(0)?;
            let b = rules.leaf(1)?;
            let letter = rules.choice(&[a, b])?;
            rules.repeated(letter, usize::MAX, Some(usize::MAX))
        },
        &rows,
    );
}

/// Runs a rule that is an `a`, as a grammar of its own under this limit.
fn run_a_within<'src>(
    inp: &mut InputRef<'src, '_, &'src str, Own>,
    limit: usize,
) -> Result<usize, Failure<Rich<char>>> {
    let mut rules = Rules::new(inp.alloc());
    let Ok(start) = rules.recursive(|rules, _| rules.leaf(0)) else {
        return Err(inp.stop(Stop::Memory));
    };
    let leaves = [just_text("a").to(1)];
    let actions = Leaves {
        leaves: &leaves,
        values: Counts,
    };
    match close(&rules, start, &actions, limit) {
        Ok(grammar) => inp.parse(grammar),
        Err(_) => Err(inp.stop(Stop::Memory)),
    }
}

/// Asserts that a rule whose leaf runs a grammar of its own is well-founded, and what it answers under these limits.
fn assert_within<R: Abort + AllocGlobal>(
    rt: &R,
    limit: usize,
    limit_within: usize,
    rows: &[(&str, &str)],
) {
    let mut rules = Rules::new(rt.alloc());
    let start = rules
        .recursive(|rules, _| rules.leaf(0))
        .expect(rt, "refused");
    let leaves = [custom::<_, &str, usize, Own>(move |inp| run_a_within(inp, limit_within))];
    let actions = Leaves {
        leaves: &leaves,
        values: Counts,
    };
    let grammar = close(&rules, start, &actions, limit).expect(rt, "not closed");
    match grammar.well_founded().expect(rt, "refused") {
        WellFounded::Order(order) => {
            assert_eq!(rt; order.len(), 1);
            assert_eq!(rt; order[0], start);
        }
        _ => assert!(rt; false),
    }
    assert_answers(rt, &grammar, rows);
}

/// Rules that are open within a leaf count by the limit of the leaf's own grammar, and by no other.
#[test]
fn a_leaf_may_be_too_deep_by_itself(rt: HostRuntime) {
    let rows = [("a", "refused TooDeep"), ("", "refused TooDeep")];
    assert_within(&rt, 1, 0, &rows);
    assert_within(&rt, 1_000, 0, &rows);
    assert_within(&rt, 0, 1, &rows);
    let rows = [("a", "ok 1"), ("", "error 0..0 expected 'a' found end")];
    assert_within(&rt, 1, 1, &rows);
}

/// The first token that was expected; of two errors at one place the later one.
#[derive(Drop)]
struct Later {
    token: Option<char>,
}

impl<I: Tokens<Token = char, Span = SimpleSpan>> Error<I> for Later {
    ghost Seen = { Option ℕ };

    ghost seen = { λ e. e.token };

    ghost expectation = { λ expected _ _. slice_get (filter_map named_token expected) 0 };

    ghost merged = { λ a b. b };

    ghost takes_no_memory = { ⊤ };

    fn expected_found<'a, X: Iterator + Drop>(
        _alloc: Global,
        expected: X,
        _found: Option<MaybeRef<'a, char>>,
        _span: SimpleSpan,
    ) -> Result<Self, AllocError>
    where
        X::Item: Expectation<char> + Drop,
        requires can { X.can_next expected }
        requires ends { IsFinite (X.remaining expected) }
        ensures error { IfOk result (λ e. (xs : List X.Item) × Drains X.next_gives expected xs × (e.token ≡ slice_get (filter_map named_token (map X.Item.expectation xs)) 0)) }
        ensures memory { ⊤ → IsOk result }
    {
        let mut first = None;
        for item in expected {
            if let DefaultExpected::Token(token) = item.as_expected() {
                first = first.or(Some(*token.get()));
            }
        }
        Ok(Later { token: first })
    }

    fn merge(self, other: Self) -> Result<Self, AllocError> {
        Ok(other)
    }
}

impl Says for Later {
    fn say(&self, line: &mut String) -> Result<(), AllocError> {
        if let Some(token) = &self.token {
            line.push(' ')?;
            line.push(*token)?;
        }
        Ok(())
    }
}

/// Errors that keep what was expected last, over texts.
type Latest = extra::Err<Later>;

#[test]
fn an_error_may_keep_what_was_expected_last(rt: HostRuntime) {
    let either = choice((just::<_, &str, Latest>('a'), just('b')));
    let rows = [
        ("c", "error b"),
        ("a", "ok 'a'"),
        ("ac", "error"),
        ("", "error b"),
    ];
    assert_answers(&rt, &either, &rows);
    let three = choice((one_of::<_, &str, Latest>("xy"), just('b'), one_of("cd")));
    assert_answers(&rt, &three, &[("z", "error c"), ("d", "ok 'd'")]);
    let further = just::<_, &str, Latest>('a')
        .then(just('b'))
        .or(just('c').then(just('d')));
    assert_answers(
        &rt,
        &further,
        &[("ax", "error b"), ("cx", "error d"), ("x", "error c")],
    );
}
