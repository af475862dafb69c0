//! Grammars with the limit for so many tokens: what `close_founded` answers, and what runs of its grammars do.
use answers::asserts::assert_answers;
use answers::leaves::just_text;
use chumsky::prelude::*;
use chumsky::recursive::{
    BuildError, CloseError, FoundedError, Leaves, Node, RecursiveError, Values, WellFounded,
};
use std::alloc::{AllocError, AllocGlobal, Global};
use std::process::Abort;

/// Values are how many leaves there are.
#[derive(Drop)]
struct Counts;

impl Values<SimpleSpan, Rich<char>> for Counts {
    type Value = usize;

    fn pair(
        &self,
        _alloc: Global,
        _number: usize,
        a: usize,
        b: usize,
    ) -> Result<usize, AllocError> {
        Ok(a + b)
    }

    fn option(&self, _alloc: Global, count: Option<usize>) -> Result<usize, AllocError> {
        Ok(count.unwrap_or(0))
    }

    fn unit(&self, _alloc: Global) -> Result<usize, AllocError> {
        Ok(0)
    }

    fn map(&self, _alloc: Global, _mapper: usize, count: usize) -> Result<usize, AllocError> {
        Ok(count)
    }

    fn list(&self, _alloc: Global, counts: Vec<usize>) -> Result<usize, AllocError> {
        let mut all = 0;
        for count in counts.as_slice() {
            all = all + *count;
        }
        Ok(all)
    }

    fn try_map(
        &self,
        _alloc: Global,
        _mapper: usize,
        count: usize,
        _span: SimpleSpan,
    ) -> Result<Result<usize, Rich<char>>, AllocError> {
        Ok(Ok(count))
    }
}

/// What `close_founded` answers for so many tokens, where leaf 0 is an `a`, leaf 1 a `+` and leaf 2 no text at all: the limit
/// of the grammar, or why there is none.
fn limit_or_refusal(
    rules: &Rules,
    start: Recursive,
    tokens: usize,
) -> Result<usize, FoundedError> {
    let leaves = [just_text("a").to(1), just_text("+").to(1), just_text("").to(0)];
    let actions = Leaves {
        leaves: &leaves,
        values: Counts,
    };
    match rules.close_founded(start, &actions, tokens) {
        Ok(grammar) => Ok(grammar.limit),
        Err(error) => Err(error),
    }
}

/// What runs of these rules answer under a limit, with the same leaves and brackets behind them.
fn assert_runs<R: Abort + AllocGlobal>(
    rt: &R,
    rules: &Rules,
    start: Recursive,
    limit: usize,
    rows: &[(&str, &str)],
) {
    let leaves = [
        just_text("a").to(1),
        just_text("+").to(1),
        just_text("").to(0),
        just_text("[").to(1),
        just_text("]").to(1),
    ];
    let actions = Leaves {
        leaves: &leaves,
        values: Counts,
    };
    match rules.close(start, &actions, limit) {
        Ok(grammar) => assert_answers(rt, &grammar, rows),
        Err(_) => assert!(rt; false),
    }
}

/// A sum that begins with a sum.
fn left_recursive(rules: &mut Rules, sum: Recursive) -> Result<Node, BuildError> {
    let call = rules.rule(sum)?;
    let plus = rules.leaf(1)?;
    let left = rules.then(call, plus)?;
    let whole = rules.then(left, call)?;
    let a = rules.leaf(0)?;
    rules.choice(&[whole, a])
}

#[test]
fn a_rule_that_calls_itself_first_is_a_left_cycle(rt: HostRuntime) {
    let mut rules = Rules::new(rt.alloc());
    let start = rules.recursive(left_recursive).expect(&rt, "refused");
    assert_eq!(rt; start.number(), 0);
    assert_eq!(rt; limit_or_refusal(&rules, start, 3), Err(FoundedError::LeftCycle(start)));
    assert_runs(&rt, &rules, start, 10, &[("a", "refused TooDeep")]);
}

/// A sign that may be absent, and then the same again.
fn signed(rules: &mut Rules, again: Recursive) -> Result<Node, BuildError> {
    let sign = rules.leaf(1)?;
    let perhaps = rules.or_not(sign)?;
    let call = rules.rule(again)?;
    rules.then(perhaps, call)
}

#[test]
fn a_call_behind_what_may_be_absent_is_a_left_cycle(rt: HostRuntime) {
    let mut rules = Rules::new(rt.alloc());
    let start = rules.recursive(signed).expect(&rt, "refused");
    assert_eq!(rt; start.number(), 0);
    assert_eq!(rt; limit_or_refusal(&rules, start, 3), Err(FoundedError::LeftCycle(start)));
}

/// Any number of letters that may be absent.
fn absent_letters(rules: &mut Rules, _rule: Recursive) -> Result<Node, BuildError> {
    let a = rules.leaf(0)?;
    let perhaps = rules.or_not(a)?;
    rules.repeated(perhaps, 0, None)
}

#[test]
fn a_list_whose_item_may_be_empty_is_an_empty_round(rt: HostRuntime) {
    let mut rules = Rules::new(rt.alloc());
    let start = rules.recursive(absent_letters).expect(&rt, "refused");
    match limit_or_refusal(&rules, start, 3) {
        Err(FoundedError::EmptyRound(list)) => assert_eq!(rt; list.number(), 2),
        _ => assert!(rt; false),
    }
    assert_runs(&rt, &rules, start, 1, &[("", "refused NoProgress")]);
}

/// Any number of plus signs, and of brackets with the same between them.
fn brackets(rules: &mut Rules, brackets: Recursive) -> Result<Node, BuildError> {
    let plus = rules.leaf(1)?;
    let opening = rules.leaf(3)?;
    let call = rules.rule(brackets)?;
    let closing = rules.leaf(4)?;
    let opened = rules.then(opening, call)?;
    let pair = rules.then(opened, closing)?;
    let item = rules.choice(&[plus, pair])?;
    rules.repeated(item, 0, None)
}

#[test]
fn a_limit_of_rules_times_one_more_than_the_tokens_is_never_met(rt: HostRuntime) {
    let mut rules = Rules::new(rt.alloc());
    let start = rules.recursive(brackets).expect(&rt, "refused");
    assert_runs(&rt, &rules, start, 3, &[("[[]]", "ok 4")]);
    assert_runs(&rt, &rules, start, 2, &[("[[]]", "refused TooDeep")]);
    let unclosed = "error 4..4 expected '+', '[', ']' found end";
    assert_runs(&rt, &rules, start, 5, &[("[[[[", unclosed)]);
    assert_runs(&rt, &rules, start, 4, &[("[[[[", "refused TooDeep")]);
}

/// Rule 0 is a call of rule 1, and rule 1 an `a`.
#[test]
fn the_limit_is_rules_times_one_more_than_the_tokens(rt: HostRuntime) {
    let mut rules = Rules::new(rt.alloc());
    let start = rules.declare().expect(&rt, "refused");
    let other = rules.declare().expect(&rt, "refused");
    let a = rules.leaf(0).expect(&rt, "refused");
    let call = rules.rule(other).expect(&rt, "refused");
    rules.define(start, call).expect(&rt, "refused");
    let undefined = Err(FoundedError::Close(CloseError::Undefined(1)));
    assert_eq!(rt; limit_or_refusal(&rules, start, 3), undefined);
    rules.define(other, a).expect(&rt, "refused");
    let too_large = Err(FoundedError::LimitTooLarge);
    assert_eq!(rt; limit_or_refusal(&rules, start, usize::MAX), too_large);
    assert_eq!(rt; limit_or_refusal(&rules, start, usize::MAX / 2), too_large);
    assert_eq!(rt; limit_or_refusal(&rules, start, usize::MAX / 2 - 1), Ok(usize::MAX - 1));
    assert_eq!(rt; limit_or_refusal(&rules, start, 3), Ok(8));
    assert_runs(&rt, &rules, start, 8, &[("a", "ok 1"), ("", "error 0..0 expected 'a' found end")]);
}

/// An empty round, a left cycle and a limit that no `usize` holds: the first reason is told, and once it is mended the next.
#[test]
fn the_first_reason_is_told(rt: HostRuntime) {
    let mut rules = Rules::new(rt.alloc());
    let empty = rules.recursive(absent_letters).expect(&rt, "refused");
    rules.recursive(left_recursive).expect(&rt, "refused");
    let refused = limit_or_refusal(&rules, empty, usize::MAX);
    assert!(rt; matches!(refused, Err(FoundedError::EmptyRound(_))));
    let mut mended = Rules::new(rt.alloc());
    let start = mended.recursive(left_recursive).expect(&rt, "refused");
    let refused = limit_or_refusal(&mended, start, usize::MAX);
    assert_eq!(rt; refused, Err(FoundedError::LeftCycle(start)));
}

/// A leaf, and then the same again.
fn leaf_and_again(
    rules: &mut Rules,
    again: Recursive,
    leaf: usize,
) -> Result<Node, BuildError> {
    let first = rules.leaf(leaf)?;
    let call = rules.rule(again)?;
    rules.then(first, call)
}

#[test]
fn a_leaf_moves_where_its_parser_says_so(rt: HostRuntime) {
    for leaf in 0..3usize {
        let mut rules = Rules::new(rt.alloc());
        let start = rules
            .recursive(|rules, again| leaf_and_again(rules, again, leaf))
            .expect(&rt, "refused");
        let answer = limit_or_refusal(&rules, start, 3);
        if leaf == 2 {
            assert_eq!(rt; answer, Err(FoundedError::LeftCycle(start)));
        } else {
            assert_eq!(rt; answer, Ok(4));
        }
    }
}

/// A leaf, and then the same again or nothing.
fn leaf_and_perhaps_again(rules: &mut Rules, again: Recursive) -> Result<Node, BuildError> {
    let first = rules.leaf(0)?;
    let call = rules.rule(again)?;
    let perhaps = rules.or_not(call)?;
    rules.then(first, perhaps)
}

/// The rule comes to itself through its one leaf alone, a set: of which one part takes a token, or both may be absent.
#[test]
fn a_set_as_a_leaf_moves_where_one_part_does(rt: HostRuntime) {
    let mut rules = Rules::new(rt.alloc());
    let start = rules.recursive(leaf_and_perhaps_again).expect(&rt, "refused");
    let leaves = [set((just_text("a"), just_text("+").or_not())).to(1)];
    let actions = Leaves {
        leaves: &leaves,
        values: Counts,
    };
    match rules.close_founded(start, &actions, 5) {
        Ok(grammar) => {
            assert_eq!(rt; grammar.limit, 6);
            let rows = [
                ("a", "ok 1"),
                ("a++aa", "ok 3"),
                ("", "error 0..0 expected 'a', '+' found end"),
            ];
            assert_answers(&rt, &grammar, &rows);
        }
        Err(_) => assert!(rt; false),
    }
    let absent = [set((just_text("a").or_not(), just_text("+").or_not())).to(1)];
    let actions = Leaves {
        leaves: &absent,
        values: Counts,
    };
    let refused = rules.close_founded(start, &actions, 5);
    assert!(rt; matches!(refused, Err(FoundedError::LeftCycle(_))));
}

#[test]
fn a_grammar_says_whether_its_rules_are_well_founded(rt: HostRuntime) {
    let leaves = [just_text("a").to(1), just_text("+").to(1)];
    let actions = Leaves {
        leaves: &leaves,
        values: Counts,
    };
    let mut rules = Rules::new(rt.alloc());
    let start = rules
        .recursive(|rules, again| leaf_and_again(rules, again, 0))
        .expect(&rt, "refused");
    let grammar = rules.close(start, &actions, 1).expect(&rt, "not closed");
    match grammar.well_founded().expect(&rt, "refused") {
        WellFounded::Order(order) => {
            assert_eq!(rt; order.len(), 1);
            assert_eq!(rt; order[0], start);
        }
        _ => assert!(rt; false),
    }
    let other = rules.recursive(left_recursive).expect(&rt, "refused");
    let grammar = rules.close(start, &actions, 1).expect(&rt, "not closed");
    match grammar.well_founded().expect(&rt, "refused") {
        WellFounded::LeftCycle(rule) => assert_eq!(rt; rule, other),
        _ => assert!(rt; false),
    }
}

/// A call that makes rules may hand on what refuses it, whichever call that was.
fn refusals(rules: &mut Rules, foreign: Recursive) -> Result<Recursive, RecursiveError> {
    let rule = rules.declare()?;
    let call = rules.rule(rule)?;
    rules.define(foreign, call)?;
    Ok(rule)
}

#[test]
fn each_refusal_becomes_one_of_a_recursive_call(rt: HostRuntime) {
    let mut larger = Rules::new(rt.alloc());
    larger.declare().expect(&rt, "refused");
    let foreign = larger.declare().expect(&rt, "refused");
    let mut rules = Rules::new(rt.alloc());
    let refused = refusals(&mut rules, foreign);
    assert!(rt; matches!(refused, Err(RecursiveError::Define(_))));
    let first = rules.bodies().len();
    assert_eq!(rt; first, 1);
}

/// Asserts what these rules answer, and that they are in order, where their one leaf is a grammar of brackets under a limit.
fn assert_around<R: Abort + AllocGlobal>(
    rt: &R,
    rules: &Rules,
    start: Recursive,
    limit: usize,
    rows: &[(&str, &str)],
) {
    let mut inner = Rules::new(rt.alloc());
    let brackets = inner.recursive(brackets).expect(rt, "refused");
    let leaves = [
        just_text("a").to(1),
        just_text("+").to(1),
        just_text("").to(0),
        just_text("[").to(1),
        just_text("]").to(1),
    ];
    let actions = Leaves {
        leaves: &leaves,
        values: Counts,
    };
    let within = inner.close(brackets, &actions, limit).expect(rt, "not closed");
    let grammars = [within];
    let outer = Leaves {
        leaves: &grammars,
        values: Counts,
    };
    let grammar = rules.close(start, &outer, 1).expect(rt, "not closed");
    assert_answers(rt, &grammar, rows);
    match grammar.well_founded().expect(rt, "refused") {
        WellFounded::Order(order) => assert_eq!(rt; order.len(), 1),
        _ => assert!(rt; false),
    }
}

#[test]
fn a_grammar_is_a_leaf_of_another_grammar(rt: HostRuntime) {
    let mut rules = Rules::new(rt.alloc());
    let twice = rules.recursive(|rules, _| {
        let brackets = rules.leaf(0)?;
        rules.then(brackets, brackets)
    });
    let twice = twice.expect(&rt, "refused");
    let rows = [
        ("", "ok 0"),
        ("+[+]", "ok 4"),
        ("[[]]", "ok 4"),
        ("[", "error 1..1 expected '+', '[', ']' found end"),
    ];
    assert_around(&rt, &rules, twice, 3, &rows);
    assert_around(&rt, &rules, twice, 2, &[("[]", "ok 2"), ("[[]]", "refused TooDeep")]);
}

/// A grammar says nothing of where its successes end, so a list of one may go round without moving.
#[test]
fn a_grammar_that_is_a_leaf_may_be_empty(rt: HostRuntime) {
    let leaves = [just_text("a").to(1)];
    let actions = Leaves {
        leaves: &leaves,
        values: Counts,
    };
    let mut rules = Rules::new(rt.alloc());
    let letter = rules.recursive(|rules, _| rules.leaf(0)).expect(&rt, "refused");
    let grammars = [rules.close(letter, &actions, 1).expect(&rt, "not closed")];
    let outer = Leaves {
        leaves: &grammars,
        values: Counts,
    };
    let mut around = Rules::new(rt.alloc());
    let list = around.recursive(|rules, _| {
        let letter = rules.leaf(0)?;
        rules.repeated(letter, 0, None)
    });
    let list = list.expect(&rt, "refused");
    assert!(rt; matches!(around.close_founded(list, &outer, 3), Err(FoundedError::EmptyRound(_))));
    let grammar = around.close(list, &outer, 1).expect(&rt, "not closed");
    assert_answers(&rt, &grammar, &[("aaa", "ok 3"), ("", "ok 0")]);
}
