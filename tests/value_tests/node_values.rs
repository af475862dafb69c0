//! How often the nodes of a grammar call the functions that make their values, and that no node is refused where there is
//! memory: no contract says either.
use chumsky::extra::RichText;
use chumsky::prelude::*;
use chumsky::recursive::{BuildError, Leaves, Node, SepCfg, Values};
use std::alloc::{AllocError, AllocGlobal, Global};
use std::cell::Cell;
use std::process::Abort;

/// How often a pair, an option, a unit, a map, a list and a fallible map were asked for.
type Calls = [u32; 6];

/// Values that say nothing, made by functions that count their calls. The fallible mapper of an odd number refuses.
#[derive(Drop)]
struct Counting {
    calls: Cell<Calls>,
}

impl Counting {
    /// One call more of the function that stands there in `Calls`.
    fn count(&self, at: usize) {
        let mut calls = self.calls.get();
        if let Some(count) = calls.get_mut(at) {
            *count = count.wrapping_add(1);
        }
        self.calls.set(calls);
    }

    /// The calls since this was asked last.
    fn taken(&self) -> Calls {
        self.calls.replace([0; 6])
    }
}

impl Values<SimpleSpan, Rich<char>> for Counting {
    type Value = ();

    fn pair(&self, _alloc: Global, _number: usize, _a: (), _b: ()) -> Result<(), AllocError> {
        self.count(0);
        Ok(())
    }

    fn option(&self, _alloc: Global, _v: Option<()>) -> Result<(), AllocError> {
        self.count(1);
        Ok(())
    }

    fn unit(&self, _alloc: Global) -> Result<(), AllocError> {
        self.count(2);
        Ok(())
    }

    fn map(&self, _alloc: Global, _mapper: usize, _v: ()) -> Result<(), AllocError> {
        self.count(3);
        Ok(())
    }

    fn list(&self, _alloc: Global, _items: Vec<()>) -> Result<(), AllocError> {
        self.count(4);
        Ok(())
    }

    fn try_map(
        &self,
        alloc: Global,
        mapper: usize,
        _v: (),
        span: SimpleSpan,
    ) -> Result<Result<(), Rich<char>>, AllocError> {
        self.count(5);
        if mapper % 2 == 0 {
            return Ok(Ok(()));
        }
        Ok(Err(Rich::custom(span, String::new(alloc))))
    }
}

/// Asserts how often `parse` calls each function, and how often `check`, where the node is the body of the one rule. Leaf 0
/// is an `a`, leaf 1 a `b`.
fn assert_calls<R: Abort + AllocGlobal>(
    rt: &R,
    rules: &mut Rules,
    node: Result<Node, BuildError>,
    rows: &[(&str, Calls, Calls)],
) {
    let node = node.expect(rt, "refused");
    let start = rules.declare().expect(rt, "refused");
    rules.define(start, node).expect(rt, "refused");
    let leaves = [
        just::<_, &str, RichText>("a").ignored(),
        just("b").ignored(),
    ];
    let actions = Leaves {
        leaves: &leaves,
        values: Counting {
            calls: Cell::new([0; 6]),
        },
    };
    match close(rules, start, &actions, 1) {
        Ok(grammar) => {
            for (text, by_parse, by_check) in rows {
                let parsed = grammar.parse(rt.alloc(), *text).is_ok();
                assert!(rt; parsed, "refused");
                assert_eq!(rt; actions.values.taken(), *by_parse, "by parse");
                let checked = grammar.check(rt.alloc(), *text).is_ok();
                assert!(rt; checked, "refused");
                assert_eq!(rt; actions.values.taken(), *by_check, "by check");
            }
        }
        Err(_) => assert!(rt; false),
    }
}

/// No call.
const NONE: Calls = [0; 6];

/// An `a` and a `b`, one of a number of such pairs.
fn pairs(rules: &mut Rules) -> Result<Node, BuildError> {
    let a = rules.leaf(0)?;
    let b = rules.leaf(1)?;
    let pair = rules.then(a, b)?;
    rules.repeated(pair, 0, None)
}

/// Each `a`, with a `b` between one and the next.
fn separated(rules: &mut Rules) -> Result<Node, BuildError> {
    let a = rules.leaf(0)?;
    let b = rules.leaf(1)?;
    let mapped = rules.map(a, 0)?;
    let perhaps = rules.or_not(b)?;
    let cfg = SepCfg {
        at_least: 0,
        at_most: None,
        allow_leading: false,
        allow_trailing: false,
    };
    rules.separated_by(mapped, perhaps, cfg)
}

/// An `a` that may be absent.
fn perhaps(rules: &mut Rules) -> Result<Node, BuildError> {
    let a = rules.leaf(0)?;
    rules.or_not(a)
}

/// An `a` through a mapper.
fn mapped(rules: &mut Rules) -> Result<Node, BuildError> {
    let a = rules.leaf(0)?;
    rules.map(a, 3)
}

/// No `a`, through no mapper.
fn denied(rules: &mut Rules) -> Result<Node, BuildError> {
    let mapped = mapped(rules)?;
    rules.not(mapped)
}

/// An `a` where a mapped `a` stands too.
fn ahead(rules: &mut Rules) -> Result<Node, BuildError> {
    let a = rules.leaf(0)?;
    let mapped = mapped(rules)?;
    rules.and_is(a, mapped)
}

/// An `a` that may be absent, through the fallible mapper of a number.
fn judged(rules: &mut Rules, mapper: usize) -> Result<Node, BuildError> {
    let perhaps = perhaps(rules)?;
    rules.try_map(perhaps, mapper)
}

#[test]
fn without_a_value_nothing_is_made_of_a_node(rt: HostRuntime) {
    let mut rules = Rules::new(rt.alloc());
    let node = pairs(&mut rules);
    let rows = [
        ("abab", [2, 0, 0, 0, 1, 0], NONE),
        ("", [0, 0, 0, 0, 1, 0], NONE),
    ];
    assert_calls(&rt, &mut rules, node, &rows);
    let node = separated(&mut rules);
    let rows = [("abaa", [0, 0, 0, 3, 1, 0], NONE)];
    assert_calls(&rt, &mut rules, node, &rows);
    let node = perhaps(&mut rules);
    let rows = [
        ("a", [0, 1, 0, 0, 0, 0], NONE),
        ("", [0, 1, 0, 0, 0, 0], NONE),
    ];
    assert_calls(&rt, &mut rules, node, &rows);
    let node = mapped(&mut rules);
    let rows = [("a", [0, 0, 0, 1, 0, 0], NONE), ("b", NONE, NONE)];
    assert_calls(&rt, &mut rules, node, &rows);
    let node = denied(&mut rules);
    let rows = [("", [0, 0, 1, 0, 0, 0], NONE), ("a", NONE, NONE)];
    assert_calls(&rt, &mut rules, node, &rows);
    let node = ahead(&mut rules);
    let rows = [("a", NONE, NONE)];
    assert_calls(&rt, &mut rules, node, &rows);
}

/// Its mapper is called on both paths, once, and what is below it makes its value on both.
#[test]
fn a_node_that_judges_has_its_value_in_check_too(rt: HostRuntime) {
    let mut rules = Rules::new(rt.alloc());
    let calls = [0, 1, 0, 0, 0, 1];
    for mapper in [0, 1, 6, 9] {
        let node = judged(&mut rules, mapper);
        let rows = [("a", calls, calls), ("", calls, calls)];
        assert_calls(&rt, &mut rules, node, &rows);
    }
}

#[test]
fn a_refusal_of_a_mapper_is_no_want_of_memory(rt: HostRuntime) {
    let mut rules = Rules::new(rt.alloc());
    for mapper in 0..40 {
        let node = judged(&mut rules, mapper);
        let calls = [0, 1, 0, 0, 0, 1];
        assert_calls(&rt, &mut rules, node, &[("a", calls, calls)]);
    }
    let node = judged(&mut rules, usize::MAX);
    let calls = [0, 1, 0, 0, 0, 1];
    assert_calls(&rt, &mut rules, node, &[("a", calls, calls)]);
}

#[test]
fn a_leaf_is_refused_under_no_limit(rt: HostRuntime) {
    let mut rules = Rules::new(rt.alloc());
    let node = rules.leaf(0).expect(&rt, "refused");
    let start = rules.declare().expect(&rt, "refused");
    rules.define(start, node).expect(&rt, "refused");
    let leaves = [just::<_, &str, RichText>("a").ignored()];
    let actions = Leaves {
        leaves: &leaves,
        values: Counting {
            calls: Cell::new(NONE),
        },
    };
    for limit in 1..1_100 {
        let grammar = close(&rules, start, &actions, limit).expect(&rt, "not closed");
        assert!(rt; grammar.check(rt.alloc(), "a").is_ok());
        assert!(rt; grammar.parse(rt.alloc(), "a").is_ok());
    }
}
