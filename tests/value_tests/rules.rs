//! Rules as data: which calls are refused, and what a refused call leaves.
use chumsky::prelude::*;
use chumsky::recursive::{BuildError, CloseError, DefineError, Node, RecursiveError, SepCfg};
use std::alloc::AllocGlobal;
use std::process::Abort;

/// Rules with so many rules, none of them defined, and so many leaves, numbered from 0.
fn rules_of<R: Abort + AllocGlobal>(rt: &R, rules: usize, leaves: usize) -> Rules {
    let mut made = Rules::new(rt.alloc());
    for _ in 0..rules {
        made.declare().expect(rt, "refused");
    }
    for leaf in 0..leaves {
        made.leaf(leaf).expect(rt, "refused");
    }
    made
}

/// The rule of this number, from rules that have more.
fn rule_of<R: Abort + AllocGlobal>(rt: &R, number: usize) -> Recursive {
    let mut larger = rules_of(rt, number, 0);
    larger.declare().expect(rt, "refused")
}

/// The node of this number, from rules that have more.
fn node_of<R: Abort + AllocGlobal>(rt: &R, number: usize) -> Node {
    let mut larger = rules_of(rt, 0, number);
    larger.leaf(0).expect(rt, "refused")
}

#[test]
fn numbers_count_from_nought(rt: HostRuntime) {
    let mut rules = Rules::new(rt.alloc());
    for expected in 0..3 {
        assert_eq!(rt; rules.declare().expect(&rt, "refused").number(), expected);
        assert_eq!(rt; rules.leaf(7).expect(&rt, "refused").number(), expected);
    }
    assert_eq!(rt; rules.bodies().len(), 3);
    assert_eq!(rt; rules.nodes().len(), 3);
}

#[test]
fn the_first_foreign_part_is_named(rt: HostRuntime) {
    let mut rules = rules_of(&rt, 1, 1);
    let (one, two) = (node_of(&rt, 1), node_of(&rt, 2));
    let near = node_of(&rt, 0);
    assert_eq!(rt; rules.then(two, one), Err(BuildError::ForeignNode(2)));
    assert_eq!(rt; rules.then(near, one), Err(BuildError::ForeignNode(1)));
    assert_eq!(rt; rules.and_is(one, two), Err(BuildError::ForeignNode(1)));
    assert_eq!(rt;
        rules.choice(&[near, two, one]),
        Err(BuildError::ForeignNode(2))
    );
    assert_eq!(rt;
        rules.rule(rule_of(&rt, 1)),
        Err(BuildError::ForeignRule(1))
    );
    assert_eq!(rt; rules.nodes().len(), 1);
    assert_eq!(rt; rules.bodies().len(), 1);
    assert_eq!(rt; rules.then(near, near).expect(&rt, "refused").number(), 1);
}

/// The body of the rule of this number, where there is one.
fn body_of(rules: &Rules, number: usize) -> Option<Node> {
    match rules.bodies().get(number) {
        Some(body) => *body,
        None => None,
    }
}

/// Separators between the items alone.
const BETWEEN: SepCfg = SepCfg {
    at_least: 0,
    at_most: None,
    allow_leading: false,
    allow_trailing: false,
};

/// Each node call, and a choice of nothing too. The node of the last.
fn each_node_call(rules: &mut Rules, rule: Recursive) -> Result<Node, BuildError> {
    let leaf = rules.leaf(0)?;
    let call = rules.rule(rule)?;
    let pair = rules.then(leaf, call)?;
    let nothing = rules.choice(&[])?;
    let among = rules.choice(&[pair, nothing])?;
    let many = rules.repeated(among, 1, Some(3))?;
    let list = rules.separated_by(many, leaf, BETWEEN)?;
    let perhaps = rules.or_not(list)?;
    let absent = rules.not(leaf)?;
    let both = rules.and_is(perhaps, absent)?;
    let ahead = rules.rewind(both)?;
    let mapped = rules.map(ahead, 4)?;
    rules.try_map(mapped, 5)
}

#[test]
fn each_node_call_makes_a_node(rt: HostRuntime) {
    let mut rules = Rules::new(rt.alloc());
    let rule = rules.recursive(each_node_call).expect(&rt, "refused");
    assert_eq!(rt; rule.number(), 0);
    assert_eq!(rt; rules.nodes().len(), 13);
    assert_eq!(rt; body_of(&rules, 0), Some(node_of(&rt, 12)));
    assert!(rt; rules.close_over(rule, 1).is_ok());
}

#[test]
fn a_refused_define_changes_nothing(rt: HostRuntime) {
    let mut rules = rules_of(&rt, 1, 1);
    let (rule, near, far) = (rule_of(&rt, 0), node_of(&rt, 0), node_of(&rt, 2));
    assert_eq!(rt;
        rules.define(rule_of(&rt, 1), near),
        Err(DefineError::Foreign(1))
    );
    assert_eq!(rt; rules.define(rule, far), Err(DefineError::ForeignNode(2)));
    assert_eq!(rt; body_of(&rules, 0), None);
    assert_eq!(rt; rules.define(rule, near), Ok(()));
    assert_eq!(rt; rules.define(rule, far), Err(DefineError::Twice(0)));
    assert_eq!(rt; body_of(&rules, 0), Some(near));
    assert_eq!(rt; rules.bodies().len(), 1);
}

#[test]
fn a_refused_body_leaves_the_rule(rt: HostRuntime) {
    let far = rule_of(&rt, 1);
    let mut rules = Rules::new(rt.alloc());
    let refused = rules.recursive(|rules, _rule| rules.rule(far));
    assert_eq!(rt;
        refused,
        Err(RecursiveError::Build(BuildError::ForeignRule(1)))
    );
    assert_eq!(rt; rules.bodies().len(), 1);
    assert_eq!(rt; body_of(&rules, 0), None);
}

/// A leaf, which is the rule's body already.
fn defined_before(rules: &mut Rules, rule: Recursive) -> Result<Node, BuildError> {
    let leaf = rules.leaf(0)?;
    match rules.define(rule, leaf) {
        Ok(_) => Ok(leaf),
        Err(_) => Err(BuildError::Memory),
    }
}

#[test]
fn a_rule_has_one_body(rt: HostRuntime) {
    let mut rules = Rules::new(rt.alloc());
    let refused = rules.recursive(defined_before);
    assert_eq!(rt; refused, Err(RecursiveError::Define(DefineError::Twice(0))));
    assert_eq!(rt; body_of(&rules, 0), Some(node_of(&rt, 0)));
}

/// Why rules can't run.
fn refusal(rules: &Rules, start: Recursive, leaves: usize) -> Option<CloseError> {
    match rules.close_over(start, leaves) {
        Ok(_) => None,
        Err(e) => Some(e),
    }
}

#[test]
fn rules_close_where_each_has_a_body(rt: HostRuntime) {
    let mut rules = rules_of(&rt, 2, 1);
    let (first, second, far) = (rule_of(&rt, 0), rule_of(&rt, 1), rule_of(&rt, 2));
    let leaf = node_of(&rt, 0);
    assert_eq!(rt; refusal(&rules, far, 0), Some(CloseError::Undefined(0)));
    rules.define(first, leaf).expect(&rt, "refused");
    assert_eq!(rt; refusal(&rules, first, 1), Some(CloseError::Undefined(1)));
    assert_eq!(rt; refusal(&rules, far, 0), Some(CloseError::Undefined(1)));
    rules.define(second, leaf).expect(&rt, "refused");
    assert_eq!(rt; refusal(&rules, far, 0), Some(CloseError::ForeignStart(2)));
    assert_eq!(rt;
        refusal(&rules, second, 0),
        Some(CloseError::UnknownLeaf(0))
    );
    assert_eq!(rt; refusal(&rules, second, 1), None);
}

#[test]
fn the_least_unknown_leaf_is_named(rt: HostRuntime) {
    let mut rules = rules_of(&rt, 1, 3);
    let rule = rule_of(&rt, 0);
    rules.define(rule, node_of(&rt, 0)).expect(&rt, "refused");
    assert_eq!(rt; refusal(&rules, rule, 3), None);
    rules.leaf(9).expect(&rt, "refused");
    rules.leaf(7).expect(&rt, "refused");
    rules.leaf(8).expect(&rt, "refused");
    assert_eq!(rt; refusal(&rules, rule, 3), Some(CloseError::UnknownLeaf(7)));
    assert_eq!(rt; refusal(&rules, rule, 8), Some(CloseError::UnknownLeaf(8)));
    assert_eq!(rt; refusal(&rules, rule, 10), None);
}

#[test]
fn a_limit_counts_rules_and_places(rt: HostRuntime) {
    let none = Rules::new(rt.alloc());
    assert_eq!(rt; none.limit_for(usize::MAX), Some(0));
    let two = rules_of(&rt, 2, 0);
    assert_eq!(rt; two.limit_for(3), Some(8));
    assert_eq!(rt; two.limit_for(usize::MAX), None);
    assert_eq!(rt; two.limit_for(usize::MAX / 2), None);
    let one = rules_of(&rt, 1, 0);
    assert_eq!(rt; one.limit_for(usize::MAX - 1), Some(usize::MAX));
}
