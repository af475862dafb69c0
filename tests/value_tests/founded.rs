//! Which rules are well-founded.
use chumsky::prelude::*;
use chumsky::recursive::{BuildError, Node, SepCfg, WellFounded};
use std::alloc::AllocGlobal;
use std::process::Abort;

/// Leaves 0 and 1 take a token, leaf 2 may succeed without.
const LEAVES: [bool; 3] = [false, false, true];

/// The answer on one line: the order, the rule or the node.
fn answer<R: Abort + AllocGlobal>(rt: &R, rules: &Rules) -> String {
    let alloc = rt.alloc();
    match rules.well_founded(&LEAVES).expect(rt, "refused") {
        WellFounded::Order(order) => {
            let mut line = String::from_str(alloc, "order").expect(rt, "refused");
            for rule in &order {
                let number = format!(in alloc; " {}", rule.number()).expect(rt, "refused");
                line.push_str(&number).expect(rt, "refused");
            }
            line
        }
        WellFounded::LeftCycle(rule) => format!(in alloc; "cycle {}", rule.number()).expect(
            rt, "refused",
        ),
        WellFounded::EmptyRound(node) => format!(in alloc; "round {}", node.number()).expect(
            rt, "refused",
        ),
    }
}

/// The answer for one rule, of this body.
fn answer_of<
    R: Abort + AllocGlobal,
    F: FnOnce(&mut Rules, Recursive) -> Result<Node, BuildError>,
>(rt: &R, body: F) -> String {
    let mut rules = Rules::new(rt.alloc());
    rules.recursive(body).expect(rt, "refused");
    answer(rt, &rules)
}

/// The answer for two rules, of which these closures make the bodies.
fn answer_of_two<
    R: Abort + AllocGlobal,
    F: FnOnce(&mut Rules, Recursive, Recursive) -> Result<(Node, Node), BuildError>,
>(rt: &R, bodies: F) -> String {
    let mut rules = Rules::new(rt.alloc());
    let first = rules.declare().expect(rt, "refused");
    let second = rules.declare().expect(rt, "refused");
    let (of_first, of_second) = bodies(&mut rules, first, second).expect(rt, "refused");
    rules.define(first, of_first).expect(rt, "refused");
    rules.define(second, of_second).expect(rt, "refused");
    answer(rt, &rules)
}

/// Any number of items, and separators between them; with `allow_leading` one before them too.
fn list(allow_leading: bool) -> SepCfg {
    SepCfg {
        at_least: 0,
        at_most: None,
        allow_leading,
        allow_trailing: false,
    }
}

#[test]
fn a_rule_that_calls_itself_behind_a_token_is_in_order(rt: HostRuntime) {
    let brackets = answer_of(&rt, |rules, brackets| {
        let plus = rules.leaf(0)?;
        let bracket = rules.leaf(1)?;
        let inside = rules.rule(brackets)?;
        let opened = rules.then(bracket, inside)?;
        let pair = rules.then(opened, bracket)?;
        let item = rules.choice(&[plus, pair])?;
        rules.repeated(item, 0, None)
    });
    assert_eq!(rt; brackets.as_str(), "order 0");
}

#[test]
fn a_rule_that_calls_itself_first_is_a_cycle(rt: HostRuntime) {
    let sums = answer_of(&rt, |rules, sum| {
        let a = rules.leaf(0)?;
        let plus = rules.leaf(1)?;
        let inside = rules.rule(sum)?;
        let begun = rules.then(inside, plus)?;
        let whole = rules.then(begun, inside)?;
        rules.choice(&[whole, a])
    });
    assert_eq!(rt; sums.as_str(), "cycle 0");
}

#[test]
fn a_call_behind_what_may_be_absent_is_a_left_call(rt: HostRuntime) {
    let signed = answer_of(&rt, |rules, signed| {
        let minus = rules.leaf(0)?;
        let perhaps = rules.or_not(minus)?;
        let inside = rules.rule(signed)?;
        rules.then(perhaps, inside)
    });
    assert_eq!(rt; signed.as_str(), "cycle 0");
}

#[test]
fn a_call_behind_a_look_ahead_is_a_left_call(rt: HostRuntime) {
    let denied = answer_of(&rt, |rules, again| {
        let a = rules.leaf(0)?;
        let denied = rules.not(a)?;
        let inside = rules.rule(again)?;
        rules.then(denied, inside)
    });
    assert_eq!(rt; denied.as_str(), "cycle 0");
    let rewound = answer_of(&rt, |rules, again| {
        let a = rules.leaf(0)?;
        let seen = rules.rewind(a)?;
        let inside = rules.rule(again)?;
        rules.then(seen, inside)
    });
    assert_eq!(rt; rewound.as_str(), "cycle 0");
    let looked_for = answer_of(&rt, |rules, again| {
        let inside = rules.rule(again)?;
        rules.not(inside)
    });
    assert_eq!(rt; looked_for.as_str(), "cycle 0");
}

#[test]
fn both_parts_of_and_is_begin_where_it_begins(rt: HostRuntime) {
    let second = answer_of(&rt, |rules, again| {
        let a = rules.leaf(0)?;
        let inside = rules.rule(again)?;
        rules.and_is(a, inside)
    });
    assert_eq!(rt; second.as_str(), "cycle 0");
    let behind = answer_of(&rt, |rules, again| {
        let a = rules.leaf(0)?;
        let any = rules.leaf(2)?;
        let both = rules.and_is(a, any)?;
        let inside = rules.rule(again)?;
        rules.then(both, inside)
    });
    assert_eq!(rt; behind.as_str(), "order 0");
}

#[test]
fn an_item_that_may_be_empty_is_an_empty_round(rt: HostRuntime) {
    let plain = answer_of(&rt, |rules, _rule| {
        let a = rules.leaf(0)?;
        let item = rules.or_not(a)?;
        rules.repeated(item, 0, None)
    });
    assert_eq!(rt; plain.as_str(), "round 2");
    let capped = answer_of(&rt, |rules, _rule| {
        let a = rules.leaf(0)?;
        let item = rules.or_not(a)?;
        rules.repeated(item, 0, Some(3))
    });
    assert_eq!(rt; capped.as_str(), "order 0");
    let separated = answer_of(&rt, |rules, _rule| {
        let a = rules.leaf(0)?;
        let item = rules.or_not(a)?;
        let comma = rules.leaf(1)?;
        rules.separated_by(item, comma, list(false))
    });
    assert_eq!(rt; separated.as_str(), "order 0");
    let both = answer_of(&rt, |rules, _rule| {
        let a = rules.leaf(0)?;
        let item = rules.or_not(a)?;
        let separator = rules.leaf(2)?;
        rules.separated_by(item, separator, list(false))
    });
    assert_eq!(rt; both.as_str(), "round 3");
}

#[test]
fn a_separator_begins_where_its_list_does_if_it_may_lead(rt: HostRuntime) {
    for (leading, expected) in [(false, "order 0"), (true, "cycle 0")] {
        let said = answer_of(&rt, |rules, again| {
            let a = rules.leaf(0)?;
            let separator = rules.rule(again)?;
            rules.separated_by(a, separator, list(leading))
        });
        assert_eq!(rt; said.as_str(), expected);
    }
    let behind_an_empty_item = answer_of(&rt, |rules, again| {
        let a = rules.leaf(2)?;
        let separator = rules.rule(again)?;
        let at_most = Some(2);
        rules.separated_by(a, separator, SepCfg { at_most, ..list(false) })
    });
    assert_eq!(rt; behind_an_empty_item.as_str(), "cycle 0");
}

#[test]
fn nodes_that_are_not_used_do_not_count(rt: HostRuntime) {
    let said = answer_of(&rt, |rules, _rule| {
        let a = rules.leaf(0)?;
        let item = rules.or_not(a)?;
        let _unused = rules.repeated(item, 0, None)?;
        Ok(a)
    });
    assert_eq!(rt; said.as_str(), "order 0");
}

#[test]
fn a_leaf_that_may_be_empty_counts(rt: HostRuntime) {
    for (leaf, expected) in [(0, "order 0"), (2, "cycle 0")] {
        let said = answer_of(&rt, |rules, again| {
            let first = rules.leaf(leaf)?;
            let inside = rules.rule(again)?;
            rules.then(first, inside)
        });
        assert_eq!(rt; said.as_str(), expected);
    }
}

#[test]
fn the_least_is_named(rt: HostRuntime) {
    let rounds = answer_of(&rt, |rules, again| {
        let a = rules.leaf(2)?;
        let many = rules.repeated(a, 0, None)?;
        let more = rules.repeated(many, 0, None)?;
        let inside = rules.rule(again)?;
        rules.then(inside, more)
    });
    assert_eq!(rt; rounds.as_str(), "round 1");
    let cycles = answer_of_two(&rt, |rules, first, second| {
        let to_first = rules.rule(first)?;
        let to_second = rules.rule(second)?;
        Ok((to_second, to_first))
    });
    assert_eq!(rt; cycles.as_str(), "cycle 0");
}

#[test]
fn rules_stand_behind_those_that_they_may_call_first(rt: HostRuntime) {
    let called = answer_of_two(&rt, |rules, _first, second| {
        let a = rules.leaf(0)?;
        let to_second = rules.rule(second)?;
        Ok((to_second, a))
    });
    assert_eq!(rt; called.as_str(), "order 1 0");
    let behind_a_token = answer_of_two(&rt, |rules, first, second| {
        let a = rules.leaf(0)?;
        let to_second = rules.rule(second)?;
        let pair = rules.then(a, to_second)?;
        let to_first = rules.rule(first)?;
        Ok((pair, to_first))
    });
    assert_eq!(rt; behind_a_token.as_str(), "order 0 1");
}

#[test]
fn rules_that_no_start_reaches_count(rt: HostRuntime) {
    let said = answer_of_two(&rt, |rules, _first, second| {
        let a = rules.leaf(0)?;
        let to_itself = rules.rule(second)?;
        Ok((a, to_itself))
    });
    assert_eq!(rt; said.as_str(), "cycle 1");
}

/// 2,000 rules: rule i calls rule i + 1, and the last one is a leaf, or calls rule 0.
fn chain<R: Abort + AllocGlobal>(rt: &R, circular: bool) -> Rules {
    let mut made = Rules::new(rt.alloc());
    let mut rules = Vec::new(rt.alloc());
    for _ in 0..2000 {
        let rule = made.declare().expect(rt, "refused");
        rules.push(rule).expect(rt, "refused");
    }
    for i in 0..2000usize {
        let body = if i + 1 < 2000 {
            made.rule(rules[i + 1])
        } else if circular {
            made.rule(rules[0])
        } else {
            made.leaf(0)
        };
        made.define(rules[i], body.expect(rt, "refused")).expect(rt, "refused");
    }
    made
}

#[test]
fn a_long_chain_is_in_order(rt: HostRuntime) {
    let rules = chain(&rt, false);
    match rules.well_founded(&LEAVES).expect(&rt, "refused") {
        WellFounded::Order(order) => {
            assert_eq!(rt; order.len(), 2000);
            for i in 0..2000usize {
                assert_eq!(rt; order[i].number(), 1999 - i);
            }
        }
        _ => assert!(rt; false),
    }
}

#[test]
fn a_long_circle_is_a_cycle(rt: HostRuntime) {
    let rules = chain(&rt, true);
    assert_eq!(rt; answer(&rt, &rules).as_str(), "cycle 0");
}
