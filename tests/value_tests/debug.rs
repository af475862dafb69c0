//! What rules print as.
use chumsky::debug::DebugInfo;
use chumsky::prelude::*;
use chumsky::recursive::{BuildError, Node, SepCfg};
use std::alloc::AllocGlobal;
use std::process::Abort;


const RULE_NAMES: &[&str] = &["list", "item"];

const LEAF_NAMES: &[&str] = &["'['", "','", "']'", "<digit>"];

/// Asserts what rules print as.
fn assert_prints<R: Abort + AllocGlobal>(rt: &R, rules: &Rules, expected: &str) {
    let info = DebugInfo {
        rules,
        rule_names: RULE_NAMES,
        leaf_names: LEAF_NAMES,
    };
    let text = format!(in rt.alloc(); "{}", info.to_ebnf()).expect(rt, "refused");
    assert_eq!(rt; text.as_str(), expected);
}

/// Asserts what one rule prints as.
fn assert_body<R: Abort + AllocGlobal, F: FnOnce(&mut Rules, Recursive) -> Result<Node, BuildError>>(
    rt: &R,
    body: F,
    expected: &str,
) {
    let mut rules = Rules::new(rt.alloc());
    rules.recursive(body).expect(rt, "refused");
    assert_prints(rt, &rules, expected);
}

/// Bounds of a list, and whether separators may stand before the first item and after the last.
fn bounds(at_least: usize, at_most: Option<usize>, leading: bool, trailing: bool) -> SepCfg {
    SepCfg {
        at_least,
        at_most,
        allow_leading: leading,
        allow_trailing: trailing,
    }
}

/// Leaves with commas between them, within bounds.
fn digits(rules: &mut Rules, config: SepCfg) -> Result<Node, BuildError> {
    let digit = rules.leaf(3)?;
    let comma = rules.leaf(1)?;
    rules.separated_by(digit, comma, config)
}

#[test]
fn a_list_in_brackets_prints_as_one_writes_it(rt: HostRuntime) {
    assert_body(
        &rt,
        |rules, list| {
            let opening = rules.leaf(0)?;
            let inside = rules.rule(list)?;
            let mapped = rules.map(inside, 0)?;
            let digit = rules.leaf(3)?;
            let number = rules.repeated(digit, 1, None)?;
            let item = rules.choice(&[number, mapped])?;
            let comma = rules.leaf(1)?;
            let items = rules.separated_by(mapped, comma, bounds(0, None, false, true))?;
            let closing = rules.leaf(2)?;
            let closed = rules.then(items, closing)?;
            let opened = rules.then(opening, closed)?;
            rules.choice(&[item, opened])
        },
        "list ::= (<digit>+ | list) | '[' (list (',' list)* ','?)? ']'\n",
    );
}

#[test]
fn lists_print_with_their_bounds(rt: HostRuntime) {
    let rows = [
        (bounds(0, None, false, false), "list ::= (<digit> (',' <digit>)*)?\n"),
        (bounds(1, None, false, false), "list ::= <digit> (',' <digit>)*\n"),
        (bounds(2, None, true, false), "list ::= ','? <digit> (',' <digit>)+\n"),
        (bounds(3, Some(5), false, true), "list ::= <digit> (',' <digit>){2,4} ','?\n"),
        (bounds(0, Some(2), true, true), "list ::= ','? (<digit> (',' <digit>)? ','?)?\n"),
        (bounds(1, Some(1), false, true), "list ::= <digit> ','?\n"),
        (bounds(0, Some(0), true, true), "list ::= ()\n"),
        (bounds(9, Some(3), false, false), "list ::= <digit> (',' <digit>){2}\n"),
    ];
    for (config, expected) in rows {
        let mut rules = Rules::new(rt.alloc());
        let list = rules.declare().expect(&rt, "refused");
        let body = digits(&mut rules, config).expect(&rt, "refused");
        rules.define(list, body).expect(&rt, "refused");
        assert_prints(&rt, &rules, expected);
    }
}

#[test]
fn predicates_and_bounds_hold_together_as_in_expression_grammars(rt: HostRuntime) {
    assert_body(
        &rt,
        |rules, _list| {
            let digit = rules.leaf(3)?;
            let comma = rules.leaf(1)?;
            let both = rules.then(digit, comma)?;
            let twice = rules.repeated(both, 2, Some(2))?;
            let ahead = rules.rewind(twice)?;
            let perhaps = rules.or_not(ahead)?;
            let either = rules.choice(&[comma, perhaps])?;
            let absent = rules.not(either)?;
            let also = rules.and_is(digit, absent)?;
            rules.then(also, comma)
        },
        "list ::= &!(',' | (&(<digit> ','){2})?) <digit> ','\n",
    );
}

#[test]
fn what_stands_twice_has_a_line(rt: HostRuntime) {
    assert_body(
        &rt,
        |rules, _list| {
            let digit = rules.leaf(3)?;
            let comma = rules.leaf(1)?;
            let factor = rules.choice(&[digit, comma])?;
            let mut sum = factor;
            for _ in 0..3 {
                let step = rules.then(comma, sum)?;
                let steps = rules.repeated(step, 0, None)?;
                sum = rules.then(sum, steps)?;
            }
            Ok(sum)
        },
        "list ::= node8 (',' node8)*\n\
        node2 ::= <digit> | ','\n\
        node5 ::= node2 (',' node2)*\n\
        node8 ::= node5 (',' node5)*\n",
    );
}

#[test]
fn what_has_no_name_prints_as_its_number(rt: HostRuntime) {
    let mut rules = Rules::new(rt.alloc());
    for _ in 0..3 {
        rules.declare().expect(&rt, "refused");
    }
    let third = rules.declare().expect(&rt, "refused");
    let leaf = rules.leaf(7).expect(&rt, "refused");
    let nothing = rules.choice(&[]).expect(&rt, "refused");
    let call = rules.rule(third).expect(&rt, "refused");
    let body = rules.choice(&[leaf, nothing, call]).expect(&rt, "refused");
    rules.define(third, body).expect(&rt, "refused");
    assert_prints(
        &rt,
        &rules,
        "list ::= /* undefined */\n\
        item ::= /* undefined */\n\
        rule2 ::= /* undefined */\n\
        rule3 ::= leaf7 | (!()) | rule3\n",
    );
}

/// What is drawn of `list ::= <digit>*`, behind the style: a box of seven characters, 9 wide each, with 10 at either side; bends of
/// 10 past it and back below it; and the row, 30 below the top, as far up as the bends go.
const DRAWN: &str = "<g id=\"n0\"><path d=\"M0 0h10M93 0h10\"/>\
    <rect x=\"10\" y=\"-11\" width=\"83\" height=\"22\" rx=\"11\"/>\
    <text x=\"51\" y=\"5\">&lt;digit&gt;</text></g>\n\
    <g id=\"n1\"><path d=\"M0 0H20\"/><use href=\"#n0\" x=\"20\" y=\"0\"/><path d=\"M123 0H143\"/>\
    <path d=\"M0 0q10 0 10 -10v-11q0 -10 10 -10h103q10 0 10 10v11q0 10 10 10\"/>\
    <path d=\"M123 0q10 0 10 10v1q0 10 -10 10h-103M20 21q-10 0 -10 -10v-1q0 -10 10 -10\"/></g>\n\
    </defs>\n\
    <text class=\"rule\" x=\"20\" y=\"20\">list</text>\n\
    <path d=\"M20 51v20M20 61h20M183 61h20M203 51v20\"/>\n\
    <use href=\"#n1\" x=\"40\" y=\"61\"/>\n\
    </svg>\n";

#[test]
fn a_diagram_escapes_names_and_places_parts(rt: HostRuntime) {
    let mut rules = Rules::new(rt.alloc());
    let list = rules.declare().expect(&rt, "refused");
    let digit = rules.leaf(3).expect(&rt, "refused");
    let digits = rules.repeated(digit, 0, None).expect(&rt, "refused");
    rules.define(list, digits).expect(&rt, "refused");
    let info = DebugInfo {
        rules: &rules,
        rule_names: RULE_NAMES,
        leaf_names: LEAF_NAMES,
    };
    let svg = info.to_railroad_svg(rt.alloc()).expect(&rt, "refused");
    let text = format!(in rt.alloc(); "{svg}").expect(&rt, "refused");
    let (head, drawn) = text.as_str().split_once("<defs>\n").expect(&rt, "no nodes");
    let first = "<svg xmlns=\"http://www.w3.org/2000/svg\" width=\"223\" height=\"112\" viewBox=\"0 0 223 112\">\n";
    assert!(rt; head.starts_with(first));
    assert_eq!(rt; drawn, DRAWN);
}
