//! Rules as lists of calls, each of which is made once more where it is refused for memory.
use chumsky::prelude::*;
use chumsky::recursive::{BuildError, Node, SepCfg};
use std::alloc::{AllocError, Global};

/// A call that makes a node. Leaves, rules and nodes are named by their numbers.
#[derive(Clone, Copy)]
pub enum Call {
    Leaf(usize),
    Rule(usize),
    Then(usize, usize),
    Either(usize, usize),
    Nothing,
    /// An item, and how often at most.
    Repeated(usize, Option<usize>),
    /// An item, a separator, and whether one may stand before the first item.
    SeparatedBy(usize, usize, bool),
    OrNot(usize),
    Not(usize),
    AndIs(usize, usize),
    Rewind(usize),
    Map(usize),
    TryMap(usize),
}

/// Rules: which nodes are made, in order, and which are the bodies of the rules.
#[derive(Clone, Copy)]
pub struct Plan<'a> {
    pub calls: &'a [Call],
    pub bodies: &'a [usize],
}

/// The nodes and rules that were made.
#[derive(Clone, Copy)]
struct Known {
    nodes: [Option<Node>; 16],
    rules: [Option<Recursive>; 2],
}

impl Known {
    fn node(&self, number: usize) -> Result<Node, BuildError> {
        match self.nodes.get(number) {
            Some(Some(node)) => Ok(*node),
            _ => Err(BuildError::ForeignNode(number)),
        }
    }

    fn rule(&self, number: usize) -> Result<Recursive, BuildError> {
        match self.rules.get(number) {
            Some(Some(rule)) => Ok(*rule),
            _ => Err(BuildError::ForeignRule(number)),
        }
    }
}

/// Rules that were built.
#[derive(Drop)]
pub struct Built {
    pub rules: Rules,
    pub start: Recursive,
    /// Whether a call was refused for memory, and made once more.
    pub refused: bool,
}

/// Builds rules. None where a call answers what it should not.
pub fn build(alloc: Global, plan: Plan<'_>) -> Option<Built> {
    let mut rules = Rules::new(alloc);
    let mut known = Known {
        nodes: [None; 16],
        rules: [None; 2],
    };
    let mut refused = false;
    for (place, _) in known.rules.iter_mut().zip(plan.bodies.iter()) {
        *place = Some(declare(&mut rules, &mut refused)?);
    }
    for (at, call) in plan.calls.iter().enumerate() {
        let node = make(&mut rules, &known, *call, &mut refused)?;
        if let Some(place) = known.nodes.get_mut(at) {
            *place = Some(node);
        }
    }
    for (at, body) in plan.bodies.iter().enumerate() {
        let rule = known.rule(at).ok()?;
        let node = known.node(*body).ok()?;
        rules.define(rule, node).ok()?;
    }
    let start = known.rule(0).ok()?;
    Some(Built {
        rules,
        start,
        refused,
    })
}

/// Declares a rule, once more where that is refused.
fn declare(rules: &mut Rules, refused: &mut bool) -> Option<Recursive> {
    match rules.declare() {
        Ok(rule) => Some(rule),
        Err(_) => {
            *refused = true;
            rules.declare().ok()
        }
    }
}

/// Makes a node, once more where that is refused for memory.
fn make(rules: &mut Rules, known: &Known, call: Call, refused: &mut bool) -> Option<Node> {
    match call_once(rules, known, call) {
        Ok(node) => Some(node),
        Err(BuildError::Memory) => {
            *refused = true;
            call_once(rules, known, call).ok()
        }
        Err(_) => None,
    }
}

/// Makes a node.
fn call_once(rules: &mut Rules, known: &Known, call: Call) -> Result<Node, BuildError> {
    match call {
        Call::Leaf(leaf) => rules.leaf(leaf),
        Call::Rule(rule) => rules.rule(known.rule(rule)?),
        Call::Then(first, second) => rules.then(known.node(first)?, known.node(second)?),
        Call::Either(first, second) => { rules.choice(&[known.node(first)?, known.node(second)?]) }
        Call::Nothing => rules.choice(&[]),
        Call::Repeated(item, at_most) => rules.repeated(known.node(item)?, 0, at_most),
        Call::SeparatedBy(item, separator, allow_leading) => {
            let between = SepCfg {
                at_least: 0,
                at_most: None,
                allow_leading,
                allow_trailing: false,
            };
            rules.separated_by(known.node(item)?, known.node(separator)?, between)
        }
        Call::OrNot(part) => rules.or_not(known.node(part)?),
        Call::Not(part) => rules.not(known.node(part)?),
        Call::AndIs(first, second) => rules.and_is(known.node(first)?, known.node(second)?),
        Call::Rewind(part) => rules.rewind(known.node(part)?),
        Call::Map(part) => rules.map(known.node(part)?, 0),
        Call::TryMap(part) => rules.try_map(known.node(part)?, 0),
    }
}
