//! Rules that are built call by call, closed, looked at and run.
ghost use Rattle.std.specs.Prelude.{IfOk, ⊤};

use crate::line::{Line, Say};
use crate::plans::{Built, Call, Plan, build};
use crate::run::{once, say_stop};
use chumsky::Stop;
use chumsky::debug::DebugInfo;
use chumsky::extra::RichText;
use chumsky::prelude::*;
use chumsky::recursive::{BuildError, Leaves, Node, RecursiveError, SepCfg, Values, WellFounded};
use std::alloc::{AllocError, Global};

/// The leaves, by number: texts, each with the value 1. The last may succeed without moving.
const A: usize = 0;

const B: usize = 1;

const COMMA: usize = 2;

const PLUS: usize = 3;

const OPENING: usize = 4;

const CLOSING: usize = 5;

const NOTHING: usize = 6;

/// Values are how many leaves there are.
#[derive(Drop)]
struct Counts;

impl Values<SimpleSpan, Rich<char>> for Counts {
    type Value = usize;

    fn pair(
        &self,
        _alloc: Global,
        _number: usize,
        a: usize,
        b: usize,
    ) -> Result<usize, AllocError> {
        Ok(a.saturating_add(b))
    }

    fn option(&self, _alloc: Global, count: Option<usize>) -> Result<usize, AllocError>
        ensures { IfOk result (λ _. ⊤) }
    {
        Ok(count.unwrap_or(0))
    }

    fn unit(&self, _alloc: Global) -> Result<usize, AllocError> {
        Ok(0)
    }

    fn map(&self, _alloc: Global, _mapper: usize, count: usize) -> Result<usize, AllocError> {
        Ok(count)
    }

    fn list(&self, _alloc: Global, counts: Vec<usize>) -> Result<usize, AllocError>
        ensures { IfOk result (λ _. ⊤) }
    {
        let mut all = 0usize;
        for count in counts.as_slice() {
            all = all.saturating_add(*count);
        }
        Ok(all)
    }

    fn try_map(
        &self,
        _alloc: Global,
        _mapper: usize,
        count: usize,
        _span: SimpleSpan,
    ) -> Result<Result<usize, Rich<char>>, AllocError> {
        Ok(Ok(count))
    }
}

impl Say for WellFounded {
    fn say(&self, line: &mut Line) {
        match self {
            WellFounded::Order(order) => {
                line.text("order");
                for rule in order.as_slice() {
                    line.byte(b' ');
                    line.number(rule.number());
                }
            }
            WellFounded::LeftCycle(rule) => {
                line.text("left cycle ");
                line.number(rule.number());
            }
            WellFounded::EmptyRound(node) => {
                line.text("empty round ");
                line.number(node.number());
            }
        }
    }
}

/// What is asked of rules that were built and closed.
#[derive(Clone, Copy)]
enum Asks {
    /// The greatest limit that three tokens take.
    Limit,
    /// Whether they are well-founded.
    Founded,
    /// A run over a text under a limit, by `check` or by `parse`.
    Run(&'static str, usize, bool),
}

/// Builds rules and asks them, once or twice: one line each time. The first is that of the refusal where a call was refused
/// while they were built.
fn over_plan(alloc: Global, plan: Plan<'_>, asks: Asks, again: bool) -> Line {
    let mut line = Line::new();
    match build(alloc, plan) {
        Some(built) => {
            if built.refused {
                say_stop(&mut line, Stop::Memory);
            } else {
                ask(alloc, &built, asks, &mut line);
            }
            if again {
                line.byte(b'\n');
                ask(alloc, &built, asks, &mut line);
            }
        }
        None => line.text("not built"),
    }
    line
}

/// Closes rules, and asks them.
fn ask(alloc: Global, built: &Built, asks: Asks, line: &mut Line) {
    let leaves = [
        just::<_, &str, RichText>("a").to(1),
        just("b").to(1),
        just(",").to(1),
        just("+").to(1),
        just("[").to(1),
        just("]").to(1),
        just("").to(1),
    ];
    let actions = Leaves {
        leaves: &leaves,
        values: Counts,
    };
    let limit = match asks {
        Asks::Run(_, limit, _) => limit,
        _ => 0,
    };
    match built.rules.close(built.start, &actions, limit) {
        Ok(grammar) => match asks {
            Asks::Limit => grammar.limit_for(3).say(line),
            Asks::Founded => match grammar.well_founded() {
                Ok(answer) => answer.say(line),
                Err(_) => say_stop(line, Stop::Memory),
            },
            Asks::Run(text, _, check) => once(&grammar, alloc, text, check, line),
        },
        Err(_) => line.text("not closed"),
    }
}

/// Pairs of brackets, within one another and beside one another, with any number of plus signs.
const BRACKETS: [Call; 8] = [
    Call::Leaf(PLUS),
    Call::Leaf(OPENING),
    Call::Rule(0),
    Call::Leaf(CLOSING),
    Call::Then(2, 3),
    Call::Then(1, 4),
    Call::Either(0, 5),
    Call::Repeated(6, None),
];

/// An `a` that is not a `b`, looked at and gone back from, and then an `a` that may be absent.
const LOOKED_AT: [Call; 8] = [
    Call::Leaf(A),
    Call::Leaf(B),
    Call::Not(1),
    Call::AndIs(0, 2),
    Call::Rewind(3),
    Call::OrNot(0),
    Call::Map(5),
    Call::Then(4, 6),
];

/// Each node call once, and a choice of nothing.
const EACH: [Call; 13] = [
    Call::Leaf(A),
    Call::Rule(0),
    Call::Then(0, 1),
    Call::Nothing,
    Call::Either(2, 3),
    Call::Repeated(4, Some(3)),
    Call::SeparatedBy(5, 0, false),
    Call::OrNot(6),
    Call::Not(0),
    Call::AndIs(7, 8),
    Call::Rewind(9),
    Call::Map(10),
    Call::TryMap(11),
];

/// Builds the rules of a row, and asks them.
fn over_row(alloc: Global, row: usize, asks: Asks, again: bool) -> Line {
    let (calls, bodies): (&[Call], &[usize]) = match row {
        0 => (&BRACKETS, &[7]),
        1 => (&[Call::Leaf(A), Call::Rule(1)], &[1, 0]),
        2 => (&[Call::Nothing], &[0]),
        3 => (&LOOKED_AT, &[7]),
        4 => (&EACH, &[12]),
        5 => (
            &[
                Call::Leaf(A),
                Call::Rule(1),
                Call::Then(0, 1),
                Call::Rule(0),
            ],
            &[2, 3],
        ),
        6 => (&[Call::Leaf(A), Call::Rule(0), Call::AndIs(0, 1)], &[2]),
        7 => (
            &[Call::Leaf(A), Call::Rule(0), Call::SeparatedBy(0, 1, false)],
            &[2],
        ),
        8 => (
            &[Call::Leaf(A), Call::Rule(0), Call::SeparatedBy(0, 1, true)],
            &[2],
        ),
        9 => (
            &[Call::Leaf(A), Call::OrNot(0), Call::Repeated(1, None)],
            &[0],
        ),
        10 => (
            &[
                Call::Leaf(A),
                Call::OrNot(0),
                Call::Leaf(COMMA),
                Call::SeparatedBy(1, 2, false),
            ],
            &[3],
        ),
        11 => (
            &[Call::Leaf(A), Call::OrNot(0), Call::Repeated(1, Some(3))],
            &[2],
        ),
        12 => (&[Call::Leaf(A), Call::Rule(1)], &[0, 1]),
        _ => (
            &[Call::Leaf(NOTHING), Call::Rule(0), Call::Then(0, 1)],
            &[2],
        ),
    };
    over_plan(alloc, Plan { calls, bodies }, asks, again)
}

/// Builds and closes the rules of a row, and asks for the limit of three tokens.
pub fn sweep_closing(alloc: Global, row: usize, _check: bool, again: bool) -> Line {
    over_row(alloc, row, Asks::Limit, again)
}

/// Asks whether the rules of a row are well-founded.
pub fn sweep_well_founded(alloc: Global, row: usize, _check: bool, again: bool) -> Line {
    over_row(alloc, row, Asks::Founded, again)
}

/// Runs a grammar.
pub fn sweep_grammar(alloc: Global, row: usize, check: bool, again: bool) -> Line {
    let (grammar, text, limit) = match row {
        0 => (0, "[[]]", 3),
        1 => (0, "[[]]", 2),
        2 => (0, "[[[[", 5),
        3 => (0, "[[[[", 4),
        4 => (1, "a", 2),
        5 => (2, "", 1),
        6 => (2, "", 0),
        7 => (3, "a", 1),
        _ => (3, "b", 1),
    };
    over_row(alloc, grammar, Asks::Run(text, limit, check), again)
}

/// Each node call once.
fn each_node_call(rules: &mut Rules, rule: Recursive) -> Result<Node, BuildError> {
    let leaf = rules.leaf(A)?;
    let call = rules.rule(rule)?;
    let pair = rules.then(leaf, call)?;
    let among = rules.choice(&[pair, leaf])?;
    let many = rules.repeated(among, 1, Some(3))?;
    let between = SepCfg {
        at_least: 0,
        at_most: None,
        allow_leading: false,
        allow_trailing: false,
    };
    let list = rules.separated_by(many, leaf, between)?;
    let perhaps = rules.or_not(list)?;
    let absent = rules.not(leaf)?;
    let both = rules.and_is(perhaps, absent)?;
    let ahead = rules.rewind(both)?;
    let mapped = rules.map(ahead, 0)?;
    rules.try_map(mapped, 0)
}

/// New rules by `recursive`: how many nodes there are, or why there is no rule.
fn say_recursive(alloc: Global, line: &mut Line) {
    let mut rules = Rules::new(alloc);
    match rules.recursive(each_node_call) {
        Ok(rule) => {
            line.text("rule ");
            line.number(rule.number());
            line.text(", nodes ");
            line.number(rules.nodes().len());
        }
        Err(RecursiveError::Declare | RecursiveError::Build(BuildError::Memory)) => {
            say_stop(line, Stop::Memory);
        }
        Err(_) => line.text("not built"),
    }
}

/// Builds rules by `recursive`, new ones each time.
pub fn sweep_recursive(alloc: Global, _row: usize, _check: bool, again: bool) -> Line {
    let mut line = Line::new();
    say_recursive(alloc, &mut line);
    if again {
        line.byte(b'\n');
        say_recursive(alloc, &mut line);
    }
    line
}

/// New rules, drawn: that they are, or why they aren't.
fn say_drawn(alloc: Global, line: &mut Line) {
    let mut rules = Rules::new(alloc);
    if rules.recursive(each_node_call).is_err() {
        return say_stop(line, Stop::Memory);
    }
    let info = DebugInfo {
        rules: &rules,
        rule_names: &[],
        leaf_names: &[],
    };
    match info.to_railroad_svg(alloc) {
        Ok(_) => line.text("drawn"),
        Err(_) => say_stop(line, Stop::Memory),
    }
}

/// Draws rules, new ones each time.
pub fn sweep_drawn(alloc: Global, _row: usize, _check: bool, again: bool) -> Line {
    let mut line = Line::new();
    say_drawn(alloc, &mut line);
    if again {
        line.byte(b'\n');
        say_drawn(alloc, &mut line);
    }
    line
}
