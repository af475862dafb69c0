//! Recovery within grammars by rules, and around one.
use answers::asserts::assert_answers;
use answers::extras::Own;
use chumsky::PResult;
use chumsky::combinator::{Part, part_of, run_part};
use chumsky::input::InputRef;
use chumsky::prelude::*;
use chumsky::recursive::{Leaves, MayStay, RecursiveError, Values};
use std::alloc::{AllocError, Global};

#[derive(Drop)]
struct Depths;

impl Values<SimpleSpan, Rich<char>> for Depths {
    type Value = usize;

    fn pair(
        &self,
        _alloc: Global,
        _number: usize,
        a: usize,
        b: usize,
    ) -> Result<usize, AllocError> {
        Ok(a.max(b))
    }

    fn option(&self, _alloc: Global, depth: Option<usize>) -> Result<usize, AllocError> {
        Ok(depth.unwrap_or(0))
    }

    fn unit(&self, _alloc: Global) -> Result<usize, AllocError> {
        Ok(0)
    }

    fn map(&self, _alloc: Global, _mapper: usize, inside: usize) -> Result<usize, AllocError> {
        Ok(inside.saturating_add(1))
    }

    fn list(&self, _alloc: Global, depths: Vec<usize>) -> Result<usize, AllocError> {
        let mut deepest = 0;
        for depth in depths.as_slice() {
            deepest = deepest.max(*depth);
        }
        Ok(deepest)
    }

    fn try_map(
        &self,
        _alloc: Global,
        _mapper: usize,
        depth: usize,
        _span: SimpleSpan,
    ) -> Result<Result<usize, Rich<char>>, AllocError> {
        Ok(Ok(depth))
    }
}

fn brackets(rules: &mut Rules) -> Result<Recursive, RecursiveError> {
    rules.recursive(|rules, brackets| {
        let opening = rules.leaf(0)?;
        let inside = rules.rule(brackets)?;
        let closing = rules.leaf(1)?;
        let closed = rules.then(inside, closing)?;
        let opened = rules.then(opening, closed)?;
        let pair = rules.map(opened, 0)?;
        rules.repeated(pair, 0, None)
    })
}

#[test]
fn a_recovering_parser_may_be_a_leaf(rt: HostRuntime) {
    let mut rules = Rules::new(rt.alloc());
    let start = brackets(&mut rules).expect(&rt, "rules");
    let leaves = [
        just::<_, _, Own>("[")
            .to(0)
            .recover_with(via_parser(just("(").to(0))),
        just("]").to(0).recover_with(via_parser(just(")").to(0))),
    ];
    let actions = Leaves {
        leaves: &leaves,
        values: Depths,
    };
    let grammar = close(&rules, start, &actions, 10).expect(&rt, "closes");
    let rows = [
        ("[[][]]", "ok 2"),
        (
            "[()]",
            "ok 2; error 1..2 expected '[' found '('; error 2..3 expected ']' found ')'",
        ),
        ("[x]", "error 1..2 expected '[', ']' found 'x'"),
    ];
    assert_answers(&rt, &grammar, &rows);
}

/// An opening bracket, a closing one, or what is neither, which is skipped with an error.
#[derive(Clone, Copy)]
enum Leaf {
    Opens,
    Closes,
    Skipped,
}

impl MayStay for Leaf {}

impl<'src> IsParser<&'src str, usize, Own> for Leaf {}

impl<'src> Part<'src, &'src str, usize, Own> for Leaf {
    fn run(
        &self,
        wanted: bool,
        inp: &mut InputRef<'src, '_, &'src str, Own>,
    ) -> PResult<Option<usize>> {
        match self {
            Leaf::Opens => run_part(&just("[").to(0), wanted, inp),
            Leaf::Closes => run_part(&just("]").to(0), wanted, inp),
            Leaf::Skipped => {
                let other = none_of("[]").repeated().at_least(1);
                let told = other.validate(|_, extra, emitter| {
                    emitter.emit(Rich::custom(extra.span(), String::new(extra.alloc())));
                    0
                });
                run_part(&told, wanted, inp)
            }
        }
    }
}

/// Pairs of brackets, and what is skipped between them.
fn skipping(rules: &mut Rules) -> Result<Recursive, RecursiveError> {
    rules.recursive(|rules, inside| {
        let opening = rules.leaf(0)?;
        let between = rules.rule(inside)?;
        let closing = rules.leaf(1)?;
        let closed = rules.then(between, closing)?;
        let opened = rules.then(opening, closed)?;
        let pair = rules.map(opened, 0)?;
        let other = rules.leaf(2)?;
        let either = rules.choice(&[pair, other])?;
        rules.repeated(either, 0, None)
    })
}

#[test]
fn a_choice_whose_last_leaf_skips_goes_on(rt: HostRuntime) {
    let mut rules = Rules::new(rt.alloc());
    let start = skipping(&mut rules).expect(&rt, "rules");
    let leaves = [
        part_of(Leaf::Opens),
        part_of(Leaf::Closes),
        part_of(Leaf::Skipped),
    ];
    let actions = Leaves {
        leaves: &leaves,
        values: Depths,
    };
    let grammar = close(&rules, start, &actions, 10).expect(&rt, "closes");
    let rows = [
        ("[[][]]", "ok 2"),
        (
            "[x[yy]]z",
            "ok 2; error 1..2 \"\"; error 3..5 \"\"; error 7..8 \"\"",
        ),
        ("[x", "error 2..2 expected something else, '[', ']' found end"),
    ];
    assert_answers(&rt, &grammar, &rows);
}

#[test]
fn a_whole_grammar_may_have_a_strategy(rt: HostRuntime) {
    let mut rules = Rules::new(rt.alloc());
    let start = brackets(&mut rules).expect(&rt, "rules");
    let leaves = [just::<_, _, Own>("[").to(0), just("]").to(0)];
    let actions = Leaves {
        leaves: &leaves,
        values: Depths,
    };
    let grammar = close(&rules, start, &actions, 10).expect(&rt, "closes");
    let line = grammar.then_ignore(just("\n")).recover_with(via_parser(
        none_of("\n").repeated().then(just("\n")).to(99),
    ));
    let rows = [
        ("[[][]]\n[]\n", "ok [2, 1]"),
        (
            "[]\n[[x]]\n[]]\n\n",
            "ok [1, 99, 99, 0]; error 5..6 expected '[', ']' found 'x'; error 11..12 expected '[', '\\n' found ']'",
        ),
    ];
    assert_answers(&rt, &line.repeated().collect::<Vec<usize>>(), &rows);
}
