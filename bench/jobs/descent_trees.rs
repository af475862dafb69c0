//! JSON into a tree by functions that call themselves, over the strings and numbers of `trees.rt`.
use super::run::once;
use super::trees::{Blank, Number, Quoted, Tree, weight_of};
use chumsky::PResult;
use chumsky::combinator::{Part, part_of, run_part};
use chumsky::extra::{EmptyText, ParserExtra};
use chumsky::input::{InputRef, TextRef};
use chumsky::prelude::*;
use chumsky::recursive::{RunsUnder, Unsaid};
use std::alloc::Global;

/// How many calls may be open at once.
const DEPTH: usize = 1_000;

/// A value that is no list and no object, with what is blank around it.
#[derive(Clone, Copy)]
struct Scalar;

impl<'src> IsParser<&'src str, Tree, EmptyText> for Scalar {}

impl<'src> Part<'src, &'src str, Tree, EmptyText> for Scalar {
    #[inline(always)]
    fn run(&self, wanted: bool, inp: &mut TextRef<'src, '_, EmptyText>) -> PResult<Option<Tree>> {
        let scalar = choice((
            part_of(Quoted).map(Tree::Text),
            part_of(Number).map(Tree::Number),
            just("null").map(|_| Tree::Null),
            just("true").map(|_| Tree::True),
            just("false").map(|_| Tree::False),
        ));
        run_part(&scalar.padded_with(Blank), wanted, inp)
    }
}

/// A name and its colon, with what is blank around them.
#[derive(Clone, Copy)]
struct Name;

impl<'src> IsParser<&'src str, String, EmptyText> for Name {}

impl<'src> Part<'src, &'src str, String, EmptyText> for Name {
    #[inline(always)]
    fn run(&self, wanted: bool, inp: &mut TextRef<'src, '_, EmptyText>) -> PResult<Option<String>> {
        let colon = just(':').padded_with(Blank);
        let name = part_of(Quoted).padded_with(Blank).then_ignore(colon);
        run_part(&name, wanted, inp)
    }
}

/// A comma or a bracket, with what is blank around it.
#[derive(Clone, Copy)]
struct Mark(char);

impl<'src> IsParser<&'src str, char, EmptyText> for Mark {}

impl<'src> Part<'src, &'src str, char, EmptyText> for Mark {
    #[inline(always)]
    fn run(&self, wanted: bool, inp: &mut TextRef<'src, '_, EmptyText>) -> PResult<Option<char>> {
        run_part(&just(self.0).padded_with(Blank), wanted, inp)
    }
}

/// A list, of the parser of its items.
pub fn run_list<'src, I, E, V>(
    value: V,
    wanted: bool,
    inp: &mut InputRef<'src, '_, I, E>,
) -> PResult<Option<Tree>>
where
    I: Input<'src>,
    I::Token: 'src,
    E: ParserExtra<I>,
    V: IsParser<I, Tree, E> + Parser<'src, I, Tree, E> + Drop,
    Mark: IsParser<I, char, E> + Part<'src, I, char, E>,
    requires { V.ready value }
    ensures { ⟦<Unsaid as RunsUnder<'src, I, Tree, E>>⟧.runs 0 wanted inp.old inp.new result }
{
    let items = value
        .separated_by(part_of(Mark(',')))
        .collect::<Vec<_>>()
        .delimited_by(part_of(Mark('[')), part_of(Mark(']')));
    run_part(&items.map(Tree::List), wanted, inp)
}

/// An object, of the parser of its values.
pub fn run_object<'src, I, E, V>(
    value: V,
    wanted: bool,
    inp: &mut InputRef<'src, '_, I, E>,
) -> PResult<Option<Tree>>
where
    I: Input<'src>,
    I::Token: 'src,
    E: ParserExtra<I>,
    V: IsParser<I, Tree, E> + Parser<'src, I, Tree, E> + Drop,
    Name: IsParser<I, String, E> + Part<'src, I, String, E>,
    Mark: IsParser<I, char, E> + Part<'src, I, char, E>,
    requires { V.ready value }
    ensures { ⟦<Unsaid as RunsUnder<'src, I, Tree, E>>⟧.runs 0 wanted inp.old inp.new result }
{
    let members = part_of(Name)
        .then(value)
        .separated_by(part_of(Mark(',')))
        .collect::<Vec<_>>()
        .delimited_by(part_of(Mark('{')), part_of(Mark('}')));
    run_part(&members.map(Tree::Object), wanted, inp)
}

#[cycle(tree)]
pub fn list<'src>(
    inp: &mut TextRef<'src, '_, EmptyText>,
    wanted: bool,
    depth: usize,
) -> PResult<Option<Tree>>
    ensures { ⟦<Unsaid as RunsUnder<'src, &'src str, Tree, EmptyText>>⟧.runs depth wanted inp.old inp.new result }
{
    run_list(recursive(tree, depth), wanted, inp)
}

#[cycle(tree)]
pub fn object<'src>(
    inp: &mut TextRef<'src, '_, EmptyText>,
    wanted: bool,
    depth: usize,
) -> PResult<Option<Tree>>
    ensures { ⟦<Unsaid as RunsUnder<'src, &'src str, Tree, EmptyText>>⟧.runs depth wanted inp.old inp.new result }
{
    run_object(recursive(tree, depth), wanted, inp)
}

/// A value.
#[cycle(tree)]
pub fn tree<'src>(
    inp: &mut TextRef<'src, '_, EmptyText>,
    wanted: bool,
    depth: usize,
) -> PResult<Option<Tree>>
    ensures { ⟦<Unsaid as RunsUnder<'src, &'src str, Tree, EmptyText>>⟧.runs depth wanted inp.old inp.new result }
{
    let tree = choice((
        part_of(Scalar),
        recursive(list, depth),
        recursive(object, depth),
    ));
    run_part(&tree, wanted, inp)
}

/// A sum over the tree.
#[unsafe(no_mangle)]
pub extern "C" fn bench_called_tree_parse(alloc: Global, bytes: &[u8]) -> u64 {
    run_tree(alloc, bytes, true)
}

/// 1 where the text is JSON.
#[unsafe(no_mangle)]
pub extern "C" fn bench_called_tree_check(alloc: Global, bytes: &[u8]) -> u64 {
    run_tree(alloc, bytes, false)
}

pub fn run_tree(alloc: Global, bytes: &[u8], wanted: bool) -> u64 {
    let Ok(text) = std::str::from_utf8(bytes) else {
        return 0;
    };
    let all = recursive::<_, _, _, EmptyText>(tree, DEPTH).map(|tree: Tree| weight_of(&tree));
    once(&all, alloc, text, wanted)
}
