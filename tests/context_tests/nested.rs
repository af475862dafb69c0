//! Parsers over an input that another parser gives.
use answers::asserts::assert_answers;
use answers::extras::{Own, Quiet};
use answers::leaves::just_char;
use chumsky::prelude::*;
use chumsky::primitive::SelectRef;
use chumsky::util::SameClone;

/// What the inner parser has, that runs over a text which a parser under `Own` gives.
type OfChars = extra::Err<Rich<char>>;

#[test]
fn the_inner_parser_runs_over_the_whole_text_that_the_outer_one_gives(rt: HostRuntime) {
    let outer = just::<_, _, Own>('a')
        .to("xy")
        .or(just('b').to("xz"))
        .or(just('c').to("xyy"));
    let nested = just::<_, &str, OfChars>('x')
        .ignore_then(just('y'))
        .nested_in(outer);
    let rows = [
        ("a", "ok 'y'"),
        ("b", "error 0..1 expected 'a', 'y' found 'b'"),
        ("c", "error 0..1 expected 'a', 'b', end of input found 'c'"),
        ("d", "error 0..1 expected 'a', 'b', 'c' found 'd'"),
        ("", "error 0..0 expected 'a', 'b', 'c' found end"),
    ];
    assert_answers(&rt, &nested, &rows);
}

#[test]
fn an_output_is_an_input(rt: HostRuntime) {
    let inner = just::<_, &str, OfChars>('x').then(just('y'));
    let nested = inner.nested_in(just_char('a').to("xy"));
    assert_answers(&rt, &nested, &[("a", "ok ('x', 'y')")]);
}

#[test]
fn the_inner_error_is_one_failure_where_the_outer_parser_began(rt: HostRuntime) {
    let nested = just::<_, &str, OfChars>('x')
        .then_ignore(just('z'))
        .nested_in(just::<_, _, Own>('a').to("xy"));
    let grammar = just('b').ignore_then(nested.or(just('c')));
    let rows = [
        ("ba", "error 1..2 expected 'z', 'c' found 'y'"),
        ("bac", "error 1..2 expected 'z', 'c' found 'y'"),
    ];
    assert_answers(&rt, &grammar, &rows);
}

#[test]
fn an_error_that_the_inner_parser_kept_stands_there_too(rt: HostRuntime) {
    let nested = just::<_, &str, OfChars>('x')
        .then_ignore(just('z').or_not())
        .then_ignore(just('y'))
        .nested_in(empty::<_, Own>().to("xy"));
    let rows = [("c", "error 1..2 expected 'z', 'b' found 'y'")];
    assert_answers(&rt, &nested.then_ignore(just('b')), &rows);
}

#[test]
fn a_failure_after_the_outer_part_lies_further_on(rt: HostRuntime) {
    let nested = just::<_, &str, OfChars>('x')
        .then_ignore(just('z').or_not())
        .then_ignore(just('y'))
        .nested_in(just::<_, _, Own>('a').to("xy"));
    let rows = [("ac", "error 1..2 expected 'b' found 'c'")];
    assert_answers(&rt, &nested.then_ignore(just('b')), &rows);
}

#[test]
fn an_error_that_the_inner_parser_emitted_stands(rt: HostRuntime) {
    let nested = custom::<_, &str, char, extra::Err<EmptyErr>>(|inp| {
        inp.emit(EmptyErr)?;
        Ok('x')
    });
    let nested = nested
        .then_ignore(just('x'))
        .nested_in(just::<_, _, Quiet>('a').to("x"));
    assert_answers(&rt, &nested, &[("a", "ok 'x'; error")]);
}

#[test]
fn texts_are_tokens_of_an_outer_input(rt: HostRuntime) {
    let nested = just::<_, &str, extra::Err<Cheap>>('a')
        .ignore_then(just('b'))
        .nested_in(any::<&[&str], extra::Err<Cheap>>());
    let rows: [(&[&str], &str); 5] = [
        (&["ab"], "ok 'b'"),
        (&["ac"], "error 1..2"),
        (&["abc"], "error 2..3"),
        (&["ab", "c"], "error 1..2"),
        (&[], "error 0..0"),
    ];
    assert_answers(&rt, &nested, &rows);
}

/// A tree of tokens: what stood between brackets is one token.
#[derive(Clone, Copy, Debug, PartialEq, Drop)]
enum Tree<'a> {
    Number(u32),
    Group(&'a [Tree<'a>]),
}

impl<'a> SameClone for Tree<'a> {
    ghost use Rattle.std.specs.Prelude.{refl};

    ghost Seen = { Tree };

    ghost seen = { λ tree. tree };

    ghost same = { ⟦<Tree<'a> as PartialEq>⟧.eq };

    ghost clone_same = { λ x y e. e };

    ghost eq_same = { λ x y. refl };
}

/// Errors that say what was expected and found among trees.
type OfTrees<'a> = extra::Err<Rich<Tree<'a>>>;

use Tree::{Group, Number};

/// What stands in a group.
macro_rules! group {
    () => {
        {
            let group: SelectRef<_, &[Tree], &[Tree], OfTrees> = select_ref! {
                Tree::Group(trees) => *trees,
            };
            group
        }
    };
}

#[test]
fn the_inner_error_has_the_span_of_the_inner_input(rt: HostRuntime) {
    let one = just::<_, &[Tree], OfTrees>(Number(1)).nested_in(group!());
    let rows: [(&[Tree], &str); 4] = [
        (&[Group(&[Number(1)])], "ok Number(1)"),
        (
            &[Group(&[Number(2)])],
            "error 0..1 expected Number(1) found Number(2)",
        ),
        (
            &[Group(&[Number(1), Number(2)])],
            "error 1..2 expected end of input found Number(2)",
        ),
        (
            &[Number(1)],
            "error 0..1 expected something else found Number(1)",
        ),
    ];
    assert_answers(&rt, &one, &rows);
}

#[test]
fn groups_lie_within_groups(rt: HostRuntime) {
    let within = just::<_, &[Tree], OfTrees>(Number(1))
        .then(just(Number(2)))
        .nested_in(group!());
    let beside = just(Number(0)).then(within).nested_in(group!());
    let rows: [(&[Tree], &str); 4] = [
        (
            &[Group(&[Number(0), Group(&[Number(1), Number(2)])])],
            "ok (Number(0), (Number(1), Number(2)))",
        ),
        (
            &[Group(&[Number(0), Group(&[Number(1), Number(3)])])],
            "error 1..2 expected Number(2) found Number(3)",
        ),
        (
            &[Group(&[Number(0), Group(&[Number(1)])])],
            "error 1..1 expected Number(2) found end",
        ),
        (
            &[Group(&[Number(0), Group(&[Number(1), Number(2)]), Number(4)])],
            "error 2..3 expected end of input found Number(4)",
        ),
    ];
    assert_answers(&rt, &beside, &rows);
}

#[test]
fn errors_that_are_emitted_two_levels_within_stand(rt: HostRuntime) {
    let odd = any::<&[Tree], OfTrees>().validate(|tree: Tree, extra, emitter| {
        if tree == Number(1) {
            emitter.emit(Rich::custom(extra.span(), String::new(extra.alloc())));
        }
        tree
    });
    let within = odd.repeated().nested_in(group!());
    let beside = any().ignore_then(within).nested_in(group!());
    let rows: [(&[Tree], &str); 2] = [
        (
            &[Group(&[Number(0), Group(&[Number(1), Number(2), Number(1)])])],
            "ok (); error 0..1 \"\"; error 2..3 \"\"",
        ),
        (
            &[Group(&[Number(0), Group(&[Number(1)]), Number(3)])],
            "error 0..1 \"\"; error 2..3 expected end of input found Number(3)",
        ),
    ];
    assert_answers(&rt, &beside, &rows);
}
