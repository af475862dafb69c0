//! Parsers over tokens that know where they stand in a source text.
use answers::answer::answer;
use answers::asserts::assert_answers;
use chumsky::extra::RichTokens;
use chumsky::input::Tokens;
use chumsky::prelude::*;
use chumsky::primitive::{Select, SelectRef};
use std::alloc::{AllocError, Global};
use std::process::Abort;

/// A character that takes three bytes from an offset on.
fn at(inner: char, start: usize) -> Spanned<char, SimpleSpan> {
    Spanned {
        inner,
        span: SimpleSpan {
            start,
            end: start + 3,
        },
    }
}

/// The end of the text.
const END: SimpleSpan = SimpleSpan { start: 20, end: 20 };

/// The tokens `a`, `b` and `c`, at 2..5, 10..13 and 13..16.
fn three() -> [Spanned<char, SimpleSpan>; 3] {
    [at('a', 2), at('b', 10), at('c', 13)]
}

type Chars<'src> = SpannedTokens<'src, char>;

#[test]
fn a_span_goes_from_the_start_of_the_first_token_to_the_end_of_the_last(rt: HostRuntime) {
    let tokens = three();
    let span = just::<_, Chars, RichTokens<char>>('a')
        .ignore_then(just('b').then(just('c')).to_span());
    let line = answer(&span, rt.alloc(), split_spanned(&tokens, END)).expect(&rt, "memory");
    assert_eq!(rt; line.as_str(), "ok 10..16");
}

#[test]
fn a_span_of_no_token_is_the_point_where_the_next_begins_and_at_the_end_that_which_was_given(rt: HostRuntime) {
    let tokens = three();
    let nothing = empty::<Chars, RichTokens<char>>().to_span();
    let spans = nothing
        .then(just('a').ignore_then(nothing))
        .then(just('b').then(just('c')).ignore_then(nothing));
    let line = answer(&spans, rt.alloc(), split_spanned(&tokens, END)).expect(&rt, "memory");
    assert_eq!(rt; line.as_str(), "ok ((2..2, 10..10), 20..20)");
}

#[test]
fn of_no_tokens_at_all_the_span_is_that_of_the_end(rt: HostRuntime) {
    let tokens: [Spanned<char, SimpleSpan>; 0] = [];
    let a = just::<_, Chars, RichTokens<char>>('a').labelled("an a");
    assert_answers(&rt, &a, &[(split_spanned(&tokens, END), "error 20..20 expected an a found end")]);
}

#[test]
fn an_error_has_the_span_of_the_token_that_was_found(rt: HostRuntime) {
    let tokens = three();
    let ac = just::<_, Chars, RichTokens<char>>('a').then(just('c').labelled("a c"));
    let rows = [
        (split_spanned(&tokens, END), "error 10..13 expected a c found 'b'"),
        (split_spanned(&tokens[..1], END), "error 20..20 expected a c found end"),
    ];
    assert_answers(&rt, &ac, &rows);
}

#[test]
fn a_simple_error_has_it_too(rt: HostRuntime) {
    let tokens = three();
    let ac = just::<_, Chars, extra::Err<Simple<char>>>('a').then(just('c'));
    let rows = [
        (split_spanned(&tokens, END), "error 10..13 found 'b'"),
        (split_spanned(&tokens[..1], END), "error 20..20 found end"),
    ];
    assert_answers(&rt, &ac, &rows);
}

#[test]
fn a_cheap_error_has_it_too(rt: HostRuntime) {
    let tokens = three();
    let ac = just::<_, Chars, extra::Err<Cheap>>('a').then(just('c'));
    assert_answers(&rt, &ac, &[(split_spanned(&tokens, END), "error 10..13")]);
}

#[test]
fn closures_are_shown_spans_of_the_text(rt: HostRuntime) {
    let tokens = three();
    let starts = any::<Chars, RichTokens<char>>()
        .map_with(|token: char, extra| (token, extra.span().start))
        .repeated()
        .collect::<Vec<_>>();
    let rows = [(split_spanned(&tokens, END), "ok [('a', 2), ('b', 10), ('c', 13)]")];
    assert_answers(&rt, &starts, &rows);
}

#[test]
fn arms_are_of_the_tokens_themselves(rt: HostRuntime) {
    let tokens = three();
    let b: Select<_, Chars, SimpleSpan, RichTokens<char>> = select! {
        'b' = extra => extra.span(),
    };
    let after = any().ignore_then(b).then_ignore(one_of(['b', 'c']));
    assert_answers(&rt, &after, &[(split_spanned(&tokens, END), "ok 10..13")]);
}

#[test]
fn sequences_are_of_the_tokens_themselves(rt: HostRuntime) {
    let tokens = three();
    let wanted = ['b', 'c'];
    let all = just::<_, Chars, RichTokens<char>>(['a', 'b']).then(none_of(wanted.as_slice()).not()).then_ignore(any());
    let rows = [(split_spanned(&tokens, END), "ok (['a', 'b'], ())")];
    assert_answers(&rt, &all, &rows);
}

#[test]
fn a_part_of_the_tokens_is_an_input(rt: HostRuntime) {
    let tokens = three();
    let inner = just::<_, Chars, extra::Err<Rich<char>>>('b').to_span().labelled("b alone");
    let outer = any::<Chars, RichTokens<char>>().then(any()).to_slice();
    let nested = just('a').ignore_then(inner.nested_in(outer));
    let rows = [(split_spanned(&tokens, END), "error 13..16 expected end of input found 'c'")];
    assert_answers(&rt, &nested, &rows);
}

#[test]
fn what_is_emitted_of_a_labelled_part_points_at_its_token(rt: HostRuntime) {
    let tokens = [at('a', 0), at('c', 3), at('a', 9), at('b', 12), at('a', 15), at('c', 18)];
    let end = SimpleSpan { start: 21, end: 21 };
    let single = just::<_, Chars, RichTokens<char>>('a')
        .ignore_then(one_of(['b', 'c']).spanned())
        .validate(|read: Spanned<char, SimpleSpan>, extra, emitter| {
            if read.inner == 'c' {
                if let Ok(error) = Rich::custom_in(extra.alloc(), read.span, "a b, and not a c") {
                    emitter.emit(error);
                }
            }
            read.inner == 'b'
        })
        .labelled("single");
    let all = single.repeated().collect::<Vec<_>>();
    let rows = [(
        split_spanned(&tokens, end),
        "ok [false, true, false]; error 3..6 \"a b, and not a c\"; error 18..21 \"a b, and not a c\"",
    )];
    assert_answers(&rt, &all, &rows);
}

/// A character, or the tokens between two brackets and the span of the bracket that closes them.
#[derive(Drop)]
enum Tree {
    Token(char),
    Group(Vec<Spanned<Tree, SimpleSpan>>, SimpleSpan),
}

type Trees<'src> = SpannedTokens<'src, Tree>;

/// The tokens `a ( b )`, of which the last is left out where it is told so.
fn group(alloc: Global, whole: bool) -> Result<[Spanned<Tree, SimpleSpan>; 2], AllocError> {
    let mut inside = Vec::new(alloc);
    if whole {
        inside.push(spanned(Tree::Token('b'), 10, 11))?;
    }
    let end = SimpleSpan { start: 12, end: 13 };
    Ok([spanned(Tree::Token('a'), 2, 3), spanned(Tree::Group(inside, end), 8, 13)])
}

fn spanned(inner: Tree, start: usize, end: usize) -> Spanned<Tree, SimpleSpan> {
    Spanned {
        inner,
        span: SimpleSpan { start, end },
    }
}

#[test]
fn the_errors_within_a_group_of_tokens_point_into_the_text(rt: HostRuntime) {
    let character: SelectRef<_, Trees, char, extra::Err<Cheap>> = select_ref! {
        Tree::Token(character) => *character,
    };
    let inside: SelectRef<_, Trees, Trees, extra::Err<Cheap>> = select_ref! {
        Tree::Group(tokens, end) => split_spanned(tokens.as_slice(), *end),
    };
    let call = (&character).then((&character).then_ignore(end()).nested_in(inside));
    let whole = group(rt.alloc(), true).expect(&rt, "memory");
    let empty = group(rt.alloc(), false).expect(&rt, "memory");
    let rows = [
        (split_spanned(&whole, END), "ok ('a', 'b')"),
        (split_spanned(&empty, END), "error 12..13"),
        (split_spanned(&whole[..1], END), "error 20..20"),
        (split_spanned(&whole[1..], END), "error 8..13"),
    ];
    assert_answers(&rt, &call, &rows);
}
