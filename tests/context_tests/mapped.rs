//! Parsers over elements that are taken apart into tokens and spans, and over a text at an offset.
ghost use Rattle.std.specs.Prelude.{◌≡◌};

use answers::asserts::assert_answers;
use chumsky::input::{Pairs, TakesApart};
use chumsky::prelude::*;
use chumsky::primitive::Select;
use chumsky::report::Report;
use chumsky::span::Spanned;
use std::process::Abort;

type OfChars = extra::Err<Rich<char>>;

type Paired<'src> = MappedInput<'src, (char, SimpleSpan), Pairs>;

const fn from_to(start: usize, end: usize) -> SimpleSpan {
    SimpleSpan { start, end }
}

/// The end of the text.
const END: SimpleSpan = SimpleSpan { start: 20, end: 20 };

/// The tokens `a`, `b` and `c`, at 2..5, 10..13 and 13..16.
fn three() -> [(char, SimpleSpan); 3] {
    [('a', from_to(2, 5)), ('b', from_to(10, 13)), ('c', from_to(13, 16))]
}

#[test]
fn pairs_of_a_token_and_its_span_are_an_input(rt: HostRuntime) {
    let tokens = three();
    let a = just::<_, Paired, OfChars>('a').to_span();
    let spans = empty().to_span().then(a).then(just('b').then(just('c')).to_span()).then(empty().to_span());
    let rows = [
        (
            map_input(&tokens, END),
            "ok (((2..2, 2..5), 10..16), 20..20)",
        ),
        (map_input(&tokens[..2], END), "error 20..20 expected 'c' found end"),
        (map_input(&tokens[1..], END), "error 10..13 expected 'a' found 'b'"),
        (map_input(&tokens[..0], END), "error 20..20 expected 'a' found end"),
    ];
    assert_answers(&rt, &spans, &rows);
}

#[test]
fn tokens_of_pairs_are_taken_by_arms_and_by_reference(rt: HostRuntime) {
    let tokens = three();
    let b: Select<_, Paired, SimpleSpan, OfChars> = select! {
        'b' = extra => extra.span(),
    };
    let all = any_ref().ignore_then(b).then_ignore(one_of(['b', 'c']));
    let rows = [(map_input(&tokens, END), "ok 10..13")];
    assert_answers(&rt, &all, &rows);
}

#[test]
fn a_part_of_pairs_is_an_input_that_ends_where_the_next_token_begins(rt: HostRuntime) {
    let tokens = three();
    let inner = just::<_, Paired, OfChars>('a').then(just('c').labelled("a c"));
    let nested = inner.nested_in(any::<Paired, OfChars>().to_slice());
    let rows = [(map_input(&tokens, END), "error 10..10 expected a c found end")];
    assert_answers(&rt, &nested.then_ignore(any().repeated()), &rows);
}

/// What a lexer may give that knows lengths alone: a character, where it begins and how many bytes it takes.
#[derive(Clone, Copy, Drop)]
struct Lexeme {
    character: char,
    start: usize,
    length: usize,
}

/// Takes these apart.
struct ByLength;

impl TakesApart<Lexeme> for ByLength {
    ghost use Rattle.std.specs.Prelude.{◌+◌, ◌-◌, ◌^◌, min};

    type Token = char;

    ghost apart = { λ lexeme. record { inner = lexeme.character; span = record { start = lexeme.start; end = min (lexeme.start + lexeme.length) (2 ^ 64 - 1) } } };

    fn token(lexeme: &Lexeme) -> &char {
        &lexeme.character
    }

    fn span(lexeme: &Lexeme) -> SimpleSpan {
        SimpleSpan {
            start: lexeme.start,
            end: lexeme.start.saturating_add(lexeme.length),
        }
    }
}

#[test]
fn elements_of_ones_own_are_taken_apart_by_ones_own_marker(rt: HostRuntime) {
    let a = Lexeme { character: 'a', start: 3, length: 2 };
    let b = Lexeme { character: 'b', start: 7, length: 1 };
    let lexemes = [a, b];
    let aa = just::<_, MappedInput<'_, Lexeme, ByLength>, OfChars>('a').spanned().repeated().collect::<Vec<_>>();
    let rows = [
        (map_input(&lexemes[..1], END), "ok [Spanned { inner: 'a', span: 3..5 }]"),
        (map_input(&lexemes, END), "error 7..8 expected 'a', end of input found 'b'"),
    ];
    assert_answers(&rt, &aa, &rows);
}

#[test]
fn spans_of_a_text_at_an_offset_begin_there(rt: HostRuntime) {
    let setting = text::ascii::ident::<OffsetText, OfChars>().then_ignore(just('=')).then(text::int(10).to_span());
    let rows = [
        (text_at(8, "bé=12"), "error 9..11 expected '=' found 'é'"),
        (text_at(8, "b=12"), "ok (\"b\", 10..12)"),
        (text_at(0, "b=12"), "ok (\"b\", 2..4)"),
        (text_at(8, "b="), "error 10..10 expected int found end"),
        (text_at(usize::MAX, "b=1"), "ok (\"b\", 18446744073709551615..18446744073709551615)"),
    ];
    assert_answers(&rt, &setting, &rows);
}

#[test]
fn keywords_and_slices_of_a_text_at_an_offset_are_those_of_the_text(rt: HostRuntime) {
    let call = text::ascii::keyword::<OffsetText, OfChars>("let").padded().then(any().repeated().to_slice().spanned());
    let rows = [
        (text_at(5, " let éa"), "ok (\"let\", Spanned { inner: \"éa\", span: 10..13 })"),
        (text_at(5, "letter"), "error 5..11 expected let found end"),
    ];
    assert_answers(&rt, &call, &rows);
}

/// A word, or what stands between quotes, with these.
#[derive(Clone, Copy, Debug, PartialEq, Drop)]
enum Token<'src> {
    Ident(&'src str),
    Quoted(&'src str),
}

#[test]
fn slices_and_spans_of_tokens_are_those_of_the_file(rt: HostRuntime) {
    let ident = none_of::<_, OffsetText, OfChars>(" \"").repeated().at_least(1).to_slice().map(Token::Ident);
    let quoted = just('"').then(none_of("\"").repeated()).then(just('"')).to_slice().map(Token::Quoted);
    let token = ident.or(quoted).map_with(|token, extra| (extra.span(), token));
    let rows = [(
        text_at(100, "hello \"world\" these are \"test\" tokens"),
        "ok [(100..105, Ident(\"hello\")), \
         (106..113, Quoted(\"\\\"world\\\"\")), \
         (114..119, Ident(\"these\")), \
         (120..123, Ident(\"are\")), \
         (124..130, Quoted(\"\\\"test\\\"\")), \
         (131..137, Ident(\"tokens\"))]",
    )];
    assert_answers(&rt, &token.padded().repeated().collect::<Vec<_>>(), &rows);
}

#[test]
fn a_report_of_a_line_shows_it_in_its_file(rt: HostRuntime) {
    let alloc = rt.alloc();
    let file = "a = 1\nb = x\nc = 3\n";
    let line = text::ascii::ident::<OffsetText, OfChars>().padded().then_ignore(just('=')).then(text::int(10).padded());
    let parsed = line.parse(alloc, text_at(6, "b = x")).expect(&rt, "refused");
    for error in parsed.errors() {
        let report = Report { name: "file", text: file, error };
        let printed = format!(in alloc; "{report}").expect(&rt, "out of memory");
        assert_eq!(rt; printed.as_str(), "file:2:5: expected int, found 'x'\nb = x\n    ^");
    }
    assert_eq!(rt; parsed.errors().len(), 1);
}
