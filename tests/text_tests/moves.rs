//! Which parsers of text move wherever they succeed.
use answers::extras::Own;
use answers::leaves::just_char;
use chumsky::prelude::*;
use chumsky::recursive::Moving;

fn moves<'src, O, P>(parser: P) -> bool
where
    P: IsParser<&'src str, O, Own> + Moving<'src, &'src str, O, Own> + Drop,
{
    parser.always_moves()
}

#[test]
fn a_word_moves_and_white_space_need_not(rt: HostRuntime) {
    let rows = [
        ("int", moves(text::int(10)), true),
        ("digits", moves(text::digits(10)), true),
        ("an identifier", moves(text::ascii::ident()), true),
        ("one of Unicode", moves(text::unicode::ident()), true),
        ("a keyword", moves(text::ascii::keyword("let")), true),
        ("an end of a line", moves(text::newline()), true),
        ("white space", moves(text::whitespace()), false),
        ("inline white space", moves(text::inline_whitespace()), false),
        ("padded", moves(just_char('a').padded()), true),
        ("padded, may stay", moves(just_char('a').or_not().padded()), false),
        ("labelled", moves(just_char('a').labelled("a letter")), true),
        ("labelled, may stay", moves(just_char('a').or_not().labelled("a letter")), false),
    ];
    for (name, found, expected) in rows {
        assert_eq!(rt; (name, found), (name, expected));
    }
}
