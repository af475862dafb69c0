//! Which parsers with a strategy move wherever they succeed.
use answers::extras::Own;
use answers::leaves::{any_char, just_char};
use chumsky::prelude::*;
use chumsky::recursive::Moving;
use std::process::Abort;

type Text<'src> = &'src str;

/// Asserts that parsers are said to move, or not, as each row says.
fn assert_rows<R: Abort>(rt: &R, rows: &[(&str, bool, bool)]) {
    for (what, says, expected) in rows {
        assert_eq!(rt; *says, *expected, "{what}");
    }
}

/// Whether a parser over texts says that it moves.
fn moves<'src, O, P>(parser: P) -> bool
where
    P: IsParser<Text<'src>, O, Own> + Moving<'src, Text<'src>, O, Own> + Drop,
{
    parser.always_moves()
}

#[test]
fn a_parser_with_a_strategy_moves_where_both_do(rt: HostRuntime) {
    let a = || just_char('a');
    let stays = || empty().to('a');
    assert_rows(
        &rt,
        &[
            (
                "via any",
                moves(a().recover_with(via_parser(any_char()))),
                true,
            ),
            (
                "via nothing",
                moves(a().recover_with(via_parser(stays()))),
                false,
            ),
            (
                "of nothing",
                moves(stays().recover_with(via_parser(any_char()))),
                false,
            ),
            (
                "until a mark",
                moves(a().recover_with(skip_until(
                    any_char().ignored(),
                    just_char(';').ignored(),
                    || 'z',
                ))),
                true,
            ),
            (
                "until the end",
                moves(a().recover_with(skip_until(any_char().ignored(), end(), || 'z'))),
                false,
            ),
            (
                "again",
                moves(a().recover_with(skip_then_retry_until(any_char().ignored(), end()))),
                true,
            ),
            (
                "again what may stay",
                moves(stays().recover_with(skip_then_retry_until(any_char().ignored(), end()))),
                false,
            ),
            (
                "brackets",
                moves(a().recover_with(via_parser(nested_delimiters(
                    '[',
                    ']',
                    [('(', ')')],
                    |_: SimpleSpan| 'z',
                )))),
                true,
            ),
        ],
    );
}
