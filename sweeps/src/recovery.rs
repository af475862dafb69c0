//! Parsers with a strategy.
use crate::line::Line;
use crate::run::{Asked, over, text_of};
use chumsky::extra::RichText;
use chumsky::prelude::*;
use std::alloc::Global;

/// Statements of which some are wrong: by a parser, by skipping, and by trying again.
pub fn sweep_recovered(alloc: Global, row: usize, check: bool, again: bool) -> Line {
    let asked = Asked { check, again };
    let text = text_of(&["a;xy;bz;b;", "a;x!b;", "xa;"], row);
    let statement = one_of::<_, &str, RichText>("ab").then_ignore(just(';'));
    if row == 0 {
        let other = none_of(";").repeated().then(just(';')).to('z');
        let list = statement.recover_with(via_parser(other)).repeated();
        return over(&list.collect::<Vec<char>>(), alloc, text, asked);
    }
    if row == 1 {
        let skipped = skip_until(any().ignored(), just(';').ignored(), || 'z');
        let list = statement.recover_with(skipped).repeated();
        return over(&list.collect::<Vec<char>>(), alloc, text, asked);
    }
    let retried = skip_then_retry_until(any().ignored(), just('!').ignored());
    let list = statement.recover_with(retried).repeated();
    over(&list.collect::<Vec<char>>(), alloc, text, asked)
}

/// Delimiters within one another, of which what is open is kept.
pub fn sweep_delimited(alloc: Global, row: usize, check: bool, again: bool) -> Line {
    let digit = one_of::<_, &str, RichText>("7").delimited_by(just('['), just(']'));
    let nested = nested_delimiters('[', ']', [('(', ')')], |_: SimpleSpan| 'z');
    let text = text_of(&["[7]", "[((x))[]]", "[(]"], row);
    let digit = digit.recover_with(via_parser(nested));
    over(&digit, alloc, text, Asked { check, again })
}
