//! Functions that call themselves.
use crate::line::Line;
use crate::run::{Asked, over, text_of};
use chumsky::PResult;
use chumsky::combinator::run_part;
use chumsky::extra::RichText;
use chumsky::input::InputRef;
use chumsky::prelude::*;
use std::alloc::Global;

/// Lists of lists, with commas between them: how many there are.
fn lists<'src>(
    inp: &mut InputRef<'src, '_, &'src str, RichText>,
    wanted: bool,
    depth: usize,
) -> PResult<Option<usize>> {
    let items = recursive(lists, depth)
        .separated_by(just(','))
        .collect::<Vec<_>>()
        .delimited_by(just('['), just(']'));
    let list = items.map(|counts: Vec<usize>| {
        let mut count = 1usize;
        for inside in counts.as_slice() {
            count = count.saturating_add(*inside);
        }
        count
    });
    run_part(&list, wanted, inp)
}

/// Lists within one another, one that is not closed, and one that is too deep.
pub fn sweep_calls(alloc: Global, row: usize, check: bool, again: bool) -> Line {
    let text = text_of(&["[[],[[],[]],[]]", "[[],[[]", "[[[[]]]]"], row);
    over(
        &recursive::<_, _, _, RichText>(lists, 4),
        alloc,
        text,
        Asked { check, again },
    )
}
