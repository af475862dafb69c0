//! Sets, groups, filters, messages and nested inputs over texts.
use crate::line::Line;
use crate::run::{Asked, over};
use chumsky::extra::{Err, RichText};
use chumsky::prelude::*;
use extending::merges::Merges;
use std::alloc::Global;

/// Errors that show how they were merged.
type Merging = Err<Merges>;

/// Three texts in any order.
pub fn sweep_set(alloc: Global, _row: usize, check: bool, again: bool) -> Line {
    let three = set((just::<_, &str, RichText>("abc"), just("def"), just("ijk")));
    over(&three, alloc, "ijkdefabc", Asked { check, again })
}

/// Failures at one place, which are merged from the left, those of a filtered part before the others.
pub fn sweep_filtered_merges(alloc: Global, _row: usize, check: bool, again: bool) -> Line {
    let three = group((
        just::<_, &str, Merging>('a').or_not(),
        choice((just('b'), just('c'))).filter(|_| true).or_not(),
        just('d'),
    ));
    over(&three, alloc, "", Asked { check, again })
}

/// Failures at one place, which are merged from the left.
pub fn sweep_merges(alloc: Global, _row: usize, check: bool, again: bool) -> Line {
    let three = group((
        just::<_, &str, Merging>('a').or_not(),
        choice((just('b'), just('c'))).or_not(),
        just('d'),
    ));
    over(&three, alloc, "", Asked { check, again })
}

/// A filter that lets nothing pass.
pub fn sweep_filter(alloc: Global, _row: usize, check: bool, again: bool) -> Line {
    let three = group((
        just::<_, &str, RichText>("a").or_not(),
        just("b").filter(|_| false).or_not(),
        just("c"),
    ));
    over(&three, alloc, "b", Asked { check, again })
}

/// A character of an inner text, and not that of the row.
pub fn sweep_nested(alloc: Global, _row: usize, check: bool, again: bool) -> Line {
    let outer = just::<_, &str, Err<Rich<char>>>('a').to("2");
    let one = just::<_, &str, Err<Rich<char>>>('1').nested_in(outer);
    over(&one, alloc, "a", Asked { check, again })
}

/// A message beside each character.
pub fn sweep_messages(alloc: Global, _row: usize, check: bool, again: bool) -> Line {
    let doubted = any::<&str, RichText>().validate(|c, extra, emitter| {
        emitter.emit_message(extra.alloc(), extra.span(), "in doubt");
        c
    });
    over(&(&doubted).then(&doubted), alloc, "ab", Asked { check, again })
}

/// A character that is no `a` is refused with a message.
pub fn sweep_refusal_with_a_message(alloc: Global, _row: usize, check: bool, again: bool) -> Line {
    let only_a = any::<&str, RichText>().try_map_in(|c, span, alloc| match c {
        'a' => Ok(Ok(c)),
        _ => Ok(Err(Rich::custom_in(alloc, span, "no a")?)),
    });
    over(&(&only_a).then(&only_a), alloc, "ab", Asked { check, again })
}
