//! Lists: collected, counted, and item by item.
use crate::line::Line;
use crate::run::{Asked, over, say_answer, text_of};
use chumsky::extra::RichText;
use chumsky::prelude::*;
use std::alloc::Global;

/// The items of an output, and those of two lists behind them.
pub fn sweep_chained_items(alloc: Global, row: usize, check: bool, again: bool) -> Line {
    let letters = just::<_, &str, RichText>('a')
        .map(Some)
        .into_iter()
        .then_items(just('b').repeated())
        .then_items(just('c').repeated())
        .collect::<Vec<char>>();
    let text = text_of(&["abbcc", "bbc"], row);
    over(&letters, alloc, text, Asked { check, again })
}

/// The items of each item, counted.
pub fn sweep_flatten(alloc: Global, _row: usize, check: bool, again: bool) -> Line {
    let found = just::<_, &str, RichText>('a')
        .map(Some)
        .or(any().to(None))
        .repeated()
        .flatten()
        .count();
    over(&found, alloc, "abracadabra", Asked { check, again })
}

/// A list without a value, which asks for no memory, and with one.
pub fn sweep_collect(alloc: Global, _row: usize, check: bool, again: bool) -> Line {
    let letters = just::<_, &str, extra::Default>('a')
        .repeated()
        .collect::<Vec<char>>();
    over(&letters, alloc, "aaa", Asked { check, again })
}

/// Asks a parser for so many items at most, one by one, and then for the answer, whose output is how many came; and once more
/// where that is asked for.
macro_rules! walk {
    ($parser:expr, $alloc:expr, $text:expr, $most:expr, $again:expr) => {
        {
            let mut line = Line::new();
            let mut run = $parser.parse_iter($alloc, $text);
            let mut count = 0usize;
            for _ in (&mut run).take($most) {
                count = count.saturating_add(1);
            }
            say_answer(&mut line, &run.finish(count));
            if $again {
                line.byte(b'\n');
                let mut run = $parser.parse_iter($alloc, $text);
                let mut count = 0usize;
                for _ in (&mut run).take($most) {
                    count = count.saturating_add(1);
                }
                say_answer(&mut line, &run.finish(count));
            }
            line
        }
    };
}

/// Letters by a filter, of which three are too many.
pub fn sweep_filtered_items(alloc: Global, _row: usize, _check: bool, again: bool) -> Line {
    let letters = any::<&str, RichText>()
        .filter(|c: &char| c.is_ascii_alphabetic())
        .repeated()
        .at_least(3);
    walk!(letters, alloc, "ab", 9, again)
}

/// Letters up to something else: all that there are, and one.
pub fn sweep_items(alloc: Global, row: usize, _check: bool, again: bool) -> Line {
    let letters = one_of::<_, &str, RichText>("ab").repeated();
    let most = if row == 0 { 9 } else { 1 };
    walk!(letters, alloc, "abc", most, again)
}

/// Too few letters.
pub fn sweep_few_items(alloc: Global, _row: usize, _check: bool, again: bool) -> Line {
    let letters = one_of::<_, &str, RichText>("ab").repeated().at_least(3);
    walk!(letters, alloc, "ab", 9, again)
}

/// Items that consume nothing.
pub fn sweep_empty_items(alloc: Global, _row: usize, _check: bool, again: bool) -> Line {
    let nothing = empty::<&str, RichText>().repeated();
    walk!(nothing, alloc, "", 9, again)
}

/// The items of an output: none asked for, and one.
pub fn sweep_items_of_an_output(alloc: Global, row: usize, _check: bool, again: bool) -> Line {
    let letters = just::<_, &str, RichText>('a').map(Some).into_iter();
    walk!(letters, alloc, "b", row, again)
}
