//! One of eight words on each line.
use super::run::again;
use chumsky::extra::EmptyText;
use chumsky::prelude::*;
use std::alloc::Global;

/// The sum of the numbers of the words.
#[unsafe(no_mangle)]
pub extern "C" fn bench_words_parse(alloc: Global, bytes: &[u8]) -> u64 {
    words(alloc, bytes, true)
}

/// The number of words.
#[unsafe(no_mangle)]
pub extern "C" fn bench_words_check(alloc: Global, bytes: &[u8]) -> u64 {
    words(alloc, bytes, false)
}

fn words(alloc: Global, bytes: &[u8], wanted: bool) -> u64 {
    match std::str::from_utf8(bytes) {
        Ok(text) => {
            let word = choice((
                just::<_, &str, EmptyText>("let").to(1u64),
                just("fn").to(2u64),
                just("if").to(3u64),
                just("else").to(4u64),
                just("while").to(5u64),
                just("return").to(6u64),
                just("struct").to(7u64),
                just("impl").to(8u64),
            ));
            again(&word.then_ignore(just('\n')), alloc, text, wanted)
        }
        Err(_) => 0,
    }
}
