//! White space, numbers and identifiers, of each one after another.
use super::run::again;
use chumsky::extra::EmptyText;
use chumsky::prelude::*;
use std::alloc::Global;

/// The number of characters of white space before all full stops.
#[unsafe(no_mangle)]
pub extern "C" fn bench_spaces_parse(alloc: Global, bytes: &[u8]) -> u64 {
    spaces(alloc, bytes, true)
}

/// The number of full stops.
#[unsafe(no_mangle)]
pub extern "C" fn bench_spaces_check(alloc: Global, bytes: &[u8]) -> u64 {
    spaces(alloc, bytes, false)
}

fn spaces(alloc: Global, bytes: &[u8], wanted: bool) -> u64 {
    match std::str::from_utf8(bytes) {
        Ok(text) => {
            let space = text::whitespace::<&str, EmptyText>().map(length);
            again(&space.then_ignore(just('.')), alloc, text, wanted)
        }
        Err(_) => 0,
    }
}

/// The number of digits of all numbers, each on its line.
#[unsafe(no_mangle)]
pub extern "C" fn bench_ints_parse(alloc: Global, bytes: &[u8]) -> u64 {
    ints(alloc, bytes, true)
}

/// The number of numbers.
#[unsafe(no_mangle)]
pub extern "C" fn bench_ints_check(alloc: Global, bytes: &[u8]) -> u64 {
    ints(alloc, bytes, false)
}

fn ints(alloc: Global, bytes: &[u8], wanted: bool) -> u64 {
    match std::str::from_utf8(bytes) {
        Ok(text) => {
            let number = text::int::<&str, EmptyText>(10).map(length);
            again(&number.then_ignore(just('\n')), alloc, text, wanted)
        }
        Err(_) => 0,
    }
}

/// The number of characters of all identifiers, each on its line.
#[unsafe(no_mangle)]
pub extern "C" fn bench_idents_parse(alloc: Global, bytes: &[u8]) -> u64 {
    idents(alloc, bytes, true)
}

/// The number of identifiers.
#[unsafe(no_mangle)]
pub extern "C" fn bench_idents_check(alloc: Global, bytes: &[u8]) -> u64 {
    idents(alloc, bytes, false)
}

fn idents(alloc: Global, bytes: &[u8], wanted: bool) -> u64 {
    match std::str::from_utf8(bytes) {
        Ok(text) => {
            let ident = text::ascii::ident::<&str, EmptyText>().map(length);
            again(&ident.then_ignore(just('\n')), alloc, text, wanted)
        }
        Err(_) => 0,
    }
}

fn length(text: &str) -> u64 {
    text.len() as u64
}
