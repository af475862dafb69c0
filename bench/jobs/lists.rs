//! Digits, and numbers in brackets, on each line.
use super::run::again;
use chumsky::extra::EmptyText;
use chumsky::prelude::*;
use std::alloc::Global;

/// The number of digits on all lines.
#[unsafe(no_mangle)]
pub extern "C" fn bench_digits_parse(alloc: Global, bytes: &[u8]) -> u64 {
    digits(alloc, bytes, true)
}

/// The number of lines of digits.
#[unsafe(no_mangle)]
pub extern "C" fn bench_digits_check(alloc: Global, bytes: &[u8]) -> u64 {
    digits(alloc, bytes, false)
}

fn digits(alloc: Global, bytes: &[u8], wanted: bool) -> u64 {
    match std::str::from_utf8(bytes) {
        Ok(text) => {
            let digits = one_of::<_, &str, EmptyText>('0'..='9')
                .repeated()
                .at_least(1)
                .count()
                .map(|count| count as u64);
            again(&digits.then_ignore(just('\n')), alloc, text, wanted)
        }
        Err(_) => 0,
    }
}

/// The number of digits in all lists, whose numbers are collected as texts.
#[unsafe(no_mangle)]
pub extern "C" fn bench_lists_parse(alloc: Global, bytes: &[u8]) -> u64 {
    lists(alloc, bytes, true)
}

/// The number of lists.
#[unsafe(no_mangle)]
pub extern "C" fn bench_lists_check(alloc: Global, bytes: &[u8]) -> u64 {
    lists(alloc, bytes, false)
}

fn lists(alloc: Global, bytes: &[u8], wanted: bool) -> u64 {
    match std::str::from_utf8(bytes) {
        Ok(text) => {
            let number = one_of::<_, &str, EmptyText>('0'..='9')
                .repeated()
                .at_least(1)
                .collect::<String>();
            let list = number
                .separated_by(just(','))
                .collect::<Vec<String>>()
                .delimited_by(just('['), just(']'))
                .map(|numbers| digits_of(&numbers));
            again(&list.then_ignore(just('\n')), alloc, text, wanted)
        }
        Err(_) => 0,
    }
}

/// How many digits the numbers have together.
fn digits_of(numbers: &[String]) -> u64 {
    let mut total = 0u64;
    for number in numbers {
        total = total.wrapping_add(number.len() as u64);
    }
    total
}

/// The number of digits in all lists, whose numbers are slices of the text.
#[unsafe(no_mangle)]
pub extern "C" fn bench_slices_parse(alloc: Global, bytes: &[u8]) -> u64 {
    slices(alloc, bytes, true)
}

/// The number of lists.
#[unsafe(no_mangle)]
pub extern "C" fn bench_slices_check(alloc: Global, bytes: &[u8]) -> u64 {
    slices(alloc, bytes, false)
}

fn slices(alloc: Global, bytes: &[u8], wanted: bool) -> u64 {
    match std::str::from_utf8(bytes) {
        Ok(text) => {
            let number = one_of::<_, &str, EmptyText>('0'..='9')
                .repeated()
                .at_least(1)
                .to_slice();
            let list = number
                .separated_by(just(','))
                .collect::<Vec<&str>>()
                .delimited_by(just('['), just(']'));
            again(&list.then_ignore(just('\n')), alloc, text, wanted)
        }
        Err(_) => 0,
    }
}
