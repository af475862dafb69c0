//! Headers of eight bytes: four fixed ones, a class of two, a version, and two flags.
use super::run::again;
use chumsky::extra::ParserExtra;
use chumsky::prelude::*;
use std::alloc::Global;

/// `EmptyErr` over bytes, as a type of its own.
struct EmptyBytes;

impl<'src> ParserExtra<&'src [u8]> for EmptyBytes {
    type Error = EmptyErr;

    type State = ();

    type Context = ();
}

/// The sum of the flags.
#[unsafe(no_mangle)]
pub extern "C" fn bench_headers_parse(alloc: Global, bytes: &[u8]) -> u64 {
    headers(alloc, bytes, true)
}

/// The number of headers.
#[unsafe(no_mangle)]
pub extern "C" fn bench_headers_check(alloc: Global, bytes: &[u8]) -> u64 {
    headers(alloc, bytes, false)
}

fn headers(alloc: Global, bytes: &[u8], wanted: bool) -> u64 {
    let header = group((
        just::<_, &[u8], EmptyBytes>([0x7fu8, 0x45, 0x4c, 0x46]),
        one_of([1u8, 2]),
        just(1u8),
        any(),
        any(),
    ));
    let flags = header.map(|(_, _, _, one, two)| (one as u64).wrapping_add(two as u64));
    again(&flags, alloc, bytes, wanted)
}
