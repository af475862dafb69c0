//! Messages, each a byte that says how many bytes follow, and these.
use super::run::again;
use chumsky::extra;
use chumsky::prelude::*;
use std::alloc::Global;

/// How many bytes all messages have, without their first.
#[unsafe(no_mangle)]
pub extern "C" fn bench_messages_parse(alloc: Global, bytes: &[u8]) -> u64 {
    messages(alloc, bytes, true)
}

/// The number of messages.
#[unsafe(no_mangle)]
pub extern "C" fn bench_messages_check(alloc: Global, bytes: &[u8]) -> u64 {
    messages(alloc, bytes, false)
}

fn messages(alloc: Global, bytes: &[u8], wanted: bool) -> u64 {
    let length = any::<&[u8], extra::Default>().map(|length| length as usize);
    let content = any()
        .repeated()
        .configure(|config, length| config.exactly(*length));
    let message = length
        .ignore_with_ctx(content.to_slice())
        .map(|content: &[u8]| content.len() as u64);
    again(&message, alloc, bytes, wanted)
}
