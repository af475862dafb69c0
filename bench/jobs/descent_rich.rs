//! JSON by functions that call themselves, as in `descent.rt`, with errors that say what was expected and found.
use super::descent::{DEPTH, Scalar, run_array, run_object};
use super::run::once;
use chumsky::PResult;
use chumsky::combinator::{part_of, run_part};
use chumsky::extra::RichText;
use chumsky::input::TextRef;
use chumsky::prelude::*;
use chumsky::recursive::{RunsUnder, Unsaid};
use std::alloc::Global;

#[cycle(json)]
pub fn array<'src>(
    inp: &mut TextRef<'src, '_, RichText>,
    wanted: bool,
    depth: usize,
) -> PResult<Option<u64>>
    ensures { ⟦<Unsaid as RunsUnder<'src, &'src str, u64, RichText>>⟧.runs depth wanted inp.old inp.new result }
{
    run_array(recursive(json, depth), wanted, inp)
}

#[cycle(json)]
pub fn object<'src>(
    inp: &mut TextRef<'src, '_, RichText>,
    wanted: bool,
    depth: usize,
) -> PResult<Option<u64>>
    ensures { ⟦<Unsaid as RunsUnder<'src, &'src str, u64, RichText>>⟧.runs depth wanted inp.old inp.new result }
{
    run_object(recursive(json, depth), wanted, inp)
}

/// JSON without spaces: how many words, numbers and names.
#[cycle(json)]
pub fn json<'src>(
    inp: &mut TextRef<'src, '_, RichText>,
    wanted: bool,
    depth: usize,
) -> PResult<Option<u64>>
    ensures { ⟦<Unsaid as RunsUnder<'src, &'src str, u64, RichText>>⟧.runs depth wanted inp.old inp.new result }
{
    let json = choice((
        recursive(object, depth),
        recursive(array, depth),
        part_of(Scalar),
    ));
    run_part(&json, wanted, inp)
}

/// The number of strings, numbers and words, names of members among them.
#[unsafe(no_mangle)]
pub extern "C" fn bench_called_json_rich_parse(alloc: Global, bytes: &[u8]) -> u64 {
    run_json(alloc, bytes, true)
}

/// 1 where the text is JSON.
#[unsafe(no_mangle)]
pub extern "C" fn bench_called_json_rich_check(alloc: Global, bytes: &[u8]) -> u64 {
    run_json(alloc, bytes, false)
}

pub fn run_json(alloc: Global, bytes: &[u8], wanted: bool) -> u64 {
    let Ok(text) = std::str::from_utf8(bytes) else {
        return 0;
    };
    let all = recursive::<_, _, _, RichText>(json, DEPTH);
    once(&all, alloc, text, wanted)
}
