//! How a job runs its parser.
ghost use Rattle.std.specs.Prelude.{◌<◌};

use chumsky::extra::ParserExtra;
use chumsky::input::{Finished, InputRef};
use chumsky::prelude::*;
use std::alloc::Global;

/// What an output adds to the number that a job answers.
pub trait Weigh {
    fn weigh(&self) -> u64;
}

impl Weigh for u64 {
    fn weigh(&self) -> u64 {
        *self
    }
}

/// Of slices, how many bytes they have together.
impl<'src> Weigh for Vec<&'src str> {
    fn weigh(&self) -> u64 {
        let mut total = 0u64;
        for slice in self.as_slice() {
            total = total.wrapping_add(slice.len() as u64);
        }
        total
    }
}

/// Runs a parser from the start of an input as long as it succeeds, in one run: what its outputs weigh, or where they
/// aren't wanted how often it succeeds.
pub fn again<'src, I: Input<'src>, O: Weigh + Drop, E: ParserExtra<I>, P: Parser<'src, I, O, E>>(
    parser: &P,
    alloc: Global,
    input: I,
    wanted: bool,
) -> u64
where
    I::Token: 'src,
    E::State: Default + Drop,
    E::Context: Default + Drop,
    requires { P.ready parser.now }
{
    let mut state = E::State::default();
    let context = E::Context::default();
    let mut inp: InputRef<'src, '_, I, E> = InputRef::new(alloc, input, &mut state, &context);
    let total = if wanted {
        sum(parser, &mut inp)
    } else {
        count(parser, &mut inp)
    };
    let Finished {
        cursor: _,
        state: last,
        errors: _,
    } = inp.finish();
    let _last = &*last;
    total
}

fn sum<'src, I: Input<'src>, O: Weigh + Drop, E: ParserExtra<I>, P: Parser<'src, I, O, E>>(
    parser: &P,
    inp: &mut InputRef<'src, '_, I, E>,
) -> u64
    requires { P.ready parser.now }
{
    let mut total = 0u64;
    for _ in 0..u64::MAX {
        match parser.go_emit(inp) {
            Ok(value) => total = total.wrapping_add(value.weigh()),
            Err(_) => break,
        }
    }
    total
}

fn count<'src, I: Input<'src>, O, E: ParserExtra<I>, P: Parser<'src, I, O, E>>(
    parser: &P,
    inp: &mut InputRef<'src, '_, I, E>,
) -> u64
    requires { P.ready parser.now }
{
    let mut times = 0u64;
    for _ in 0..u64::MAX {
        match parser.go_check(inp) {
            Ok(()) => times = times.wrapping_add(1),
            Err(_) => break,
        }
    }
    times
}

/// What is asked of a parser of lines.
#[derive(Clone, Copy)]
pub enum Asked {
    /// The sum of its outputs.
    Sum,
    /// How often it succeeds.
    Count,
    /// A run from the start of each line, where lines have so many bytes.
    EachLine(usize),
}

/// Runs a parser of lines over a text.
pub fn over_lines<'src, E, P>(parser: &P, alloc: Global, text: &'src str, asked: Asked) -> u64
where
    E: ParserExtra<&'src str>,
    E::State: Default + Drop,
    E::Context: Default + Drop,
    P: IsParser<&'src str, u64, E> + Parser<'src, &'src str, u64, E>,
    requires { P.ready parser.now }
{
    match asked {
        Asked::Sum => again(parser, alloc, text, true),
        Asked::Count => again(parser, alloc, text, false),
        Asked::EachLine(0) => 0,
        Asked::EachLine(length) => each_line(parser, alloc, text, length),
    }
}

/// Runs a parser from the start of each line, where lines have `length` bytes: the sum of the outputs, and of 1,000 for
/// each error.
fn each_line<'src, E, P>(parser: &P, alloc: Global, text: &'src str, length: usize) -> u64
where
    E: ParserExtra<&'src str>,
    E::State: Default + Drop,
    E::Context: Default + Drop,
    P: IsParser<&'src str, u64, E> + Parser<'src, &'src str, u64, E>,
    requires ready { P.ready parser.now }
    requires some { 0 < length }
{
    let mut total = 0u64;
    for at in (0..text.len()).step_by(length) {
        let Some(line) = text.get(at..) else {
            return 0;
        };
        match parser.parse(alloc, line) {
            Ok(parsed) => {
                let errors = parsed.errors().len() as u64;
                let value = parsed.into_output().unwrap_or(0);
                total = total
                    .wrapping_add(value)
                    .wrapping_add(errors.wrapping_mul(1000));
            }
            Err(_) => return 0,
        }
    }
    total
}

/// The output of a run over the whole text, and where it isn't wanted 1; of a text that is refused 0.
pub fn once<'src, E, P>(parser: &P, alloc: Global, text: &'src str, wanted: bool) -> u64
where
    E: ParserExtra<&'src str>,
    E::State: Default + Drop,
    E::Context: Default + Drop,
    P: IsParser<&'src str, u64, E> + Parser<'src, &'src str, u64, E>,
    requires { P.ready parser.now }
{
    if wanted {
        match parser.parse(alloc, text) {
            Ok(parsed) => parsed.into_output().unwrap_or(0),
            Err(_) => 0,
        }
    } else {
        match parser.check(alloc, text) {
            Ok(checked) => u64::from(checked.has_output()),
            Err(_) => 0,
        }
    }
}
