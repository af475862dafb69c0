//! How rows are run, and what is written of it.
use crate::line::{Line, Say};
use chumsky::Stop;
use chumsky::extra::ParserExtra;
use chumsky::prelude::*;
use std::alloc::Global;

/// What is asked of a row.
#[derive(Clone, Copy)]
pub struct Asked {
    /// `check`, and not `parse`.
    pub check: bool,
    /// Once more after the first run.
    pub again: bool,
}

/// Writes why a run was refused.
pub fn say_stop(line: &mut Line, stop: Stop) {
    line.text("refused ");
    line.text(match stop {
        Stop::Memory => "Memory",
        Stop::NoProgress => "NoProgress",
        Stop::TooDeep => "TooDeep",
        Stop::CountTooLarge => "CountTooLarge",
    });
}

/// Writes what a run answered: `ok` and the output, and each error.
pub fn say_answer<O: Say, E: Say>(line: &mut Line, answer: &Result<ParseResult<O, E>, Stop>) {
    match answer {
        Ok(result) => {
            match result.output() {
                Some(value) => {
                    line.text("ok ");
                    value.say(line);
                }
                None => line.text("no output"),
            }
            for error in result.errors().as_slice() {
                line.text("; ");
                error.say(line);
            }
        }
        Err(stop) => say_stop(line, *stop),
    }
}

/// Runs a parser over an input, once or twice: one line for each run.
pub fn over<
    'src,
    I: Input<'src> + Copy,
    O: Say,
    E: ParserExtra<I>,
    P: IsParser<I, O, E> + Parser<'src, I, O, E>,
>(parser: &P, alloc: Global, input: I, asked: Asked) -> Line
where
    I::Token: 'src,
    E::Error: Say,
    E::State: Default + Drop,
    E::Context: Default + Drop,
    requires { P.ready parser.now }
{
    let mut line = Line::new();
    once(parser, alloc, input, asked.check, &mut line);
    if asked.again {
        line.byte(b'\n');
        once(parser, alloc, input, asked.check, &mut line);
    }
    line
}

/// Runs a parser over an input.
pub fn once<
    'src,
    I: Input<'src>,
    O: Say,
    E: ParserExtra<I>,
    P: IsParser<I, O, E> + Parser<'src, I, O, E>,
>(parser: &P, alloc: Global, input: I, check: bool, line: &mut Line)
where
    I::Token: 'src,
    E::Error: Say,
    E::State: Default + Drop,
    E::Context: Default + Drop,
    requires { P.ready parser.now }
{
    if check {
        say_answer(line, &parser.check(alloc, input));
    } else {
        say_answer(line, &parser.parse(alloc, input));
    }
}

/// The text of a number.
pub fn text_of(texts: &[&'static str], row: usize) -> &'static str {
    match texts.get(row) {
        Some(text) => *text,
        None => "",
    }
}
