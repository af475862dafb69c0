//! One line for what `parse` and `check` answer.
use crate::says::Says;
use chumsky::Stop;
use chumsky::extra::ParserExtra;
use chumsky::prelude::*;
use std::alloc::{AllocError, Global};
use std::fmt::Debug;

/// What `parse` answers of an input, where `check` and the forms with a state answer the same but for the output: `ok 'a'`
/// for an output, `error 1..2 expected 'b' found 'c'` for each error, `refused TooDeep` for a stop, with `; ` between them.
/// Where one of the four forms answers otherwise, the line says so.
pub fn answer<
    'src,
    I: Input<'src> + Copy,
    O: Debug + Drop,
    E: ParserExtra<I>,
    P: IsParser<I, O, E> + Parser<'src, I, O, E>,
>(parser: &P, alloc: Global, input: I) -> Result<String, AllocError>
where
    I::Token: 'src,
    E::Error: Says,
    E::State: Default + Drop,
    E::Context: Default + Drop,
{
    let parsed = parser.parse(alloc, input);
    let checked = parser.check(alloc, input);
    let line = both(alloc, &parsed, &checked)?;
    let mut state = E::State::default();
    let parsed = parser.parse_with_state(alloc, input, &mut state);
    let mut state = E::State::default();
    let checked = parser.check_with_state(alloc, input, &mut state);
    let with_state = both(alloc, &parsed, &checked)?;
    if line == with_state {
        Ok(line)
    } else {
        format!(in alloc; "{line}; but with a state: {with_state}")
    }
}

/// The same from a state of the caller's, with the state that `parse` and `check` leave: `ok 'a'; state 3`.
pub fn answer_from<
    'src,
    I: Input<'src> + Copy,
    O: Debug + Drop,
    E: ParserExtra<I>,
    P: IsParser<I, O, E> + Parser<'src, I, O, E>,
>(parser: &P, alloc: Global, input: I, state: E::State) -> Result<String, AllocError>
where
    I::Token: 'src,
    E::Error: Says,
    E::State: Copy + Debug,
    E::Context: Default + Drop,
{
    let mut after_parse = state;
    let parsed = parser.parse_with_state(alloc, input, &mut after_parse);
    let mut after_check = state;
    let checked = parser.check_with_state(alloc, input, &mut after_check);
    let line = both(alloc, &parsed, &checked)?;
    let left = format!(in alloc; "{after_parse:?}")?;
    let also_left = format!(in alloc; "{after_check:?}")?;
    if left == also_left {
        format!(in alloc; "{line}; state {left}")
    } else {
        format!(in alloc; "{line}; state {left}, by check {also_left}")
    }
}

/// The line of `parse`, where `check` has the same but for the output, and else both.
fn both<O: Debug, R: Says>(
    alloc: Global,
    parsed: &Result<ParseResult<O, R>, Stop>,
    checked: &Result<ParseResult<(), R>, Stop>,
) -> Result<String, AllocError> {
    let of_parse = without_output(alloc, parsed)?;
    let of_check = without_output(alloc, checked)?;
    if of_parse != of_check {
        return format!(in alloc; "parse: {of_parse}; but check: {of_check}");
    }
    line_of(alloc, parsed)
}

/// The line of an answer.
pub fn line_of<O: Debug, R: Says>(
    alloc: Global,
    answer: &Result<ParseResult<O, R>, Stop>,
) -> Result<String, AllocError> {
    match answer {
        Ok(
            ParseResult {
                output: Some(value),
                errors: _,
            },
        ) => with_errors(format!(in alloc; "ok {value:?}")?, answer),
        _ => with_errors(String::new(alloc), answer),
    }
}

/// The line of an answer, with a bare `ok` for an output.
fn without_output<O, R: Says>(
    alloc: Global,
    answer: &Result<ParseResult<O, R>, Stop>,
) -> Result<String, AllocError> {
    let verdict = match answer {
        Ok(result) if result.has_output() => "ok",
        _ => "",
    };
    with_errors(String::from_str(alloc, verdict)?, answer)
}

/// A line that begins so, and goes on with the errors of an answer, or its stop.
fn with_errors<O, R: Says>(
    begun: String,
    answer: &Result<ParseResult<O, R>, Stop>,
) -> Result<String, AllocError> {
    let mut line = begun;
    match answer {
        Ok(result) => {
            for error in result.errors() {
                separate(&mut line)?;
                line.push_str("error")?;
                error.say(&mut line)?;
            }
        }
        Err(stop) => {
            separate(&mut line)?;
            line.push_str("refused ")?;
            line.push_str(name_of(*stop))?;
        }
    }
    Ok(line)
}

/// Puts a `; ` after what stands in a line.
fn separate(line: &mut String) -> Result<(), AllocError> {
    if !line.is_empty() {
        line.push_str("; ")?;
    }
    Ok(())
}

/// The name of a stop.
fn name_of(stop: Stop) -> &'static str {
    match stop {
        Stop::Memory => "Memory",
        Stop::NoProgress => "NoProgress",
        Stop::TooDeep => "TooDeep",
        Stop::CountTooLarge => "CountTooLarge",
    }
}
