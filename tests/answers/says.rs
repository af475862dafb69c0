//! What errors say of themselves.
use chumsky::error::RichPattern;
use chumsky::prelude::*;
use extending::merges::Merges;
use std::alloc::AllocError;
use std::fmt::Debug;

/// An error that says what it knows.
pub trait Says: Drop {
    /// Adds what it knows to a line, each part after a space: ` 1..2 expected 'b' found 'c'`.
    fn say(&self, line: &mut String) -> Result<(), AllocError>;
}

impl Says for Merges {
    fn say(&self, line: &mut String) -> Result<(), AllocError> {
        line.push(' ')?;
        for c in &self.text {
            line.push(*c)?;
        }
        Ok(())
    }
}

impl Says for EmptyErr {
    fn say(&self, line: &mut String) -> Result<(), AllocError> {
        Ok(())
    }
}

impl Says for Cheap {
    fn say(&self, line: &mut String) -> Result<(), AllocError> {
        say_span(line, *self.span())
    }
}

impl<T: Debug + Drop> Says for Simple<T> {
    fn say(&self, line: &mut String) -> Result<(), AllocError> {
        say_span(line, *self.span())?;
        say_found(line, self.found())
    }
}

impl<T: Debug + Drop> Says for Rich<T> {
    fn say(&self, line: &mut String) -> Result<(), AllocError> {
        say_span(line, *self.span())?;
        match self.reason() {
            Some(message) => write!(line, " {message:?}"),
            None => {
                say_expected(line, self.expected().as_slice())?;
                say_found(line, self.found())
            }
        }
    }
}

/// ` 1..2`
fn say_span(line: &mut String, span: SimpleSpan) -> Result<(), AllocError> {
    let start = span.start;
    let end = span.end;
    write!(line, " {start}..{end}")
}

/// ` found 'c'`
fn say_found<T: Debug>(line: &mut String, found: Option<&T>) -> Result<(), AllocError> {
    match found {
        Some(token) => write!(line, " found {token:?}"),
        None => line.push_str(" found end"),
    }
}

/// ` expected 'a', end of input`
fn say_expected<T: Debug>(
    line: &mut String,
    patterns: &[RichPattern<T>],
) -> Result<(), AllocError> {
    line.push_str(" expected")?;
    let mut before = " ";
    for pattern in patterns {
        line.push_str(before)?;
        match pattern {
            RichPattern::Token(token) => write!(line, "{token:?}")?,
            RichPattern::Any => line.push_str("any")?,
            RichPattern::SomethingElse => line.push_str("something else")?,
            RichPattern::EndOfInput => line.push_str("end of input")?,
            RichPattern::Label(text) => line.push_str(text)?,
        }
        before = ", ";
    }
    if patterns.is_empty() {
        line.push_str(" nothing")?;
    }
    Ok(())
}
