//! Leaves over texts, with `Own`: `just` of a character, `just` of a text, and `any`.
use crate::extras::Own;
use chumsky::prelude::*;
use chumsky::primitive::{Any, Just};

/// `just` of a character.
pub fn just_char<'src>(expected: char) -> Just<char, &'src str, Own> {
    just(expected)
}

/// `just` of a text.
pub fn just_text<'src>(expected: &'static str) -> Just<&'static str, &'src str, Own> {
    just(expected)
}

/// `any` of the characters.
pub fn any_char<'src>() -> Any<&'src str, Own> {
    any()
}
