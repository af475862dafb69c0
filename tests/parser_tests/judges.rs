//! Values of types with names that judge what a parser gives.
ghost use Rattle.std.specs.Prelude.{◌≤◌, IfOk, IfSome, IsTrue};

use answers::asserts::assert_answers;
use answers::leaves::any_char;
use chumsky::combinator::{Picker, Tester, TryMapper};
use chumsky::prelude::*;
use std::alloc::Global;

/// Picks digits, as what they count.
#[derive(Clone, Copy)]
struct Digit;

impl Picker<char, u8> for Digit {
    ghost gives = { λ _ _ picked. IfSome picked (λ digit. digit ≤ 9) };

    fn pick(&self, character: char) -> Option<u8> {
        match character {
            '0'..='9' => Some(character as u8 - b'0'),
            _ => None,
        }
    }
}

/// Passes what is below eight.
#[derive(Clone, Copy)]
struct BelowEight;

impl Tester<u8> for BelowEight {
    ghost gives = { λ _ digit passes. IsTrue passes → digit ≤ 7 };

    fn passes(&self, digit: &u8) -> bool {
        *digit < 8
    }
}

/// Halves what is even, and refuses what is odd.
#[derive(Clone, Copy)]
struct Half {
    alloc: Global,
}

impl TryMapper<u8, SimpleSpan, u8, Rich<char>> for Half {
    ghost gives = { λ _ digit _ half. IfOk half (λ h. h ≤ digit) };

    fn try_apply(&self, digit: u8, span: SimpleSpan) -> Result<u8, Rich<char>> {
        if digit % 2 == 0 {
            Ok(digit / 2)
        } else {
            Err(Rich::custom(span, String::new(self.alloc)))
        }
    }
}

#[test]
fn judges_may_have_names(rt: HostRuntime) {
    let half = any_char()
        .filter_map_by(Digit)
        .filter_by(BelowEight)
        .try_map_by(Half { alloc: rt.alloc() });
    let rows = [
        ("6", "ok 3"),
        ("x", "error 0..1 expected something else found 'x'"),
        ("8", "error 0..1 expected something else found '8'"),
        ("5", "error 0..1 \"\""),
        ("", "error 0..0 expected any found end"),
    ];
    assert_answers(&rt, &half, &rows);
}
