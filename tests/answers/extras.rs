//! Extras of one's own.
ghost use Rattle.std.specs.Prelude.{◌≡◌};

use chumsky::extra::ParserExtra;
use chumsky::prelude::*;
use extending::merges::Merges;
use extending::states::{Kept, Tally, Told};

/// Errors that say what was expected and what was found, over texts and bytes.
pub struct Own;

impl<'src> ParserExtra<&'src str> for Own {
    type Error = Rich<char>;

    type State = ();

    type Context = ();
}

impl<'src> ParserExtra<&'src [u8]> for Own {
    type Error = Rich<u8>;

    type State = ();

    type Context = ();
}

/// Errors that say nothing.
pub struct Quiet;

impl<'src> ParserExtra<&'src str> for Quiet {
    type Error = EmptyErr;

    type State = ();

    type Context = ();
}

impl<'src> ParserExtra<&'src [u8]> for Quiet {
    type Error = EmptyErr;

    type State = ();

    type Context = ();
}

/// Errors that show how they were merged.
pub struct Merging;

impl<'src> ParserExtra<&'src str> for Merging {
    type Error = Merges;

    type State = ();

    type Context = ();
}

/// Errors that say nothing, and a `Tally`.
pub struct Tallied;

impl<'src> ParserExtra<&'src str> for Tallied {
    type Error = EmptyErr;

    type State = Tally;

    type Context = ();
}

/// Errors that say nothing, and a `Told`.
pub struct Telling;

impl<'src> ParserExtra<&'src str> for Telling {
    type Error = EmptyErr;

    type State = Told;

    type Context = ();
}

/// Errors that say nothing, a `Kept` and a `First`.
pub struct Counted;

impl<'src> ParserExtra<&'src str> for Counted {
    type Error = EmptyErr;

    type State = Kept;

    type Context = First;
}

/// A number to count from, by default 3.
#[derive(Clone, Copy)]
pub struct First {
    pub number: u32,
}

impl Default for First {
    ghost is_default = { λ f. f.number ≡ 3 };

    fn default() -> First {
        First { number: 3 }
    }
}

/// Errors that say what was expected and what was found, and a `Key`.
pub struct Keyed;

impl<'src> ParserExtra<&'src str> for Keyed {
    type Error = Rich<char>;

    type State = ();

    type Context = Key;
}

/// A letter, by default `k`.
#[derive(Clone, Copy)]
pub struct Key {
    pub letter: char,
}

impl Default for Key {
    ghost is_default = { λ k. k.letter ≡ 107 };

    fn default() -> Key {
        Key { letter: 'k' }
    }
}
