//! Letters that count their clones, and how many of them are alive: no clause says how often a value is cloned, nor that
//! what is let go is dropped.
ghost use Rattle.std.specs.Prelude.{◌≡◌, ◌==◌, ℕ, nat_eq, refl};
ghost use Rattle.std.specs.Cmp.Rules.{comparing};
ghost use Rattle.std.specs.Ordering.{on};
ghost use Rattle.std.proofs.Common.{rules};

use chumsky::SameClone;
use chumsky::extra::ParserExtra;
use chumsky::prelude::*;
use std::alloc::{AllocError, AllocGlobal};
use std::cell::Cell;
use std::process::Abort;
use std::rc::Rc;

/// How many clones were made, and how many letters are alive.
#[derive(Drop)]
pub(crate) struct Counts {
    clones: Cell<u32>,
    alive: Cell<u32>,
}

impl Counts {
    /// How many letters are alive.
    pub(crate) fn alive(&self) -> u32 {
        self.alive.get()
    }
}

/// Where letters are counted.
pub(crate) fn make_counts<R: Abort + AllocGlobal>(rt: &R) -> Rc<Counts> {
    let none = Counts {
        clones: Cell::new(0),
        alive: Cell::new(0),
    };
    Rc::new(rt.alloc(), none).expect(rt, "out of memory")
}

/// A letter that is counted, unless it is a default one.
pub(crate) struct Counted {
    letter: char,
    counts: Option<Rc<Counts>>,
}

/// A letter.
pub(crate) fn counted_letter<R: Abort>(rt: &R, letter: char, counts: &Rc<Counts>) -> Counted {
    let counts = counts.clone().expect(rt, "out of memory");
    alive_in(&counts, 1);
    Counted {
        letter,
        counts: Some(counts),
    }
}

/// Adds to the number of letters that are alive.
fn alive_in(counts: &Rc<Counts>, more: u32) {
    counts.alive.set(counts.alive.get().wrapping_add(more));
}

impl Clone for Counted {
    ghost is_clone = { λ x y. y.letter ≡ x.letter };

    fn clone(&self) -> Result<Counted, AllocError> {
        let counts = match &self.counts {
            Some(counts) => {
                counts.clones.set(counts.clones.get().wrapping_add(1));
                alive_in(counts, 1);
                Some(counts.clone()?)
            }
            None => None,
        };
        Ok(Counted {
            letter: self.letter,
            counts,
        })
    }
}

impl Drop for Counted {
    fn drop(self) {
        let Counted { letter: _, counts } = self;
        if let Some(counts) = counts {
            alive_in(&counts, u32::MAX);
        }
    }
}

impl Default for Counted {
    fn default() -> Counted {
        Counted {
            letter: ' ',
            counts: None,
        }
    }
}

/// By their letters.
impl PartialEq for Counted {
    ghost eq = { on (λ x. x.letter) nat_eq };

    ghost laws = { Prim.search (comparing, rules) };

    fn eq(&self, other: &Counted) -> bool {
        self.letter == other.letter
    }
}

impl SameClone for Counted {
    ghost Seen = { ℕ };

    ghost seen = { λ x. x.letter };

    ghost same = { λ x y. x == y };

    ghost clone_same = { λ x y e. e };

    ghost eq_same = { λ x y. refl };
}

impl Counted {
    pub(crate) fn letter(&self) -> char {
        self.letter
    }
}

/// Asserts how many clones `parse` makes on each input, and how many `check`, as its row says; and that what they make is
/// all let go.
pub(crate) fn assert_clones<
    'src,
    I: Input<'src> + Copy,
    O: Drop,
    E: ParserExtra<I>,
    P: IsParser<I, O, E> + Parser<'src, I, O, E>,
    R: Abort + AllocGlobal,
>(rt: &R, parser: &P, counts: &Rc<Counts>, rows: &[(I, u32, u32)])
where
    I::Token: 'src,
    E::State: Default + Drop,
    E::Context: Default + Drop,
{
    let alive = counts.alive.get();
    for (input, by_parse, by_check) in rows {
        counts.clones.set(0);
        let parsed = parser.parse(rt.alloc(), *input).is_ok();
        assert!(rt; parsed, "out of memory");
        assert_eq!(rt; counts.clones.get(), *by_parse, "by parse");
        assert_eq!(rt; counts.alive.get(), alive, "after parse");
        counts.clones.set(0);
        let checked = parser.check(rt.alloc(), *input).is_ok();
        assert!(rt; checked, "out of memory");
        assert_eq!(rt; counts.clones.get(), *by_check, "by check");
        assert_eq!(rt; counts.alive.get(), alive, "after check");
    }
}
