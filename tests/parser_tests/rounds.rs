//! How often a set runs its parts.
use answers::asserts::assert_answers_from;
use answers::extras::Telling;
use chumsky::prelude::*;
use extending::states::Told;

/// Each part that isn't taken reads a token in each round; the parts left over read once more.
#[test]
fn a_set_goes_in_rounds(rt: HostRuntime) {
    let letters = set((just::<_, _, Telling>('a'), just('b'), just('c')));
    let rows = [
        ("abc", "ok ('a', 'b', 'c'); state Told { tokens: 3 }"),
        ("bac", "ok ('a', 'b', 'c'); state Told { tokens: 5 }"),
        ("cba", "ok ('a', 'b', 'c'); state Told { tokens: 6 }"),
        ("cbx", "error; state Told { tokens: 7 }"),
        ("x", "error; state Told { tokens: 4 }"),
    ];
    assert_answers_from(&rt, &letters, Told { tokens: 0 }, &rows);
}
