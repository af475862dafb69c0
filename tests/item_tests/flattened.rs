//! Items out of collections: those of an output, and those of each item.
use answers::asserts::assert_answers;
use answers::extras::Own;
use answers::leaves::{any_char, just_char};
use arrayvec::ArrayVec;
use chumsky::prelude::*;

/// The part runs once, before the items of others; where it fails, so does the whole.
#[test]
fn the_items_of_an_output_come_before_others(rt: HostRuntime) {
    let letters = just_char('a')
        .map(Some)
        .into_iter()
        .then_items(just_char('b').repeated())
        .then_items(just_char('c').repeated())
        .collect::<Vec<char>>();
    let rows = [
        ("abbcc", "ok ['a', 'b', 'b', 'c', 'c']"),
        ("acc", "ok ['a', 'c', 'c']"),
        ("a", "ok ['a']"),
        ("bbc", "error 0..1 expected 'a' found 'b'"),
        (
            "abd",
            "error 2..3 expected 'b', 'c', end of input found 'd'",
        ),
    ];
    assert_answers(&rt, &letters, &rows);
}

/// Each `a` is an item, and any other letter is none.
#[test]
fn items_are_counted_and_not_collections(rt: HostRuntime) {
    let found = just_char('a')
        .map(Some)
        .or(any_char().to(None))
        .repeated()
        .flatten()
        .count();
    let rows = [("abracadabra", "ok 5"), ("bcd", "ok 0"), ("", "ok 0")];
    assert_answers(&rt, &found, &rows);
}

/// Also below `collect_exactly`, which asks for no progress of other items.
#[test]
fn empty_collections_without_end_are_refused(rt: HostRuntime) {
    let nothing = empty::<&str, Own>()
        .to(None::<char>)
        .repeated()
        .flatten()
        .collect_exactly::<ArrayVec<char, 1>>();
    assert_answers(&rt, &nothing, &[("", "refused NoProgress")]);
}

#[test]
fn empty_collections_are_passed_over(rt: HostRuntime) {
    let letters = one_of::<_, _, Own>("ab")
        .repeated()
        .collect::<Vec<char>>()
        .separated_by(just_char(','))
        .at_least(2)
        .flatten()
        .collect::<String>();
    let rows = [
        ("ab,,ba", "ok \"abba\""),
        (",,", "ok \"\""),
        ("a,", "ok \"a\""),
        (",b,,a", "ok \"ba\""),
        ("ab", "error 2..2 expected 'a', 'b', ',' found end"),
        (
            "ab,c",
            "error 3..4 expected 'a', 'b', ',', end of input found 'c'",
        ),
    ];
    assert_answers(&rt, &letters, &rows);
}

/// An `a` holds one that holds one, a `b` holds one that holds none, and any other letter holds none.
#[test]
fn collections_of_collections_are_flattened_twice(rt: HostRuntime) {
    let letters = just_char('a')
        .to(Some(Some('a')))
        .or(just_char('b').to(Some(None)))
        .or(any_char().to(None))
        .repeated()
        .flatten()
        .flatten()
        .collect::<Vec<char>>();
    let rows = [("abcab", "ok ['a', 'a']"), ("bcb", "ok []"), ("", "ok []")];
    assert_answers(&rt, &letters, &rows);
}

#[test]
fn letters_are_items_of_words(rt: HostRuntime) {
    let word = any_char().repeated().collect::<Vec<_>>();
    assert_answers(&rt, &word.into_iter().count(), &[("abc", "ok 3")]);
    let words = one_of::<_, &str, Own>('a'..='z')
        .repeated()
        .collect::<Vec<_>>();
    let letters = words
        .separated_by(just_char(','))
        .flatten()
        .collect::<String>();
    assert_answers(&rt, &letters, &[("ab,,c", "ok \"abc\"")]);
}
