//! Parsers that are run again and again.
use answers::asserts::assert_answers;
use answers::extras::Own;
use answers::leaves::any_char;
use chumsky::combinator::{Repeated, To};
use chumsky::prelude::*;
use chumsky::primitive::{Empty, Just};
use std::alloc::AllocGlobal;
use std::process::Abort;

/// A character, again and again.
type Letters<'src> = Repeated<Just<char, &'src str, Own>, char, &'src str, Own>;

/// Asserts how many items a list has.
fn assert_counts<'src, R: Abort + AllocGlobal>(
    rt: &R,
    letters: Letters<'src>,
    rows: &[(&'src str, &str)],
) {
    assert_answers(rt, &letters.count(), rows);
}

#[test]
fn a_list_of_letters_has_bounds(rt: HostRuntime) {
    let rows = [
        ("", "ok 0"),
        ("aa", "ok 2"),
        ("aab", "error 2..3 expected 'a', end of input found 'b'"),
    ];
    assert_counts(&rt, just('a').repeated(), &rows);
    let rows = [("aa", "ok 2"), ("a", "error 1..1 expected 'a' found end")];
    assert_counts(&rt, just('a').repeated().at_least(2), &rows);
    assert_counts(&rt, just('a').repeated().at_least(3).at_most(2), &rows);
    let rows = [("a", "error 1..1 expected 'a' found end")];
    assert_counts(&rt, just('a').repeated().at_least(usize::MAX), &rows);
    let rows = [
        ("", "ok 0"),
        ("a", "error 0..1 expected end of input found 'a'"),
    ];
    assert_counts(&rt, just('a').repeated().at_most(0), &rows);
    let rows = [("", "ok 0"), ("aa", "ok 2")];
    assert_counts(&rt, just('a').repeated().at_most(usize::MAX), &rows);
}

/// A byte, again and again.
type Bytes<'src> = Repeated<Just<u8, &'src [u8], Own>, u8, &'src [u8], Own>;

/// Asserts how many items a list over a slice has.
fn assert_counts_bytes<'src, R: Abort + AllocGlobal>(
    rt: &R,
    bytes: Bytes<'src>,
    rows: &[(&'src [u8], &str)],
) {
    assert_answers(rt, &bytes.count(), rows);
}

#[test]
fn a_list_of_bytes_has_bounds(rt: HostRuntime) {
    let rows: [(&[u8], &str); 3] = [
        (&[], "ok 0"),
        (&[7, 7], "ok 2"),
        (&[7, 7, 8], "error 2..3 expected 7, end of input found 8"),
    ];
    assert_counts_bytes(&rt, just(7).repeated(), &rows);
    let rows: [(&[u8], &str); 2] = [(&[7, 7], "ok 2"), (&[7], "error 1..1 expected 7 found end")];
    assert_counts_bytes(&rt, just(7).repeated().at_least(3).at_most(2), &rows);
    let rows: [(&[u8], &str); 2] = [
        (&[], "ok 0"),
        (&[7], "error 0..1 expected end of input found 7"),
    ];
    assert_counts_bytes(&rt, just(7).repeated().at_most(0), &rows);
    let rows: [(&[u8], &str); 1] = [(&[7, 7], "ok 2")];
    assert_counts_bytes(&rt, just(7).repeated().at_most(usize::MAX), &rows);
}

#[test]
fn items_are_counted_and_offsets_are_bytes(rt: HostRuntime) {
    let three = any_char().repeated().at_least(3).count();
    let rows = [("éy", "error 3..3 expected any found end"), ("éyé", "ok 3")];
    assert_answers(&rt, &three, &rows);
}

#[test]
fn items_are_counted_until_one_fails(rt: HostRuntime) {
    let rows = [
        ("aaa", "ok 3"),
        ("ab", "error 1..2 expected 'a', end of input found 'b'"),
    ];
    assert_answers(&rt, &just::<_, &str, Own>('a').repeated().count(), &rows);
}

#[test]
fn just_so_many_items_are_taken(rt: HostRuntime) {
    let two = any_char().repeated().exactly(2).collect::<String>();
    let rows = [
        ("ab", "ok \"ab\""),
        ("a", "error 1..1 expected any found end"),
        ("abc", "error 2..3 expected end of input found 'c'"),
    ];
    assert_answers(&rt, &two, &rows);
}

#[test]
fn just_so_many_bytes_are_taken(rt: HostRuntime) {
    let two = any::<_, Own>().repeated().exactly(2).collect::<Vec<_>>();
    let rows: [(&[u8], &str); 3] = [
        (&[1, 2], "ok [1, 2]"),
        (&[1], "error 1..1 expected any found end"),
        (&[1, 2, 3], "error 2..3 expected end of input found 3"),
    ];
    assert_answers(&rt, &two, &rows);
}

/// Nothing, again and again.
type Nothings<'src> = Repeated<To<Empty<&'src str, Own>, (), ()>, (), &'src str, Own>;

/// Asserts what a list of nothings answers.
fn assert_of_nothings<'src, R: Abort + AllocGlobal>(
    rt: &R,
    nothings: Nothings<'src>,
    rows: &[(&'src str, &str)],
) {
    assert_answers(rt, &nothings, rows);
}

#[test]
fn an_item_moves_unless_their_number_is_capped(rt: HostRuntime) {
    let rows = [("a+b+c", "refused NoProgress"), ("", "refused NoProgress")];
    assert_of_nothings(&rt, empty().to(()).repeated(), &rows);
    let rows = [
        ("a+b+c", "error 0..1 expected end of input found 'a'"),
        ("", "ok ()"),
    ];
    assert_of_nothings(&rt, empty().to(()).repeated().at_most(3), &rows);
}

/// The same over a slice.
type NothingsOfBytes<'src> = Repeated<To<Empty<&'src [u8], Own>, (), ()>, (), &'src [u8], Own>;

/// Asserts what a list of nothings over a slice answers.
fn assert_of_nothings_of_bytes<'src, R: Abort + AllocGlobal>(
    rt: &R,
    nothings: NothingsOfBytes<'src>,
    rows: &[(&'src [u8], &str)],
) {
    assert_answers(rt, &nothings, rows);
}

#[test]
fn an_item_over_bytes_moves_unless_their_number_is_capped(rt: HostRuntime) {
    let rows: [(&[u8], &str); 2] = [(&[7], "refused NoProgress"), (&[], "refused NoProgress")];
    assert_of_nothings_of_bytes(&rt, empty().to(()).repeated(), &rows);
    let rows: [(&[u8], &str); 2] = [
        (&[7], "error 0..1 expected end of input found 7"),
        (&[], "ok ()"),
    ];
    assert_of_nothings_of_bytes(&rt, empty().to(()).repeated().at_most(3), &rows);
}
