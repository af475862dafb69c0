//! Items with separators between them.
use answers::asserts::assert_answers;
use answers::extras::Own;
use answers::leaves::{just_char, just_text};
use arrayvec::ArrayVec;
use chumsky::combinator::SeparatedBy;
use chumsky::prelude::*;
use chumsky::primitive::{Empty, Just};
use std::alloc::AllocGlobal;
use std::process::Abort;

/// A character, over a text.
type Letter<'src> = Just<char, &'src str, Own>;

/// Dashes, with commas between.
type Dashes<'src> = SeparatedBy<Letter<'src>, Letter<'src>, char, char, &'src str, Own>;

/// Dashes with commas between.
fn dashes<'src>() -> Dashes<'src> {
    just('-').separated_by(just(','))
}

/// Asserts what dashes collect into a `Vec`, and a comma after them.
fn assert_before_comma<'src, R: Abort + AllocGlobal>(
    rt: &R,
    dashes: Dashes<'src>,
    rows: &[(&'src str, &str)],
) {
    assert_answers(rt, &dashes.collect::<Vec<_>>().then(just(',')), rows);
}

#[test]
fn a_separator_that_no_item_follows_is_left(rt: HostRuntime) {
    let rows = [
        ("-,-,-,", "ok (['-', '-', '-'], ',')"),
        (",", "ok ([], ',')"),
        ("-,-", "error 3..3 expected ',' found end"),
        ("-,,", "error 2..3 expected '-', end of input found ','"),
    ];
    assert_before_comma(&rt, dashes(), &rows);
    let rows = [
        ("-,-,", "ok (['-', '-'], ',')"),
        ("-,-", "error 3..3 expected ',' found end"),
        ("-,", "error 2..2 expected '-' found end"),
    ];
    assert_before_comma(&rt, dashes().exactly(2), &rows);
    let rows = [
        ("-,-,,", "ok (['-', '-'], ',')"),
        ("-,-,", "error 4..4 expected ',' found end"),
        ("-,-", "error 3..3 expected ',' found end"),
        ("-,", "error 2..2 expected '-' found end"),
    ];
    assert_before_comma(&rt, dashes().exactly(2).allow_trailing(), &rows);
}

/// Asserts what dashes collect into a `Vec`.
fn assert_collects<'src, R: Abort + AllocGlobal>(
    rt: &R,
    dashes: Dashes<'src>,
    rows: &[(&'src str, &str)],
) {
    assert_answers(rt, &dashes.collect::<Vec<_>>(), rows);
}

#[test]
fn a_separator_may_lead_or_trail(rt: HostRuntime) {
    let rows = [
        (",-,-", "ok ['-', '-']"),
        ("-", "ok ['-']"),
        (",", "ok []"),
        (",,", "error 1..2 expected '-', end of input found ','"),
        (",-,", "error 3..3 expected '-' found end"),
    ];
    assert_collects(&rt, dashes().allow_leading(), &rows);
    let rows = [
        (",", "error 1..1 expected '-' found end"),
        (",-", "ok ['-']"),
    ];
    assert_collects(&rt, dashes().allow_leading().at_least(1), &rows);
    let rows = [
        ("-,-,", "ok ['-', '-']"),
        ("-,,", "error 2..3 expected '-', end of input found ','"),
        (",", "error 0..1 expected '-', end of input found ','"),
    ];
    assert_collects(&rt, dashes().allow_trailing(), &rows);
    let rows = [(",", "ok []"), (",-,", "ok ['-']"), ("", "ok []")];
    assert_collects(&rt, dashes().allow_leading().allow_trailing(), &rows);
}

#[test]
fn items_between_separators_are_counted(rt: HostRuntime) {
    let rows = [("a,a", "ok 2"), ("a,", "error 2..2 expected 'a' found end")];
    let count = just_char('a').separated_by(just_char(',')).count();
    assert_answers(&rt, &count, &rows);
}

#[test]
fn a_list_with_too_few_items_fails(rt: HostRuntime) {
    let rows = [
        (",-,-", "error 4..4 expected ',' found end"),
        (",-,-,-", "ok ['-', '-', '-']"),
    ];
    assert_collects(&rt, dashes().allow_leading().at_least(3), &rows);
    let rows = [
        ("-,-,", "error 4..4 expected '-' found end"),
        ("-,-,-,", "ok ['-', '-', '-']"),
    ];
    assert_collects(&rt, dashes().allow_trailing().at_least(3), &rows);
}

#[test]
fn after_the_last_item_that_a_cap_allows_a_separator_may_trail(rt: HostRuntime) {
    let rows = [
        ("-,-", "ok ['-', '-']"),
        ("-,-,", "error 3..4 expected end of input found ','"),
        ("-,-,-", "error 3..4 expected end of input found ','"),
    ];
    assert_collects(&rt, dashes().at_most(2), &rows);
    let rows = [
        ("-,-", "ok ['-', '-']"),
        ("-,-,", "ok ['-', '-']"),
        ("-,-,-", "error 4..5 expected end of input found '-'"),
        ("-,-,,", "error 4..5 expected end of input found ','"),
        ("-", "ok ['-']"),
    ];
    assert_collects(&rt, dashes().at_most(2).allow_trailing(), &rows);
    let rows = [
        (",", "error 0..1 expected end of input found ','"),
        ("", "ok []"),
    ];
    let none = dashes().at_most(0).allow_leading().allow_trailing();
    assert_collects(&rt, none, &rows);
}

#[test]
fn a_full_array_asks_for_no_separator(rt: HostRuntime) {
    let two = dashes().at_most(2).allow_trailing();
    let rows = [
        ("-,-,", "ok (['-', '-'], ',')"),
        ("-,-", "error 3..3 expected ',' found end"),
    ];
    let array = two.collect_exactly::<ArrayVec<char, 2>>();
    assert_answers(&rt, &array.then(just(',')), &rows);
}

/// Asserts how many dashes there are.
fn assert_counts<'src, R: Abort + AllocGlobal>(
    rt: &R,
    dashes: Dashes<'src>,
    rows: &[(&'src str, &str)],
) {
    assert_answers(rt, &dashes.count(), rows);
}

#[test]
fn separators_are_not_counted(rt: HostRuntime) {
    let rows = [
        ("-", "error 1..1 expected ',' found end"),
        ("-,-", "ok 2"),
        ("-,-,-", "ok 3"),
    ];
    assert_counts(&rt, dashes().at_least(2), &rows);
}

/// The same over a slice.
type Sevens<'src> = SeparatedBy<
    Just<u8, &'src [u8], Own>,
    Just<u8, &'src [u8], Own>,
    u8,
    u8,
    &'src [u8],
    Own,
>;

/// Sevens with zeros between.
fn sevens<'src>() -> Sevens<'src> {
    just(7).separated_by(just(0))
}

/// Asserts what sevens collect into a `Vec`, and a zero after them.
fn assert_before_zero<'src, R: Abort + AllocGlobal>(
    rt: &R,
    sevens: Sevens<'src>,
    rows: &[(&'src [u8], &str)],
) {
    assert_answers(rt, &sevens.collect::<Vec<_>>().then(just(0)), rows);
}

#[test]
fn a_separator_that_no_byte_follows_is_left(rt: HostRuntime) {
    let rows: [(&[u8], &str); 1] = [(&[7, 0, 7, 0, 7, 0], "ok ([7, 7, 7], 0)")];
    assert_before_zero(&rt, sevens(), &rows);
    let rows: [(&[u8], &str); 2] = [
        (&[7, 0, 7, 0], "ok ([7, 7], 0)"),
        (&[7, 0, 7], "error 3..3 expected 0 found end"),
    ];
    assert_before_zero(&rt, sevens().exactly(2), &rows);
    let rows: [(&[u8], &str); 2] = [
        (&[7, 0, 7, 0, 0], "ok ([7, 7], 0)"),
        (&[7, 0, 7, 0], "error 4..4 expected 0 found end"),
    ];
    assert_before_zero(&rt, sevens().exactly(2).allow_trailing(), &rows);
}

/// Asserts what sevens collect into a `Vec`.
fn assert_collects_bytes<'src, R: Abort + AllocGlobal>(
    rt: &R,
    sevens: Sevens<'src>,
    rows: &[(&'src [u8], &str)],
) {
    assert_answers(rt, &sevens.collect::<Vec<_>>(), rows);
}

#[test]
fn a_separator_may_lead_or_trail_bytes(rt: HostRuntime) {
    let rows: [(&[u8], &str); 2] = [
        (&[0, 7, 0, 7], "ok [7, 7]"),
        (&[0], "ok []"),
    ];
    assert_collects_bytes(&rt, sevens().allow_leading(), &rows);
    let rows: [(&[u8], &str); 2] = [(&[0], "ok []"), (&[0, 7, 0], "ok [7]")];
    assert_collects_bytes(&rt, sevens().allow_leading().allow_trailing(), &rows);
    let rows: [(&[u8], &str); 1] = [(&[0, 7, 0, 7], "error 4..4 expected 0 found end")];
    assert_collects_bytes(&rt, sevens().allow_leading().at_least(3), &rows);
    let rows: [(&[u8], &str); 1] = [(&[7, 0, 7, 0], "error 4..4 expected 7 found end")];
    assert_collects_bytes(&rt, sevens().allow_trailing().at_least(3), &rows);
}

#[test]
fn a_leading_separator_of_bytes_stands_alone_where_no_item_is_asked_for(rt: HostRuntime) {
    let rows: [(&[u8], &str); 1] =
        [(&[0, 0], "error 1..2 expected 7, end of input found 0")];
    assert_collects_bytes(&rt, sevens().allow_leading(), &rows);
    let rows: [(&[u8], &str); 2] = [
        (&[0], "error 1..1 expected 7 found end"),
        (&[0, 7], "ok [7]"),
    ];
    assert_collects_bytes(&rt, sevens().allow_leading().at_least(1), &rows);
}

#[test]
fn after_the_last_byte_that_a_cap_allows_a_separator_may_trail(rt: HostRuntime) {
    let rows: [(&[u8], &str); 3] = [
        (&[7, 0, 7], "ok [7, 7]"),
        (&[7, 0, 7, 0], "ok [7, 7]"),
        (&[7, 0, 7, 0, 7], "error 4..5 expected end of input found 7"),
    ];
    assert_collects_bytes(&rt, sevens().at_most(2).allow_trailing(), &rows);
    let rows: [(&[u8], &str); 1] = [(&[0], "error 0..1 expected end of input found 0")];
    let none = sevens().at_most(0).allow_leading().allow_trailing();
    assert_collects_bytes(&rt, none, &rows);
    let two = sevens().at_most(2).allow_trailing();
    let rows: [(&[u8], &str); 1] = [(&[7, 0, 7, 0], "ok ([7, 7], 0)")];
    let array = two.collect_exactly::<ArrayVec<u8, 2>>();
    assert_answers(&rt, &array.then(just(0)), &rows);
}

#[test]
fn separators_of_bytes_are_not_counted(rt: HostRuntime) {
    let two = just::<_, _, Own>(7).separated_by(just(0)).at_least(2);
    let rows: [(&[u8], &str); 2] = [
        (&[7], "error 1..1 expected 0 found end"),
        (&[7, 0, 7], "ok 2"),
    ];
    assert_answers(&rt, &two.count(), &rows);
}

#[test]
fn items_may_be_absent_between_separators(rt: HostRuntime) {
    let perhaps = just_text("a").or_not().separated_by(just_text("b"));
    let rows = [
        ("bba", "ok ()"),
        ("bab", "ok ()"),
        ("", "ok ()"),
        ("c", "error 0..1 expected 'a', 'b', end of input found 'c'"),
    ];
    assert_answers(&rt, &perhaps, &rows);
}

#[test]
fn bytes_may_be_absent_between_separators(rt: HostRuntime) {
    let perhaps = just::<_, _, Own>(7).or_not().separated_by(just(0));
    let rows: [(&[u8], &str); 2] = [
        (&[0, 0, 7], "ok ()"),
        (&[8], "error 0..1 expected 7, 0, end of input found 8"),
    ];
    assert_answers(&rt, &perhaps, &rows);
}

#[test]
fn a_separator_is_progress(rt: HostRuntime) {
    let nothings = empty::<_, Own>().separated_by(just_char(',')).count();
    let rows = [
        (",", "ok 2"),
        (",,,", "ok 4"),
        ("", "ok 1"),
        ("x", "error 0..1 expected ',', end of input found 'x'"),
    ];
    assert_answers(&rt, &nothings, &rows);
}

#[test]
fn a_separator_among_bytes_is_progress(rt: HostRuntime) {
    let nothings = empty::<_, Own>().separated_by(just(0)).count();
    let rows: [(&[u8], &str); 2] = [(&[0], "ok 2"), (&[], "ok 1")];
    assert_answers(&rt, &nothings, &rows);
}

/// Nothings, with nothing between.
type Nothings<'src> = SeparatedBy<
    Empty<&'src str, Own>,
    Empty<&'src str, Own>,
    (),
    (),
    &'src str,
    Own,
>;

/// Asserts how many nothings there are.
fn assert_counts_nothings<'src, R: Abort + AllocGlobal>(
    rt: &R,
    nothings: Nothings<'src>,
    rows: &[(&'src str, &str)],
) {
    assert_answers(rt, &nothings.count(), rows);
}

#[test]
fn an_item_and_its_separator_move_unless_their_number_is_capped(rt: HostRuntime) {
    let rows = [("", "refused NoProgress"), ("a", "refused NoProgress")];
    assert_counts_nothings(&rt, empty().separated_by(empty()), &rows);
    let rows = [
        ("", "ok 3"),
        ("a", "error 0..1 expected end of input found 'a'"),
    ];
    assert_counts_nothings(&rt, empty().separated_by(empty()).at_most(3), &rows);
}
