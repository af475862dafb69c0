//! Parsers under a label.
ghost use Rattle.std.specs.Prelude.{⊤};

use answers::asserts::assert_answers;
use answers::extras::{Merging, Own, Quiet};
use answers::leaves::{any_char, just_char, just_text};
use chumsky::error::Error;
use chumsky::label::LabelError;
use chumsky::prelude::*;
use extending::merges::Merges;
use std::alloc::{AllocError, Global};
use std::cell::Cell;

#[test]
fn a_failure_at_the_start_says_the_label_alone(rt: HostRuntime) {
    let month = just_text("Jan").or(just_text("Feb")).labelled("a month");
    let rows = [
        ("Jan", "ok \"Jan\""),
        ("Feb", "ok \"Feb\""),
        ("Mar", "error 0..1 expected a month found 'M'"),
        ("", "error 0..0 expected a month found end"),
    ];
    assert_answers(&rt, &month, &rows);
}

#[test]
fn a_token_has_a_name(rt: HostRuntime) {
    let named = just_char('a').labelled("an a");
    assert_answers(&rt, &named, &[("b", "error 0..1 expected an a found 'b'")]);
}

#[test]
fn a_failure_further_on_stays(rt: HostRuntime) {
    let month = just_text("Jan").or(just_text("Feb")).labelled("a month");
    let rows = [("Jap", "error 2..3 expected 'n' found 'p'")];
    assert_answers(&rt, &month, &rows);
}

#[test]
fn a_label_is_kept_where_its_part_succeeds(rt: HostRuntime) {
    let signed = just_char('-')
        .or_not()
        .labelled("a sign")
        .then(text::int(10).labelled("a number"));
    let rows = [
        ("-1", "ok (Some('-'), \"1\")"),
        ("x", "error 0..1 expected a sign, a number found 'x'"),
        ("-x", "error 1..2 expected a number found 'x'"),
        ("1x", "error 1..2 expected digit, end of input found 'x'"),
    ];
    assert_answers(&rt, &signed, &rows);
}

#[test]
fn a_success_keeps_its_furthest_failure(rt: HostRuntime) {
    let words = just_char('a')
        .then(just_char('b'))
        .or_not()
        .labelled("a pair")
        .then_ignore(any_char().repeated());
    let rows = [
        ("ac", "ok None"),
        ("", "ok None"),
    ];
    assert_answers(&rt, &words, &rows);
    let pair = just_char('a')
        .then(just_char('b'))
        .or_not()
        .labelled("a pair")
        .then(just_char('x'));
    let rows = [
        ("x", "ok (None, 'x')"),
        ("ac", "error 1..2 expected 'b' found 'c'"),
        ("c", "error 0..1 expected a pair, 'x' found 'c'"),
    ];
    assert_answers(&rt, &pair, &rows);
}

#[test]
fn what_was_judged_is_labelled_with_its_span(rt: HostRuntime) {
    let minute = text::int::<&str, Own>(10)
        .from_str::<u8>()
        .filter_map(|read| read.ok())
        .filter(|minute| *minute < 60)
        .labelled("a minute");
    let rows = [
        ("59", "ok 59"),
        ("60", "error 0..2 expected a minute found '6'"),
        ("256", "error 0..3 expected a minute found '2'"),
        ("x", "error 0..1 expected a minute found 'x'"),
    ];
    assert_answers(&rt, &minute, &rows);
}

#[test]
fn the_outer_label_stands(rt: HostRuntime) {
    let value = just_char('t').labelled("a letter").labelled("a value");
    let rows = [("x", "error 0..1 expected a value found 'x'")];
    assert_answers(&rt, &value, &rows);
    let none = any_char().not().labelled("the end of the line");
    let rows = [("b", "error 0..1 expected the end of the line found 'b'")];
    assert_answers(&rt, &none, &rows);
}

#[test]
fn a_keyword_under_a_label_is_spanned_as_a_word(rt: HostRuntime) {
    let hello = text::ascii::keyword::<&str, Own>("hello").labelled("greeting");
    let rows = [
        ("hello", "ok \"hello\""),
        ("goodbye", "error 0..7 expected greeting found end"),
        ("1", "error 0..1 expected greeting found '1'"),
    ];
    assert_answers(&rt, &hello, &rows);
}

#[test]
fn errors_that_know_no_labels_stay_as_they_are(rt: HostRuntime) {
    let month = just::<_, &str, Quiet>("Jan")
        .or(just("Feb"))
        .labelled("a month");
    let rows = [("Jan", "ok \"Jan\""), ("Mar", "error"), ("", "error")];
    assert_answers(&rt, &month, &rows);
}

/// A label that counts the errors that it was put into, and leaves them as they are.
#[derive(Clone, Copy)]
struct Counted<'l> {
    errors: &'l Cell<u32>,
}

impl<'src, 'l> LabelError<&'src str, Counted<'l>> for Merges {
    ghost labelled = { λ errors _ e. errors.seen e };

    ghost labels_freely = { ⊤ };

    fn label_with(self, _alloc: Global, label: &Counted<'l>) -> Result<Merges, AllocError>
    where
        Self: Error<&'src str>,
    {
        label.errors.set(label.errors.get().wrapping_add(1));
        Ok(self)
    }
}

#[test]
fn a_label_is_put_only_into_an_error_that_may_be_reported(rt: HostRuntime) {
    let errors = Cell::new(0);
    let longer = just::<_, &str, Merging>("abc");
    let value = just("x").or(just("y")).labelled(Counted { errors: &errors });
    // How often it is put in, by four runs: with a state and without, `parse` and `check`.
    let rows = [
        // Its part has no failure.
        ("x", "ok \"x\"", 0),
        // Its part failed at its start, and then succeeded.
        ("y", "ok \"y\"", 4),
        ("z", "error (a (x y))", 4),
        // An older error stands further on, and hides that of the part.
        ("abz", "error c", 0),
    ];
    for (text, wanted, times) in rows {
        errors.set(0);
        assert_answers(&rt, &longer.or(value), &[(text, wanted)]);
        assert!(rt; errors.get() == times);
    }
}
