//! Lists at the edge: items that take nothing, counts that no `usize` is above, and a test that answers otherwise at each call.
use answers::asserts::assert_answers;
use answers::extras::Own;
use answers::leaves::{any_char, just_char};
use chumsky::combinator::Repeated;
use chumsky::input::InputRef;
use chumsky::prelude::*;
use chumsky::primitive::Any;
use chumsky::{Failure, Fault, IterParserDebug, PResult, Stop};
use std::cell::Cell;

/// Folds of such items are refused too, as their own tests say.
#[test]
fn what_is_made_of_items_that_take_nothing_is_refused(rt: HostRuntime) {
    let rows = [("a+b+c", "refused NoProgress"), ("", "refused NoProgress")];
    let collected = empty::<&str, Own>().to(()).repeated().collect::<()>();
    assert_answers(&rt, &collected, &rows);
    let counted = empty::<&str, Own>().to(()).repeated().count();
    assert_answers(&rt, &counted, &rows);
    let numbered = empty::<&str, Own>().to(()).repeated().enumerate();
    assert_answers(&rt, &numbered.collect::<Vec<_>>(), &rows);
    let separated = empty::<&str, Own>().to(()).separated_by(empty());
    assert_answers(&rt, &separated.collect::<()>(), &rows);
}

/// The refusal of such a list is no failure, so no other alternative is tried.
#[test]
fn an_alternative_does_not_help_a_list_that_takes_nothing(rt: HostRuntime) {
    let nothings = empty::<&str, Own>().to(()).repeated();
    let parser = just_char('a')
        .ignored()
        .or(nothings)
        .or(just_char('b').ignored());
    let rows = [
        ("b", "refused NoProgress"),
        ("a", "ok ()"),
        ("", "refused NoProgress"),
        ("ab", "error 1..2 expected end of input found 'b'"),
    ];
    assert_answers(&rt, &parser, &rows);
}

#[test]
fn a_list_may_want_more_items_than_any_input_has(rt: HostRuntime) {
    let rows = [
        ("a", "error 1..1 expected 'a' found end"),
        ("", "error 0..0 expected 'a' found end"),
        ("ab", "error 1..2 expected 'a' found 'b'"),
    ];
    assert_answers(&rt, &just_char('a').repeated().at_least(usize::MAX), &rows);
    assert_answers(&rt, &just_char('a').repeated().exactly(usize::MAX), &rows);
    let separated = just_char('a')
        .separated_by(just_char(','))
        .at_least(usize::MAX);
    let rows = [
        ("a", "error 1..1 expected ',' found end"),
        ("a,", "error 2..2 expected 'a' found end"),
        ("", "error 0..0 expected 'a' found end"),
    ];
    assert_answers(&rt, &separated, &rows);
}

/// The test says yes to the first token, no to the second, and so on; each run on three tokens asks it twice.
#[test]
fn a_test_may_answer_otherwise_at_each_call(rt: HostRuntime) {
    let flip = Cell::new(true);
    let passing = any_char().filter(|_| {
        let answer = flip.get();
        flip.set(!answer);
        answer
    });
    let rows = [
        (
            "aaa",
            "error 1..2 expected something else, end of input found 'a'",
        ),
        ("", "ok ()"),
        (
            "aaa",
            "error 1..2 expected something else, end of input found 'a'",
        ),
    ];
    assert_answers(&rt, &passing.repeated(), &rows);
    assert!(rt; flip.get());
}

/// Any characters, one after another.
type Characters<'src> = Repeated<Any<&'src str, Own>, char, &'src str, Own>;

/// What a reader answers whose step answered so.
fn answered<'src, T: Drop>(
    inp: &mut InputRef<'src, '_, &'src str, Own>,
    step: PResult<Option<T>>,
) -> Result<(), Failure<Rich<char>>> {
    match step {
        Ok(_) => Ok(()),
        Err(Fault::Stop(stop)) => Err(inp.stop(stop)),
        Err(Fault::Fail) => match inp.last_error() {
            Ok(error) => Err(Failure::Error(error)),
            Err(_) => Err(inp.stop(Stop::Memory)),
        },
    }
}

/// Asks for one more item after as many as can be counted, with the item or without.
fn ask_for_one_more<'src>(
    inp: &mut InputRef<'src, '_, &'src str, Own>,
    characters: Characters<'src>,
    with_item: bool,
) -> Result<(), Failure<Rich<char>>> {
    let asked = IterParserDebug {
        nonconsumption_is_ok: false,
    };
    let mut count = usize::MAX;
    if with_item {
        let step = characters.next_emit(inp, &mut count, asked);
        answered(inp, step)
    } else {
        let step = characters.next_check(inp, &mut count, asked);
        answered(inp, step)
    }
}

#[test]
fn one_item_more_than_can_be_counted_is_refused(rt: HostRuntime) {
    for with_item in [true, false] {
        let parser = custom::<_, &str, (), Own>(move |inp| {
            ask_for_one_more(inp, any_char().repeated(), with_item)
        });
        let rows = [
            ("a", "refused CountTooLarge"),
            ("", "ok ()"),
            ("a", "refused CountTooLarge"),
        ];
        assert_answers(&rt, &parser, &rows);
    }
}

#[test]
fn a_list_that_is_capped_at_the_last_count_ends_there(rt: HostRuntime) {
    for with_item in [true, false] {
        let parser = custom::<_, &str, (), Own>(move |inp| {
            ask_for_one_more(inp, any_char().repeated().at_most(usize::MAX), with_item)
        });
        let rows = [
            ("a", "error 0..1 expected end of input found 'a'"),
            ("", "ok ()"),
        ];
        assert_answers(&rt, &parser, &rows);
    }
}
