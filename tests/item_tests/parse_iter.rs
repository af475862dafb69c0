//! Items that are asked for one after another, and what is answered at the end.
use answers::answer::line_of;
use answers::extras::{Own, Telling};
use answers::leaves::{any_char, just_char};
use answers::says::Says;
use chumsky::extra::ParserExtra;
use chumsky::prelude::*;
use extending::states::Told;
use std::alloc::{AllocError, AllocGlobal, Global};
use std::fmt::Debug;
use std::process::Abort;

/// What is answered where so many items are asked for: those that came are the output.
fn walked<
    'src,
    O: Debug + Drop,
    E: ParserExtra<&'src str>,
    P: IsIterParser<&'src str, O, E> + IterParser<'src, &'src str, O, E>,
>(parser: &P, alloc: Global, text: &'src str, asked: usize) -> Result<String, AllocError>
where
    E::Error: Says,
    E::State: Default + Drop,
    E::Context: Default + Drop,
{
    let mut run = parser.parse_iter(alloc, text);
    let mut items = Vec::new(alloc);
    for item in (&mut run).take(asked) {
        items.push(item)?;
    }
    let answer = run.finish(items);
    line_of(alloc, &answer)
}

/// Asserts what is answered of each text, where so many items are asked for.
fn assert_walked<
    'src,
    O: Debug + Drop,
    E: ParserExtra<&'src str>,
    P: IsIterParser<&'src str, O, E> + IterParser<'src, &'src str, O, E>,
    R: Abort + AllocGlobal,
>(rt: &R, parser: &P, rows: &[(&'src str, usize, &str)])
where
    E::Error: Says,
    E::State: Default + Drop,
    E::Context: Default + Drop,
{
    for (text, asked, expected) in rows {
        let line = walked(parser, rt.alloc(), *text, *asked).expect(rt, "out of memory");
        assert_eq!(rt; line.as_str(), *expected);
    }
}

/// The end of input is asked for where the run stands, whatever number of items was taken.
#[test]
fn the_answer_is_that_of_the_whole(rt: HostRuntime) {
    let letters = one_of::<_, &str, Own>("ab").repeated();
    let rows = [
        (
            "abc",
            9,
            "ok ['a', 'b']; error 2..3 expected 'a', 'b', end of input found 'c'",
        ),
        (
            "abc",
            2,
            "ok ['a', 'b']; error 2..3 expected end of input found 'c'",
        ),
        (
            "abc",
            1,
            "ok ['a']; error 1..2 expected end of input found 'b'",
        ),
        (
            "abc",
            0,
            "ok []; error 0..1 expected end of input found 'a'",
        ),
        ("ab", 9, "ok ['a', 'b']"),
        ("", 0, "ok []"),
    ];
    assert_walked(&rt, &letters, &rows);
    let three = letters.at_least(3);
    let rows = [
        (
            "ab",
            9,
            "ok ['a', 'b']; error 2..2 expected 'a', 'b' found end",
        ),
        ("ab", 2, "ok ['a', 'b']"),
        ("abab", 9, "ok ['a', 'b', 'a', 'b']"),
        (
            "abab",
            3,
            "ok ['a', 'b', 'a']; error 3..4 expected end of input found 'b'",
        ),
    ];
    assert_walked(&rt, &three, &rows);
}

/// A part whose output is the items is run where the first of them is asked for.
#[test]
fn an_output_is_made_where_its_first_item_is_asked_for(rt: HostRuntime) {
    let letters = just_char('a').map(Some).into_iter();
    let rows = [
        ("b", 0, "ok []; error 0..1 expected end of input found 'b'"),
        ("b", 1, "ok []; error 0..1 expected 'a' found 'b'"),
        ("a", 1, "ok ['a']"),
        ("a", 9, "ok ['a']"),
        (
            "ab",
            1,
            "ok ['a']; error 1..2 expected end of input found 'b'",
        ),
    ];
    assert_walked(&rt, &letters, &rows);
}

/// The items of a list that has too few of them are given all the same.
#[test]
fn items_that_are_filtered_fail_as_they_do(rt: HostRuntime) {
    let letters = any_char()
        .filter(|c| c.is_ascii_alphabetic())
        .repeated()
        .at_least(3);
    let rows = [
        ("ab", 9, "ok ['a', 'b']; error 2..2 expected any found end"),
        (
            "ab1",
            9,
            "ok ['a', 'b']; error 2..3 expected something else found '1'",
        ),
        (
            "a1b",
            9,
            "ok ['a']; error 1..2 expected something else found '1'",
        ),
        ("abc", 9, "ok ['a', 'b', 'c']"),
    ];
    assert_walked(&rt, &letters, &rows);
}

#[test]
fn an_item_that_consumes_nothing_is_refused(rt: HostRuntime) {
    let nothing = empty::<&str, Own>().repeated();
    let rows = [
        ("", 0, "ok []"),
        ("", 9, "refused NoProgress"),
        ("a", 1, "refused NoProgress"),
    ];
    assert_walked(&rt, &nothing, &rows);
}

/// After the end, and after a failure, there are no more items, and nothing is run again.
#[test]
fn there_are_no_more_items_after_the_last(rt: HostRuntime) {
    let alloc = rt.alloc();
    let letters = one_of::<_, &str, Own>("ab").repeated().at_least(2);
    let mut run = letters.parse_iter(alloc, "ac");
    assert_eq!(&rt; run.next(), Some('a'));
    assert_eq!(&rt; run.next(), None);
    assert_eq!(&rt; run.next(), None);
    let line = line_of(alloc, &run.finish(7)).expect(&rt, "out of memory");
    assert_eq!(&rt;
        line.as_str(),
        "ok 7; error 1..2 expected 'a', 'b' found 'c'"
    );
    let mut run = letters.parse_iter(alloc, "abc");
    assert_eq!(&rt; run.next(), Some('a'));
    assert_eq!(&rt; run.next(), Some('b'));
    assert_eq!(&rt; run.next(), None);
    assert_eq!(&rt; run.next(), None);
    let line = line_of(alloc, &run.finish(7)).expect(&rt, "out of memory");
    assert_eq!(&rt;
        line.as_str(),
        "ok 7; error 2..3 expected 'a', 'b', end of input found 'c'"
    );
}

/// The run goes on in the state that it was given, and hands it back.
#[test]
fn the_state_is_handed_back(rt: HostRuntime) {
    let letters = one_of::<_, &str, Telling>("ab").repeated();
    let mut run = letters.parse_iter_with_state(rt.alloc(), "abc", Told { tokens: 5 });
    assert_eq!(&rt; run.next(), Some('a'));
    let (answer, state) = run.finish_with_state('x');
    assert_eq!(&rt; state.tokens, 7);
    let line = line_of(rt.alloc(), &answer).expect(&rt, "out of memory");
    assert_eq!(&rt; line.as_str(), "ok 'x'; error");
}
