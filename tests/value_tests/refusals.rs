//! With memory enough nothing is refused. No contract says so, since none knows how much memory there is: each of these
//! fails where a call refuses for no reason.
use answers::asserts::assert_answers;
use answers::extras::Own;
use answers::leaves::{any_char, just_char};
use chumsky::Stop;
use chumsky::input::Emitter;
use chumsky::prelude::*;
use chumsky::primitive::Just;
use std::alloc::AllocGlobal;
use std::collections::{BTreeMap, BTreeSet};
use std::process::Abort;

#[test]
fn an_emitter_has_room(rt: HostRuntime) {
    let mut emitter: Emitter<u32> = Emitter::new(rt.alloc());
    for error in 0..100 {
        emitter.emit(error);
    }
    let errors = emitter.into_errors().expect(&rt, "refused");
    assert_eq!(rt; errors.len(), 100);
}

#[test]
fn a_run_emits(rt: HostRuntime) {
    let emitting = custom::<_, &str, char, Own>(|inp| {
        let here = SimpleSpan { start: 0, end: 1 };
        inp.emit(Rich::custom(here, String::new(inp.alloc())))?;
        Ok('x')
    });
    assert_answers(&rt, &emitting, &[("", "ok 'x'; error 0..1 \"\"")]);
    let rows = [
        ("", "ok ('x', 'x'); error 0..1 \"\"; error 0..1 \"\""),
        (
            "a",
            "error 0..1 \"\"; error 0..1 \"\"; error 0..1 expected end of input found 'a'",
        ),
    ];
    assert_answers(&rt, &(&emitting).then(&emitting), &rows);
}

#[test]
fn what_was_set_aside_is_brought_back(rt: HostRuntime) {
    let closure = custom::<_, &str, char, Own>(|inp| inp.parse(just_char('b')));
    let rows = [
        ("b", "ok 'b'"),
        ("c", "error 0..1 expected 'a', 'b' found 'c'"),
    ];
    assert_answers(&rt, &just_char('a').or_not().ignore_then(closure), &rows);
}

#[test]
fn a_failure_is_reported(rt: HostRuntime) {
    let rows = [
        ("a", "ok 'a'"),
        ("d", "error 0..1 expected 'a', 'b', 'c' found 'd'"),
        ("", "error 0..0 expected 'a', 'b', 'c' found end"),
    ];
    let one = just_char('a').or(just_char('b')).or(one_of("c"));
    assert_answers(&rt, &one, &rows);
}

/// A set over a `Vec`.
fn assert_of_vec<'src, R: Abort + AllocGlobal>(
    rt: &R,
    letters: Vec<Just<char, &'src str, Own>>,
    rows: &[(&'src str, &str)],
) {
    assert_answers(rt, &set(letters), rows);
}

#[test]
fn a_set_has_room_for_its_outputs(rt: HostRuntime) {
    let letters = vec![in rt.alloc(); just('a'), just('b'), just('c')].expect(
        &rt,
        "out of memory",
    );
    assert_of_vec(&rt, letters, &[("cab", "ok ['a', 'b', 'c']")]);
}

#[test]
fn collections_have_room_for_items(rt: HostRuntime) {
    let items = any_char().repeated();
    assert_answers(&rt, &items.collect::<Vec<_>>(), &[("ba", "ok ['b', 'a']")]);
    let items = any_char().repeated();
    assert_answers(&rt, &items.collect::<String>(), &[("ba", "ok \"ba\"")]);
    let items = any_char().repeated();
    assert_answers(
        &rt,
        &items.collect::<BTreeSet<_>>(),
        &[("bab", "ok {'a', 'b'}")],
    );
    let items = any_char().then(any_char()).repeated();
    assert_answers(
        &rt,
        &items.collect::<BTreeMap<_, _>>(),
        &[("bxay", "ok {'a': 'y', 'b': 'x'}")],
    );
}

#[test]
fn stops_have_their_numbers(rt: HostRuntime) {
    let stops = [
        Stop::Memory as u8,
        Stop::NoProgress as u8,
        Stop::TooDeep as u8,
        Stop::CountTooLarge as u8,
    ];
    assert_eq!(rt; stops, [1, 2, 3, 4]);
}
