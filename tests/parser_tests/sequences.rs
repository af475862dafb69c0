//! Sequences of which some outputs are ignored, outputs that are mapped, and parts that may be absent.
use answers::asserts::assert_answers;
use answers::extras::Own;
use answers::leaves::{any_char, just_char};
use chumsky::combinator::MapperIn;
use chumsky::prelude::*;
use std::alloc::{AllocError, Global};

#[test]
fn brackets_stand_around_the_part(rt: HostRuntime) {
    let bracketed = just_char('x').delimited_by(just_char('('), just_char(')'));
    let rows = [
        ("(x)", "ok 'x'"),
        ("(x", "error 2..2 expected ')' found end"),
    ];
    assert_answers(&rt, &bracketed, &rows);
}

#[test]
fn padding_may_be_absent_on_either_side(rt: HostRuntime) {
    let padded = just_char('x').padded_by(just_char(' ').or_not());
    let rows = [
        (" x", "ok 'x'"),
        ("x ", "ok 'x'"),
        (" x ", "ok 'x'"),
        ("x", "ok 'x'"),
        ("xy", "error 1..2 expected ' ', end of input found 'y'"),
    ];
    assert_answers(&rt, &padded, &rows);
    let rows = [
        ("_x_", "ok 'x'"),
        ("_x", "error 2..2 expected '_' found end"),
    ];
    let padded = just_char('x').padded_by(just_char('_'));
    assert_answers(&rt, &padded, &rows);
}

#[test]
fn of_two_outputs_both_are_kept(rt: HostRuntime) {
    let rows = [
        ("ab", "ok ('a', 'b')"),
        ("ac", "error 1..2 expected 'b' found 'c'"),
    ];
    assert_answers(&rt, &just_char('a').then(just_char('b')), &rows);
}

#[test]
fn of_two_outputs_the_second_is_kept(rt: HostRuntime) {
    let second = just_char('a').ignore_then(just_char('b'));
    let rows = [("ab", "ok 'b'"), ("b", "error 0..1 expected 'a' found 'b'")];
    assert_answers(&rt, &second, &rows);
}

#[test]
fn of_two_outputs_the_first_is_kept(rt: HostRuntime) {
    let first = just_char('a').then_ignore(just_char('b'));
    let rows = [
        ("ab", "ok 'a'"),
        ("ac", "error 1..2 expected 'b' found 'c'"),
    ];
    assert_answers(&rt, &first, &rows);
}

#[test]
fn an_output_is_mapped(rt: HostRuntime) {
    let paired = any_char().map(|c| (c, 1));
    assert_answers(&rt, &paired, &[("a", "ok ('a', 1)")]);
    let spanned = any_char().map_with(|c, extra| (c, extra.span()));
    let rows = [("é", "ok ('é', 0..2)")];
    assert_answers(&rt, &spanned, &rows);
    assert_answers(&rt, &just_char('a').ignored(), &[("a", "ok ()")]);
    assert_answers(&rt, &just_char('a').to(1), &[("a", "ok 1")]);
    let unwrapped = just_char('a').map(Some).unwrapped();
    assert_answers(&rt, &unwrapped, &[("a", "ok 'a'")]);
}

#[test]
fn an_output_is_mapped_by_the_allocator_of_the_run(rt: HostRuntime) {
    let owned = text::int::<_, Own>(10)
        .map_in(|digits, alloc| String::from_str(alloc, digits))
        .then_ignore(just('.'));
    let rows = [
        ("12.", "ok \"12\""),
        ("a", "error 0..1 expected int found 'a'"),
        ("12", "error 2..2 expected digit, '.' found end"),
    ];
    assert_answers(&rt, &owned, &rows);
    let taken = any_char()
        .map(|c| Ok::<char, AllocError>(c))
        .map_in(|made, _| made);
    assert_answers(&rt, &taken, &[("a", "ok 'a'")]);
    assert_answers(&rt, &any_char().map_in_by(Boxed), &[("a", "ok 'a'")]);
}

/// Puts a character into a box.
#[derive(Clone, Copy)]
struct Boxed;

impl MapperIn<char, Box<char>> for Boxed {
    fn apply_in(&self, c: char, alloc: Global) -> Result<Box<char>, AllocError> {
        Ok(Box::new(alloc, c)?)
    }
}

/// Where no output is wanted the mapper isn't called, so nothing is refused.
#[test]
fn a_mapper_without_memory_refuses_the_run(rt: HostRuntime) {
    let refused = just_char('a')
        .map_in(|_, _| Err::<char, AllocError>(AllocError))
        .or(just_char('b'));
    let rows = [
        ("a", "parse: refused Memory; but check: ok"),
        ("b", "ok 'b'"),
        ("c", "error 0..1 expected 'a', 'b' found 'c'"),
    ];
    assert_answers(&rt, &refused, &rows);
}

#[test]
fn a_value_stands_for_an_output(rt: HostRuntime) {
    let replaced = just_char('a').to(3).then(just_char('b').ignored());
    let rows = [
        ("ab", "ok (3, ())"),
        ("a", "error 1..1 expected 'b' found end"),
    ];
    assert_answers(&rt, &replaced, &rows);
}

#[test]
fn an_absent_part_is_none(rt: HostRuntime) {
    let perhaps = just_char('a').or_not();
    let rows = [
        ("", "ok None"),
        ("a", "ok Some('a')"),
        ("b", "error 0..1 expected 'a', end of input found 'b'"),
    ];
    assert_answers(&rt, &perhaps, &rows);
}
