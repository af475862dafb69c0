//! A token that is in a sequence, or that isn't, and nothing at all.
use answers::asserts::assert_answers;
use answers::extras::Own;
use chumsky::prelude::*;

#[test]
fn a_member_is_taken_and_else_each_is_expected_in_order(rt: HostRuntime) {
    let rows = [
        ("+é-", "+", "ok '+'"),
        ("+é-", "é", "ok 'é'"),
        ("+é-", "-", "ok '-'"),
        ("céa", "d", "error 0..1 expected 'c', 'é', 'a' found 'd'"),
        ("céa", "", "error 0..0 expected 'c', 'é', 'a' found end"),
        ("", "x", "error 0..1 expected nothing found 'x'"),
    ];
    for (members, text, line) in rows {
        assert_answers(&rt, &one_of::<_, _, Own>(members), &[(text, line)]);
    }
}

#[test]
fn a_token_is_a_sequence_of_one(rt: HostRuntime) {
    let rows = [("a", "ok 'a'"), ("b", "error 0..1 expected 'a' found 'b'")];
    assert_answers(&rt, &one_of::<_, _, Own>('a'), &rows);
}

#[test]
fn a_member_or_the_end_expects_something_else(rt: HostRuntime) {
    let rows = [
        ("ab", "c", "ok 'c'"),
        ("ab", "é", "ok 'é'"),
        ("ab", "", "error 0..0 expected something else found end"),
        ("ab", "a", "error 0..1 expected something else found 'a'"),
        ("bé", "é", "error 0..2 expected something else found 'é'"),
    ];
    for (members, text, line) in rows {
        assert_answers(&rt, &none_of::<_, _, Own>(members), &[(text, line)]);
    }
}

#[test]
fn empty_takes_nothing(rt: HostRuntime) {
    let rows = [
        ("", "ok ()"),
        ("x", "error 0..1 expected end of input found 'x'"),
    ];
    assert_answers(&rt, &empty::<_, Own>(), &rows);
}
