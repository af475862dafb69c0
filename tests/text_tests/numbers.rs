//! Digits and numbers.
use answers::asserts::assert_answers;
use answers::extras::Own;
use chumsky::prelude::*;
use chumsky::text::{digits, int};

#[test]
fn int_takes_a_zero_alone_or_no_leading_zero(rt: HostRuntime) {
    let rows = [
        ("0", "ok \"0\""),
        ("7", "ok \"7\""),
        ("120", "ok \"120\""),
        ("012", "error 1..2 expected end of input found '1'"),
        ("00", "error 1..2 expected end of input found '0'"),
        ("", "error 0..0 expected int found end"),
        ("x", "error 0..1 expected int found 'x'"),
        ("-1", "error 0..1 expected int found '-'"),
        ("12x", "error 2..3 expected digit, end of input found 'x'"),
        ("1_000", "error 1..2 expected digit, end of input found '_'"),
    ];
    assert_answers(&rt, &int::<&str, Own>(10), &rows);
}

#[test]
fn digits_of_a_radix_are_those_below_it(rt: HostRuntime) {
    let rows = [
        ("00fF", "ok \"00fF\""),
        ("9a", "ok \"9a\""),
        ("g", "error 0..1 expected digit found 'g'"),
        ("fg", "error 1..2 expected digit, end of input found 'g'"),
    ];
    assert_answers(&rt, &digits::<&str, Own>(16), &rows);
    let rows = [
        ("0110", "ok \"0110\""),
        ("2", "error 0..1 expected digit found '2'"),
    ];
    assert_answers(&rt, &digits::<&str, Own>(2), &rows);
    let rows = [("zZ", "ok \"zZ\"")];
    assert_answers(&rt, &int::<&str, Own>(36), &rows);
}

#[test]
fn a_digit_is_one_of_ascii(rt: HostRuntime) {
    let rows = [("\u{663}", "error 0..2 expected digit found '\u{663}'")];
    assert_answers(&rt, &digits::<&str, Own>(10), &rows);
}

#[test]
fn a_number_is_picked_of_its_digits_where_the_type_holds_it(rt: HostRuntime) {
    let rows = [
        ("42", "ok 42"),
        ("255", "ok 255"),
        ("256", "error 0..3 expected something else found '2'"),
        ("x", "error 0..1 expected int found 'x'"),
    ];
    assert_answers(&rt, &int::<&str, Own>(10).pick_by(text::decimal::<u8>()), &rows);
    let month = text::digits::<&str, Own>(10).pick_by(text::Fixed {
        digits: 2,
        least: 1,
        most: 12,
    });
    let rows = [
        ("07", "ok 7"),
        ("12", "ok 12"),
        ("7", "error 0..1 expected something else found '7'"),
        ("13", "error 0..2 expected something else found '1'"),
    ];
    assert_answers(&rt, &month, &rows);
}
