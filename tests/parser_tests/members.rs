//! The members of ranges, arrays, vectors, slices and texts of one's own.
use answers::asserts::assert_answers;
use answers::extras::Own;
use chumsky::container::{Seq, chars_of};
use chumsky::error::RichPattern;
use chumsky::extra::RichText;
use chumsky::prelude::*;
use std::alloc::Global;
use std::process::Abort;

/// The bytes 7 and 5.
fn seven_and_five(alloc: Global, rt: &impl Abort) -> Vec<u8> {
    vec![in alloc; 7, 5].expect(rt, "out of memory")
}

/// A quote and an `é`.
fn quote_and_accent(alloc: Global, rt: &impl Abort) -> String {
    String::from_str(alloc, "\"é").expect(rt, "out of memory")
}

#[test]
fn a_range_expects_each_of_its_characters(rt: HostRuntime) {
    let a_to_c = one_of::<_, _, Own>('a'..='c');
    let rows = [
        ("c", "ok 'c'"),
        ("d", "error 0..1 expected 'a', 'b', 'c' found 'd'"),
    ];
    assert_answers(&rt, &a_to_c, &rows);
}

#[test]
fn an_array_has_members(rt: HostRuntime) {
    let rows: [(&[u8], &str); 2] = [(&[2], "ok 2"), (&[3], "error 0..1 expected 1, 2 found 3")];
    assert_answers(&rt, &one_of::<_, _, Own>([1u8, 2]), &rows);
    let rows: [(&[u8], &str); 2] = [
        (&[3], "ok 3"),
        (&[1], "error 0..1 expected something else found 1"),
    ];
    assert_answers(&rt, &none_of::<_, _, Own>([1u8, 2]), &rows);
}

#[test]
fn a_vec_has_members(rt: HostRuntime) {
    let members = seven_and_five(rt.alloc(), &rt);
    let rows: [(&[u8], &str); 2] = [(&[5], "ok 5"), (&[6], "error 0..1 expected 7, 5 found 6")];
    assert_answers(&rt, &one_of::<_, _, Own>(members), &rows);
    let members = seven_and_five(rt.alloc(), &rt);
    let rows: [(&[u8], &str); 2] = [
        (&[6], "ok 6"),
        (&[5], "error 0..1 expected something else found 5"),
    ];
    assert_answers(&rt, &none_of::<_, _, Own>(members), &rows);
}

#[test]
fn a_string_has_members(rt: HostRuntime) {
    let letters = quote_and_accent(rt.alloc(), &rt);
    let rows = [
        ("é", "ok 'é'"),
        ("e", "error 0..1 expected '\"', 'é' found 'e'"),
    ];
    assert_answers(&rt, &one_of::<_, _, Own>(letters), &rows);
    let letters = quote_and_accent(rt.alloc(), &rt);
    let rows = [
        ("e", "ok 'e'"),
        ("é", "error 0..2 expected something else found 'é'"),
    ];
    assert_answers(&rt, &none_of::<_, _, Own>(letters), &rows);
}

#[test]
fn the_error_stands_at_the_member_that_is_not_there(rt: HostRuntime) {
    let one_and_two = just::<_, _, Own>([1u8, 2]);
    let rows: [(&[u8], &str); 4] = [
        (&[1, 3], "error 1..2 expected 2 found 3"),
        (&[], "error 0..0 expected 1 found end"),
        (&[1], "error 1..1 expected 2 found end"),
        (&[1, 2], "ok [1, 2]"),
    ];
    assert_answers(&rt, &one_and_two, &rows);
}

#[test]
fn a_sequence_of_ones_own_is_taken(rt: HostRuntime) {
    let letters = quote_and_accent(rt.alloc(), &rt);
    let rows = [
        ("\"é", "ok \"\\\"é\""),
        ("\"e", "error 1..2 expected 'é' found 'e'"),
    ];
    assert_answers(&rt, &just::<_, _, Own>(letters), &rows);
    let members = seven_and_five(rt.alloc(), &rt);
    let rows: [(&[u8], &str); 2] = [
        (&[7, 5], "ok [7, 5]"),
        (&[7, 7], "error 1..2 expected 5 found 7"),
    ];
    assert_answers(&rt, &just::<_, _, Own>(members), &rows);
}

#[test]
fn a_slice_is_a_sequence(rt: HostRuntime) {
    let members: &[u8] = &[7, 5];
    let rows: [(&[u8], &str); 2] = [
        (&[7, 5], "ok [7, 5]"),
        (&[7], "error 1..1 expected 5 found end"),
    ];
    assert_answers(&rt, &just::<_, _, Own>(members), &rows);
    let rows: [(&[u8], &str); 2] = [(&[5], "ok 5"), (&[6], "error 0..1 expected 7, 5 found 6")];
    assert_answers(&rt, &one_of::<_, _, Own>(members), &rows);
}

#[test]
fn a_set_of_characters_has_those_of_its_text(rt: HostRuntime) {
    let letters = chars_of("@\u{7f}é\0@");
    let rows = [
        ("@", "ok '@'"),
        ("\u{7f}", "ok '\\u{7f}'"),
        ("\0", "ok '\\0'"),
        ("é", "ok 'é'"),
        (
            "A",
            "error 0..1 expected '@', '\\u{7f}', 'é', '\\0' found 'A'",
        ),
        (
            "è",
            "error 0..2 expected '@', '\\u{7f}', 'é', '\\0' found 'è'",
        ),
    ];
    assert_answers(&rt, &one_of::<_, _, Own>(letters), &rows);
    let rows = [
        ("A", "ok 'A'"),
        ("è", "ok 'è'"),
        ("é", "error 0..2 expected something else found 'é'"),
        ("\0", "error 0..1 expected something else found '\\0'"),
    ];
    assert_answers(&rt, &none_of::<_, _, Own>(letters), &rows);
}

#[test]
fn a_set_of_characters_has_a_character_where_its_text_has_it(rt: HostRuntime) {
    let text = "ab~\t éA/:?@[";
    let letters = chars_of(text);
    for character in '\0'..='\u{120}' {
        let in_text = text.chars().any(|member| member == character);
        assert_eq!(rt; letters.contains(&character), in_text);
    }
}

#[test]
fn a_rich_error_names_a_repeated_member_once(rt: HostRuntime) {
    // `a` and `á` share a bucket, since 225 is 97 and 128, and so do `é` and `i`.
    let members = one_of::<_, &str, RichText>("aáaéiáéi");
    let errors = members.parse(rt.alloc(), "x").expect(&rt, "out of memory").into_errors();
    let mut letters = String::new(rt.alloc());
    for pattern in errors.as_slice()[0].expected() {
        if let RichPattern::Token(letter) = pattern {
            letters.push(*letter).expect(&rt, "out of memory");
        }
    }
    assert_eq!(rt; letters.as_str(), "aáéi");
}
