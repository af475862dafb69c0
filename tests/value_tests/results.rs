//! What can be asked of a result.
use chumsky::extra::RichText;
use chumsky::prelude::*;
use std::alloc::Global;
use std::cmp::Ordering;
use std::hash::{DefaultHasher, Hash, Hasher};
use std::process::Abort;

/// A result with these errors.
fn with_errors(
    alloc: Global,
    rt: &impl Abort,
    output: Option<char>,
    errors: &[u8],
) -> ParseResult<char, u8> {
    let mut all = Vec::new(alloc);
    for error in errors {
        all.push(*error).ok().expect(rt, "no memory for an error");
    }
    ParseResult {
        output,
        errors: all,
    }
}

#[test]
fn a_result_says_what_it_has(rt: HostRuntime) {
    let right = with_errors(rt.alloc(), &rt, Some('a'), &[]);
    assert!(rt; right.has_output() && !right.has_errors());
    let wrong = with_errors(rt.alloc(), &rt, None, &[1, 2]);
    assert!(rt; !wrong.has_output() && wrong.has_errors());
    let mended = with_errors(rt.alloc(), &rt, Some('a'), &[1]);
    assert!(rt; mended.has_output() && mended.has_errors());
}

#[test]
fn a_result_gives_its_parts(rt: HostRuntime) {
    assert!(rt; with_errors(rt.alloc(), &rt, Some('a'), &[1]).into_output() == Some('a'));
    assert!(rt;
        with_errors(rt.alloc(), &rt, None, &[1])
            .into_output()
            .is_none()
    );
    let errors = with_errors(rt.alloc(), &rt, Some('a'), &[1, 2]).into_errors();
    assert!(rt; errors.as_slice() == [1u8, 2].as_slice());
    assert!(rt;
        with_errors(rt.alloc(), &rt, Some('a'), &[])
            .into_errors()
            .is_empty()
    );
}

#[test]
fn an_output_beside_errors_is_dropped(rt: HostRuntime) {
    assert!(rt;
        with_errors(rt.alloc(), &rt, Some('a'), &[])
            .into_result()
            .ok()
            == Some('a')
    );
    match with_errors(rt.alloc(), &rt, Some('a'), &[7]).into_result() {
        Ok(_) => assert!(rt; false),
        Err(errors) => assert!(rt; errors.as_slice() == [7u8].as_slice()),
    }
    match with_errors(rt.alloc(), &rt, None, &[]).into_result() {
        Ok(_) => assert!(rt; false),
        Err(errors) => assert!(rt; errors.is_empty()),
    }
}

/// The output of a run without errors, which may be unwrapped.
fn output_alone(parsed: ParseResult<char, u8>) -> Option<char> {
    if parsed.has_output() && !parsed.has_errors() {
        Some(parsed.unwrap())
    } else {
        None
    }
}

#[test]
fn an_output_alone_is_unwrapped(rt: HostRuntime) {
    assert!(rt; output_alone(with_errors(rt.alloc(), &rt, Some('a'), &[])) == Some('a'));
    assert!(rt; output_alone(with_errors(rt.alloc(), &rt, Some('a'), &[1])).is_none());
    assert!(rt; output_alone(with_errors(rt.alloc(), &rt, None, &[1])).is_none());
}

/// What a hasher answers that is fed a result.
fn hash_of(parsed: &ParseResult<char, u8>) -> u64 {
    let mut hasher = DefaultHasher::new();
    parsed.hash(&mut hasher);
    hasher.finish()
}

#[test]
fn equal_results_have_one_hash(rt: HostRuntime) {
    let one = with_errors(rt.alloc(), &rt, Some('a'), &[2]);
    let copy = one.clone().ok().expect(&rt, "no memory for a clone");
    assert!(rt; hash_of(&one) == hash_of(&copy));
    let other = with_errors(rt.alloc(), &rt, Some('b'), &[2]);
    let longer = with_errors(rt.alloc(), &rt, Some('a'), &[2, 0]);
    assert!(rt; hash_of(&one) != hash_of(&other));
    assert!(rt; hash_of(&one) != hash_of(&longer));
}

#[test]
fn results_are_in_order(rt: HostRuntime) {
    let one = with_errors(rt.alloc(), &rt, Some('a'), &[2]);
    let copy = one.clone().ok().expect(&rt, "no memory for a clone");
    let other = with_errors(rt.alloc(), &rt, Some('b'), &[1]);
    assert!(rt; one.cmp(&copy) == Ordering::Equal);
    assert!(rt; one.cmp(&other) == Ordering::Less);
    assert!(rt; other.cmp(&one) == Ordering::Greater);
}

#[test]
fn outputs_are_compared_before_errors(rt: HostRuntime) {
    let one = with_errors(rt.alloc(), &rt, Some('a'), &[2]);
    let other = with_errors(rt.alloc(), &rt, Some('b'), &[1]);
    let longer = with_errors(rt.alloc(), &rt, Some('a'), &[2, 0]);
    let none = with_errors(rt.alloc(), &rt, None, &[9]);
    assert!(rt; one < other && one < longer && none < one);
    let copy = one.clone().ok().expect(&rt, "no memory for a clone");
    assert!(rt; copy == one && one != longer);
}

#[test]
fn a_range_is_a_span(rt: HostRuntime) {
    assert!(rt; SimpleSpan::from(1..3) == SimpleSpan { start: 1, end: 3 });
}

#[test]
fn a_span_prints_as_a_range(rt: HostRuntime) {
    let span = SimpleSpan { start: 4, end: 15 };
    let printed = format!(in rt.alloc(); "{span} {span:?}").expect(&rt, "out of memory");
    assert_eq!(rt; printed.as_str(), "4..15 4..15");
}

#[test]
fn an_answer_is_expected_and_compared(rt: HostRuntime) {
    let parsed = just::<_, _, RichText>("abc")
        .parse(rt.alloc(), "abc")
        .expect(&rt, "refused");
    assert_eq!(rt; parsed.into_result(), Ok("abc"));
}
