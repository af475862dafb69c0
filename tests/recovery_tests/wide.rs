//! Many bad statements in one text: each takes as long as in a short one. A run that looked at what it emitted before, or at
//! the rest of the text, for each of them, would take minutes.
use answers::extras::Own;
use answers::leaves::{any_char, just_char};
use chumsky::prelude::*;
use examples::statements::parse_statements;
use std::alloc::{AllocError, AllocGlobal, Global};
use std::process::Abort;

const MANY: usize = 100_000;

/// A text so often.
fn times(alloc: Global, text: &str, count: usize) -> Result<String, AllocError> {
    let mut all = String::new(alloc);
    for _ in 0..count {
        all.push_str(text)?;
    }
    Ok(all)
}

/// Asserts that a parser takes a text, repeated, as so many statements, with an error for each.
fn assert_many<'src, P, R>(rt: &R, statement: P, text: &'src str)
where
    P: IsParser<&'src str, char, Own> + Parser<'src, &'src str, char, Own> + Drop,
    R: Abort + AllocGlobal,
{
    let parsed = statement
        .repeated()
        .count()
        .parse(rt.alloc(), text)
        .expect(rt, "a refusal");
    assert_eq!(rt; parsed.errors.len(), MANY);
    assert_eq!(rt; parsed.output, Some(MANY));
}

#[test]
fn a_hundred_thousand_statements_are_skipped_to_their_ends(rt: HostRuntime) {
    let text = times(rt.alloc(), "12;", MANY).expect(&rt, "memory");
    let to_its_end = skip_until(any_char().ignored(), just_char(';').ignored(), || 'z');
    assert_many(&rt, just_char('a').recover_with(to_its_end), text.as_str());
}

#[test]
fn a_hundred_thousand_statements_are_tried_again(rt: HostRuntime) {
    let text = times(rt.alloc(), "12a", MANY).expect(&rt, "memory");
    let again = skip_then_retry_until(any_char().ignored(), just_char(';').ignored());
    assert_many(&rt, just_char('a').recover_with(again), text.as_str());
}

#[test]
fn a_hundred_thousand_brackets_are_taken_whole(rt: HostRuntime) {
    let text = times(rt.alloc(), "[()]", MANY).expect(&rt, "memory");
    let nested = nested_delimiters('[', ']', [('(', ')')], |_: SimpleSpan| 'z');
    assert_many(&rt, just_char('a').recover_with(via_parser(nested)), text.as_str());
}

#[test]
fn delimiters_nest_a_hundred_thousand_deep(rt: HostRuntime) {
    let mut text = times(rt.alloc(), "[", MANY).expect(&rt, "memory");
    let closing = times(rt.alloc(), "]", MANY).expect(&rt, "memory");
    text.push_str(closing.as_str()).expect(&rt, "memory");
    let nested = nested_delimiters::<_, 0, _, _, _, Own>('[', ']', [], |span: SimpleSpan| span.end);
    let parsed = nested.parse(rt.alloc(), text.as_str()).expect(&rt, "a refusal");
    assert_eq!(rt; parsed.output, Some(2 * MANY));
}

#[test]
fn ten_thousand_statements_of_a_language_are_reported(rt: HostRuntime) {
    let text = times(rt.alloc(), "let;print x;", 10_000).expect(&rt, "memory");
    let parsed = parse_statements(rt.alloc(), text.as_str()).expect(&rt, "a refusal");
    assert_eq!(rt; parsed.errors.len(), 10_000);
    assert_eq!(rt; parsed.output().map(|statements| statements.len()), Some(10_000));
}
