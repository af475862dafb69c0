//! Errors that are built and merged, clones, failures, emitted errors: what runs stand on, without a parser.
use chumsky::error::RichPattern;
use chumsky::input::Emitter;
use chumsky::prelude::*;
use chumsky::util::{MaybeLabel, MaybeRef};
use chumsky::{DefaultExpected, Failure, SameClone, Stop};
use std::alloc::{AllocError, Global};

const FIRST: SimpleSpan = SimpleSpan { start: 1, end: 2 };

const SECOND: SimpleSpan = SimpleSpan { start: 3, end: 5 };

/// The error where an `x` was expected, over texts.
fn built<'s, E: Error<&'s str>>(
    alloc: Global,
    found: Option<char>,
    span: SimpleSpan,
) -> Result<E, AllocError> {
    let expected = Some(DefaultExpected::Token(MaybeRef::Val('x'))).into_iter();
    let found = match found {
        Some(token) => Some(MaybeRef::Val(token)),
        None => None,
    };
    E::expected_found(alloc, expected, found, span)
}

/// Whether a value's clone is made, and equals it.
fn equals_its_clone<T: SameClone + Drop>(value: &T) -> bool {
    match value.clone() {
        Ok(copy) => copy == *value,
        Err(_) => false,
    }
}

#[test]
fn the_first_of_two_small_errors_stays(rt: HostRuntime) {
    let one: Cheap = built(rt.alloc(), Some('c'), FIRST)
        .ok()
        .expect(&rt, "refused");
    let two: Cheap = built(rt.alloc(), None, SECOND).ok().expect(&rt, "refused");
    assert!(rt; *one.span() == FIRST);
    assert!(rt; one != two);
    let merged = Error::<&str>::merge(one, two).ok().expect(&rt, "refused");
    assert!(rt; *merged.span() == FIRST);
}

#[test]
fn a_simple_error_shows_what_was_found(rt: HostRuntime) {
    let one: Simple<char> = built(rt.alloc(), Some('c'), FIRST)
        .ok()
        .expect(&rt, "refused");
    let two: Simple<char> = built(rt.alloc(), None, FIRST).ok().expect(&rt, "refused");
    assert!(rt; one.found() == Some(&'c'));
    assert!(rt; two.found().is_none());
    assert!(rt; *two.span() == FIRST);
    assert!(rt; one != two);
    let merged = Error::<&str>::merge(one, two).ok().expect(&rt, "refused");
    assert!(rt; merged.found() == Some(&'c'));
    assert!(rt; merged.clone().ok().expect(&rt, "refused") == merged);
}

#[test]
fn errors_are_compared(rt: HostRuntime) {
    let one: Rich<char> = built(rt.alloc(), Some('c'), FIRST)
        .ok()
        .expect(&rt, "refused");
    let two: Rich<char> = built(rt.alloc(), None, FIRST).ok().expect(&rt, "refused");
    assert!(rt; one != two);
    let copy = one.clone().ok().expect(&rt, "refused");
    assert!(rt; copy == one);
    let expected = [RichPattern::Token('x')];
    assert!(rt; copy.expected().as_slice() == &expected[..]);
    assert!(rt; EmptyErr == EmptyErr::default());
}

#[test]
fn a_small_error_is_made_of_what_it_shows(rt: HostRuntime) {
    assert!(rt; *Cheap::new(SECOND).span() == SECOND);
    let one = Simple::new(Some('c'), FIRST);
    let two = Simple::<char>::new(None, SECOND);
    assert!(rt;
        one == built(rt.alloc(), Some('c'), FIRST)
            .ok()
            .expect(&rt, "refused")
    );
    assert!(rt; *two.span() == SECOND);
    assert!(rt; two.found().is_none());
}

/// How an error prints, once it has a label.
fn printed_with_label(alloc: Global, error: Rich<char>, label: &str) -> Result<String, AllocError> {
    let labelled = error.with_label(alloc, label)?;
    String::format(alloc, labelled)
}

#[test]
fn a_label_takes_the_place_of_what_was_expected(rt: HostRuntime) {
    let error: Rich<char> = built(rt.alloc(), Some('c'), FIRST)
        .ok()
        .expect(&rt, "refused");
    let label = String::from_str(rt.alloc(), "a month")
        .ok()
        .expect(&rt, "refused");
    let labelled = error
        .with_label(rt.alloc(), "a month")
        .ok()
        .expect(&rt, "refused");
    assert!(rt; *labelled.span() == FIRST);
    assert!(rt; labelled.found() == Some(&'c'));
    let expected = [RichPattern::Label(label)];
    assert!(rt; labelled.expected().as_slice() == &expected[..]);
    let printed = printed_with_label(rt.alloc(), labelled, "a day")
        .ok()
        .expect(&rt, "refused");
    assert_eq!(rt; printed.as_str(), "expected a day, found 'c'");
}

#[test]
fn a_label_takes_the_place_of_a_message(rt: HostRuntime) {
    let message = String::from_str(rt.alloc(), "no such day")
        .ok()
        .expect(&rt, "refused");
    let labelled = Rich::<char>::custom(SECOND, message)
        .with_label(rt.alloc(), "a day")
        .ok()
        .expect(&rt, "refused");
    assert!(rt; *labelled.span() == SECOND);
    assert!(rt; labelled.found().is_none());
    assert!(rt; labelled.reason().is_none());
}

/// How an error prints, where some labels were expected, and the end of input in between.
fn printed_expectation(alloc: Global) -> Result<String, AllocError> {
    let mut expected: Vec<MaybeLabel<'_, char>> = Vec::new(alloc);
    expected.push(MaybeLabel::Label("a month"))?;
    expected.push(MaybeLabel::Expected(DefaultExpected::EndOfInput))?;
    expected.push(MaybeLabel::Label("a month"))?;
    expected.push(MaybeLabel::Label("a day"))?;
    let error: Rich<char> = Error::<&str>::expected_found(
        alloc,
        expected.into_iter(),
        Some(MaybeRef::Val('c')),
        FIRST,
    )?;
    String::format(alloc, error)
}

#[test]
fn a_label_is_shown_once(rt: HostRuntime) {
    let printed = printed_expectation(rt.alloc()).ok().expect(&rt, "refused");
    assert_eq!(rt;
        printed.as_str(),
        "expected a month, end of input or a day, found 'c'"
    );
}

/// The expectation of a token that is lent, as one of its own.
fn owned_token(token: &char) -> Result<DefaultExpected<'static, char>, AllocError> {
    DefaultExpected::Token(MaybeRef::Ref(token)).into_owned()
}

/// Whether an expectation that names no token stays itself.
fn stays(expected: DefaultExpected<'static, char>) -> bool {
    let same: DefaultExpected<'static, char> = match expected.clone() {
        Ok(same) => same,
        Err(_) => return false,
    };
    let owned: DefaultExpected<'static, char> = match expected.into_owned() {
        Ok(owned) => owned,
        Err(_) => return false,
    };
    owned == same
}

#[test]
fn an_owned_expectation_says_the_same(rt: HostRuntime) {
    let owned = owned_token(&'a').ok().expect(&rt, "refused");
    assert!(rt; owned == DefaultExpected::Token(MaybeRef::Val('a')));
    assert!(rt; owned != DefaultExpected::Token(MaybeRef::Val('b')));
    assert!(rt; owned != DefaultExpected::Any);
    assert!(rt; stays(DefaultExpected::Any));
    assert!(rt; stays(DefaultExpected::SomethingElse));
    assert!(rt; stays(DefaultExpected::NothingElse));
    assert!(rt; stays(DefaultExpected::EndOfInput));
}

/// Whether a token that is lent equals one that is not.
fn lent_equals(token: &char, other: char) -> bool {
    MaybeRef::Ref(token) == MaybeRef::Val(other)
}

#[test]
fn a_token_is_equal_wherever_it_lies(rt: HostRuntime) {
    assert!(rt; lent_equals(&'a', 'a'));
    assert!(rt; !lent_equals(&'a', 'b'));
}

#[test]
fn values_equal_their_clones(rt: HostRuntime) {
    assert!(rt;
        equals_its_clone(&255u8) && equals_its_clone(&u16::MAX) && equals_its_clone(&u32::MAX)
    );
    assert!(rt;
        equals_its_clone(&u64::MAX) && equals_its_clone(&u128::MAX) && equals_its_clone(&usize::MAX)
    );
    assert!(rt;
        equals_its_clone(&-1i8) && equals_its_clone(&i16::MIN) && equals_its_clone(&i32::MIN)
    );
    assert!(rt;
        equals_its_clone(&i64::MIN) && equals_its_clone(&i128::MIN) && equals_its_clone(&isize::MIN)
    );
    assert!(rt; equals_its_clone(&true) && equals_its_clone(&'é') && equals_its_clone(&()));
    assert!(rt; equals_its_clone(&&7u8) && equals_its_clone(&"text"));
    let slice: &[u8] = &[1, 2];
    assert!(rt; equals_its_clone(&slice));
    let text = String::from_str(rt.alloc(), "text")
        .ok()
        .expect(&rt, "refused");
    assert!(rt; equals_its_clone(&text));
    let mut pairs = Vec::new(rt.alloc());
    pairs.push((1u8, text)).ok().expect(&rt, "refused");
    assert!(rt; equals_its_clone(&pairs));
}

/// Fails with a refused request for memory, by `?`.
fn refused_request() -> Result<(), Failure<char>> {
    Err(AllocError)?;
    Ok(())
}

/// Fails with a stop, by `?`.
fn stopped() -> Result<(), Failure<char>> {
    Err(Stop::TooDeep)?;
    Ok(())
}

#[test]
fn a_failure_is_an_error_or_a_stop(rt: HostRuntime) {
    assert!(rt; refused_request() == Err(Failure::Stop(Stop::Memory)));
    assert!(rt; stopped() == Err(Failure::Stop(Stop::TooDeep)));
    assert!(rt; Failure::Error('a') == Failure::Error('a'));
    assert!(rt; Failure::Error('a') != Failure::Error('b'));
}

#[test]
fn an_emitter_keeps_errors_in_order(rt: HostRuntime) {
    let mut emitter: Emitter<u8> = Emitter::new(rt.alloc());
    emitter.emit(3);
    emitter.emit(1);
    let errors = emitter.into_errors().ok().expect(&rt, "no memory");
    assert!(rt; errors.as_slice() == [3, 1].as_slice());
}

#[test]
fn a_refused_error_is_remembered(rt: HostRuntime) {
    let mut emitter: Emitter<u8> = Emitter::new(rt.alloc());
    emitter.refused = true;
    emitter.emit(3);
    assert!(rt; emitter.into_errors().is_err());
}

#[test]
fn spanned_values_compare_by_value_and_span(rt: HostRuntime) {
    let one = Spanned {
        inner: 'a',
        span: FIRST,
    };
    assert!(rt;
        one == Spanned {
            inner: 'a',
            span: FIRST
        }
    );
    assert!(rt;
        !(one
            == Spanned {
                inner: 'a',
                span: SECOND
            })
    );
    assert!(rt;
        !(one
            == Spanned {
                inner: 'b',
                span: FIRST
            })
    );
}

/// The error where each of some characters was expected.
fn all_expected(alloc: Global, tokens: &[char]) -> Result<Rich<char>, AllocError> {
    let mut expected = Vec::new(alloc);
    for token in tokens {
        expected.push(DefaultExpected::Token(MaybeRef::Val(*token)))?;
    }
    Error::<&str>::expected_found(alloc, expected.into_iter(), None, FIRST)
}

/// Whether an error expects these characters, in order.
fn expects_all(error: &Rich<char>, tokens: &[char]) -> bool {
    let patterns = error.expected().as_slice();
    if patterns.len() != tokens.len() {
        return false;
    }
    for place in 0..tokens.len() {
        if patterns[place] != RichPattern::Token(tokens[place]) {
            return false;
        }
    }
    true
}

/// So many characters past ASCII, of which every third stood there already.
fn many(alloc: Global, first: u32, count: u32) -> Result<Vec<char>, AllocError> {
    let mut all = Vec::new(alloc);
    for number in 0..count {
        let code = if number % 3 == 2 { first + number - 2 } else { first + number };
        all.push(char::from_u32(code).unwrap_or('?'))?;
    }
    Ok(all)
}

/// The first of each of these.
fn each_once(alloc: Global, tokens: &[char]) -> Result<Vec<char>, AllocError> {
    let mut once = Vec::new(alloc);
    for token in tokens {
        if !once.as_slice().contains(token) {
            once.push(*token)?;
        }
    }
    Ok(once)
}

#[test]
fn many_patterns_stand_once_in_the_order_of_their_arrival(rt: HostRuntime) {
    let alloc = rt.alloc();
    let one = many(alloc, 0x4e00, 600).ok().expect(&rt, "refused");
    let two = many(alloc, 0x4e00 + 300, 600).ok().expect(&rt, "refused");
    let first = all_expected(alloc, one.as_slice()).ok().expect(&rt, "refused");
    let second = all_expected(alloc, two.as_slice()).ok().expect(&rt, "refused");
    let once = each_once(alloc, one.as_slice()).ok().expect(&rt, "refused");
    assert!(rt; expects_all(&first, once.as_slice()));
    let merged = Error::<&str>::merge(first, second).ok().expect(&rt, "refused");
    let mut both = one;
    for token in two.as_slice() {
        both.push(*token).ok().expect(&rt, "refused");
    }
    let once = each_once(alloc, both.as_slice()).ok().expect(&rt, "refused");
    assert!(rt; expects_all(&merged, once.as_slice()));
}
