//! Parsers that judge what another answers.
use answers::asserts::{assert_answers, assert_answers_from};
use answers::extras::{Merging, Own};
use answers::leaves::{any_char, just_char, just_text};
use chumsky::prelude::*;
use extending::states::Kept;
use std::alloc::{AllocError, Global};

#[test]
fn not_succeeds_where_its_part_fails_and_takes_nothing(rt: HostRuntime) {
    let not_a = just_char('a').not().ignore_then(any_char());
    let rows = [
        ("b", "ok 'b'"),
        ("a", "error 0..1 expected something else found 'a'"),
        ("", "error 0..0 expected any found end"),
    ];
    assert_answers(&rt, &not_a, &rows);
    let nothing = any_char().not();
    let rows = [
        ("b", "error 0..1 expected something else found 'b'"),
        ("", "ok ()"),
    ];
    assert_answers(&rt, &nothing, &rows);
}

#[test]
fn what_is_looked_at_is_not_taken(rt: HostRuntime) {
    let rows = [
        ("b", "ok ((), 'b')"),
        ("a", "error 0..1 expected something else found 'a'"),
    ];
    assert_answers(&rt, &just_char('a').not().then(any_char()), &rows);
    let rows = [
        ("a", "ok 'a'"),
        ("x", "error 0..1 expected something else found 'x'"),
    ];
    assert_answers(&rt, &any_char().and_is(just_char('x').not()), &rows);
    let twice = just_char('a').rewind().then(any_char());
    assert_answers(&rt, &twice, &[("a", "ok ('a', 'a')")]);
}

#[test]
fn not_spans_what_its_part_took(rt: HostRuntime) {
    let not_ab = just_text("ab").not().ignore_then(any_char());
    let rows = [
        ("ab", "error 0..2 expected something else found 'a'"),
        ("ac", "error 1..2 expected end of input found 'c'"),
    ];
    assert_answers(&rt, &not_ab, &rows);
}

#[test]
fn filter_takes_what_passes(rt: HostRuntime) {
    let low = any_char().filter(|c| *c < 'm');
    let rows = [
        ("a", "ok 'a'"),
        ("z", "error 0..1 expected something else found 'z'"),
        ("", "error 0..0 expected any found end"),
    ];
    assert_answers(&rt, &low, &rows);
}

#[test]
fn a_filter_that_refuses_stands_at_its_start(rt: HostRuntime) {
    let alike = any_char()
        .then(any_char())
        .filter(|pair| pair.0 == pair.1)
        .or(just_char('x').then(just_char('y')));
    let rows = [
        ("aa", "ok ('a', 'a')"),
        ("ab", "error 0..2 expected something else, 'x' found 'a'"),
        ("xz", "error 1..2 expected 'y' found 'z'"),
    ];
    assert_answers(&rt, &alike, &rows);
}

#[test]
fn filter_map_picks(rt: HostRuntime) {
    let digit = any_char().filter_map(|c| c.to_digit(10));
    let rows = [
        ("3", "ok 3"),
        ("7", "ok 7"),
        ("x", "error 0..1 expected something else found 'x'"),
    ];
    assert_answers(&rt, &digit, &rows);
}

/// A digit, as what it counts.
macro_rules! digit {
    () => {
        one_of::<_, &str, Own>('0'..='9').map(|c: char| (c as usize).wrapping_sub(48))
    };
}

/// An error that says `no`.
fn no(alloc: Global, span: SimpleSpan) -> Rich<char> {
    match Rich::custom_in(alloc, span, "no") {
        Ok(error) => error,
        Err(_) => Rich::custom(span, String::new(alloc)),
    }
}

#[test]
fn a_digit_is_refused_or_doubted(rt: HostRuntime) {
    let alloc = rt.alloc();
    let small = digit!().try_map(|n, span| if n < 5 { Ok(n) } else { Err(no(alloc, span)) });
    assert_answers(&rt, &small, &[("3", "ok 3"), ("7", "error 0..1 \"no\"")]);
    let small = digit!().try_map_with(|n, e| if n < 5 {
        Ok(n)
    } else {
        Err(no(alloc, e.span()))
    });
    assert_answers(&rt, &small, &[("3", "ok 3"), ("7", "error 0..1 \"no\"")]);
    let doubted = digit!().validate(|n, e, emitter| {
        if n > 4 {
            emitter.emit(no(alloc, e.span()));
        }
        n
    });
    let rows = [("3", "ok 3"), ("7", "ok 7; error 0..1 \"no\"")];
    assert_answers(&rt, &doubted, &rows);
}

#[test]
fn try_map_refuses_with_the_error_of_its_closure(rt: HostRuntime) {
    let alloc = rt.alloc();
    let even = any_char().try_map(move |c, span| match c.to_digit(10) {
        Some(digit) if digit % 2 == 0 => Ok(digit),
        _ => Err(Rich::custom(span, String::new(alloc))),
    });
    let rows = [
        ("4", "ok 4"),
        ("5", "error 0..1 \"\""),
        ("", "error 0..0 expected any found end"),
    ];
    assert_answers(&rt, &even, &rows);
}

#[test]
fn an_error_of_try_map_stands_at_its_start(rt: HostRuntime) {
    let alloc = rt.alloc();
    let same = any_char().then(any_char()).try_map(move |(one, two), span| {
        if one == two {
            return Ok(one);
        }
        Err(Rich::custom(span, String::new(alloc)))
    });
    let same_or_xy = same.or(just_char('x').ignore_then(just_char('y')));
    let rows = [
        ("aa", "ok 'a'"),
        ("ab", "error 0..2 \"\""),
        ("xz", "error 1..2 expected 'y' found 'z'"),
    ];
    assert_answers(&rt, &same_or_xy, &rows);
}

#[test]
fn try_map_in_refuses_with_a_message(rt: HostRuntime) {
    let small = digit!().try_map_in(|n, span, alloc| {
        if n < 5 {
            return Ok(Ok(n));
        }
        Ok(Err(Rich::custom_in(alloc, span, "no")?))
    });
    let rows = [("3", "ok 3"), ("7", "error 0..1 \"no\"")];
    assert_answers(&rt, &small, &rows);
    let same = any_char().then(any_char()).try_map_in(|(one, two), span, alloc| {
        if one == two {
            return Ok(Ok(one));
        }
        let message = format_args!("{one} and {two}");
        Ok(Err(Rich::custom_in(alloc, span, message)?))
    });
    let same_or_xy = same.or(just_char('x').ignore_then(just_char('y')));
    let rows = [
        ("aa", "ok 'a'"),
        ("éa", "error 0..3 \"é and a\""),
        ("xy", "ok 'y'"),
        ("xz", "error 1..2 expected 'y' found 'z'"),
        ("a", "error 1..1 expected any found end"),
    ];
    assert_answers(&rt, &same_or_xy, &rows);
}

/// The mapper is called where no output is wanted too, since it may refuse.
#[test]
fn a_try_map_in_without_memory_refuses_the_run(rt: HostRuntime) {
    let refused = just_char('a')
        .try_map_in(|_, _, _| Err::<Result<char, Rich<char>>, AllocError>(AllocError))
        .or(just_char('b'));
    let rows = [
        ("a", "refused Memory"),
        ("b", "ok 'b'"),
        ("c", "error 0..1 expected 'a', 'b' found 'c'"),
    ];
    assert_answers(&rt, &refused, &rows);
}

#[test]
fn what_a_part_that_passes_expected_is_merged(rt: HostRuntime) {
    let perhaps_a = just_char('a').or_not().filter(|_| true);
    let then_c = perhaps_a.ignore_then(just_char('c'));
    let rows = [
        ("ac", "ok 'c'"),
        ("c", "ok 'c'"),
        ("b", "error 0..1 expected 'a', 'c' found 'b'"),
    ];
    assert_answers(&rt, &then_c, &rows);
    let refused = just_char('a').or_not().filter(|_| false);
    let or_c = refused.ignore_then(just_char('a')).or(just_char('c'));
    let rows = [
        ("c", "ok 'c'"),
        ("b", "error 0..0 expected something else, 'c' found 'b'"),
    ];
    assert_answers(&rt, &or_c, &rows);
}

#[test]
fn and_is_wants_both_and_stands_where_the_first_ended(rt: HostRuntime) {
    let a_not_before_b = any_char().and_is(just_text("ab").not()).then(any_char());
    let rows = [
        ("ac", "ok ('a', 'c')"),
        ("bb", "ok ('b', 'b')"),
        ("ab", "error 0..2 expected something else found 'a'"),
    ];
    assert_answers(&rt, &a_not_before_b, &rows);
    let longer = just_char('a').and_is(just_text("ab")).then(any_char());
    let rows = [
        ("ab", "ok ('a', 'b')"),
        ("ac", "error 1..2 expected 'b' found 'c'"),
        ("b", "error 0..1 expected 'a' found 'b'"),
    ];
    assert_answers(&rt, &longer, &rows);
}

#[test]
fn rewind_takes_nothing(rt: HostRuntime) {
    let seen = just_text("ab")
        .rewind()
        .then(any_char())
        .then_ignore(any_char());
    let rows = [
        ("ab", "ok (\"ab\", 'a')"),
        ("ac", "error 1..2 expected 'b' found 'c'"),
        ("abc", "error 2..3 expected end of input found 'c'"),
    ];
    assert_answers(&rt, &seen, &rows);
}

#[test]
fn rewind_forgets_failures_past_its_start(rt: HostRuntime) {
    let perhaps = just_char('a').then(just_char('b').or_not()).rewind();
    let rows = [
        ("ac", "error 0..1 expected 'x' found 'a'"),
        ("x", "error 0..1 expected 'a' found 'x'"),
    ];
    assert_answers(&rt, &perhaps.then(just_char('x')), &rows);
}

#[test]
fn an_error_is_mapped(rt: HostRuntime) {
    let alloc = rt.alloc();
    let mapped = just_char('a').map_err(|error: Rich<char>| no(alloc, *error.span()));
    assert_answers(&rt, &mapped, &[("b", "error 0..1 \"no\"")]);
    let mapped = just_char('a').map_err_with_state(|_, span, _| no(alloc, span));
    assert_answers(&rt, &mapped, &[("b", "error 0..0 \"no\"")]);
    let mapped = just_char('a').map_err_with(|_, extra| no(alloc, extra.span()));
    assert_answers(&rt, &mapped, &[("b", "error 0..0 \"no\"")]);
}

#[test]
fn map_err_maps_the_error_that_is_reported(rt: HostRuntime) {
    let alloc = rt.alloc();
    let mapped = just_text("ab").map_err(move |error: Rich<char>| {
        Rich::custom(*error.span(), String::new(alloc))
    });
    let rows = [
        ("ab", "ok \"ab\""),
        ("ac", "error 1..2 \"\""),
        ("abc", "error 2..3 expected end of input found 'c'"),
    ];
    assert_answers(&rt, &mapped, &rows);
}

#[test]
fn map_err_leaves_older_errors_as_they_are(rt: HostRuntime) {
    let alloc = rt.alloc();
    let mapped = just_char('x').map_err(move |error: Rich<char>| {
        Rich::custom(*error.span(), String::new(alloc))
    });
    let rows = [("ac", "error 1..2 expected 'b' found 'c'"), ("x", "ok 'x'")];
    assert_answers(
        &rt,
        &just_char('a').ignore_then(just_char('b')).or(mapped),
        &rows,
    );
}

#[test]
fn map_err_with_state_is_handed_the_state_to_write(rt: HostRuntime) {
    let alloc = rt.alloc();
    let mapped = any::<&str, extra::Full<Rich<char>, Kept, ()>>()
        .and_is(just("xy"))
        .map_err_with_state(move |_, span, state: &mut Kept| {
            state.count = state.count.saturating_add(1);
            Rich::custom(span, String::new(alloc))
        });
    let rows = [
        ("xz", "error 0..1 \"\"; state Kept { count: 8 }"),
        (
            "xy",
            "error 1..2 expected end of input found 'y'; state Kept { count: 7 }",
        ),
    ];
    assert_answers_from(&rt, &mapped, Kept { count: 7 }, &rows);
}

/// The validator counts that it was called. It is refused memory where it asks for too much.
#[test]
fn a_validator_without_memory_refuses_the_run_once_it_has_returned(rt: HostRuntime) {
    let emitting = any::<&str, extra::State<Kept>>().validate(|c, extra, emitter| {
        emitter.emit(EmptyErr);
        if c == 'x' && emitter.errors.reserve(usize::MAX).is_err() {
            emitter.refused = true;
        }
        let state = extra.state();
        state.count = state.count.saturating_add(1);
        c
    });
    let rows = [
        ("ab", "ok ('a', 'b'); error; error; state Kept { count: 2 }"),
        ("axc", "refused Memory; state Kept { count: 2 }"),
    ];
    assert_answers_from(&rt, &(&emitting).then(&emitting), Kept { count: 0 }, &rows);
}

#[test]
fn what_the_last_alternative_emits_stays(rt: HostRuntime) {
    let emitting = any_char().validate(|c, extra, emitter| {
        emitter.emit(Rich::custom(extra.span(), String::new(extra.alloc())));
        c
    });
    let ab_or_ac = choice((
        just_char('a').then(just_char('b')),
        emitting.then(just_char('c')),
    ));
    let rows = [(
        "aa",
        "error 0..1 \"\"; error 1..2 expected 'b', 'c' found 'a'",
    )];
    assert_answers(&rt, &ab_or_ac, &rows);
}

#[test]
fn what_an_earlier_alternative_emitted_is_gone(rt: HostRuntime) {
    let emitting = any_char().validate(|c, extra, emitter| {
        emitter.emit(Rich::custom(extra.span(), String::new(extra.alloc())));
        c
    });
    let ac_or_ab = choice((
        emitting.then(just_char('c')),
        just_char('a').then(just_char('b')),
    ));
    let rows = [("aa", "error 1..2 expected 'c', 'b' found 'a'")];
    assert_answers(&rt, &ac_or_ab, &rows);
}

#[test]
fn the_failures_of_a_filtered_part_count_as_one(rt: HostRuntime) {
    let three = group((
        just::<_, _, Merging>('a').or_not(),
        choice((just('b'), just('c'))).filter(|_| true).or_not(),
        just('d'),
    ));
    let rows = [
        ("", "error ((a (b c)) d)"),
        ("cd", "ok (None, Some('c'), 'd')"),
    ];
    assert_answers(&rt, &three, &rows);
}

#[test]
fn the_failure_of_a_filter_is_merged_in_its_order(rt: HostRuntime) {
    let three = group((
        just_text("a").or_not(),
        just_text("b").filter(|_| false).or_not(),
        just_text("c"),
    ));
    let rows = [(
        "b",
        "error 0..1 expected 'a', something else, 'c' found 'b'",
    )];
    assert_answers(&rt, &three, &rows);
}

#[test]
fn a_try_map_that_refuses_drops_the_failures_of_its_part(rt: HostRuntime) {
    let alloc = rt.alloc();
    let refusing = choice((just::<_, &str, Own>("something").ignored(), empty())).try_map(
        move |_, span| Err::<(), _>(Rich::custom(span, String::new(alloc))),
    );
    assert_answers(&rt, &refusing, &[("test", "error 0..0 \"\"")]);
    let refusing = choice((just::<_, &str, Own>("something").ignored(), empty())).try_map_in(
        |(), span, alloc| Ok(Err::<(), _>(Rich::custom_in(alloc, span, "no")?)),
    );
    assert_answers(&rt, &refusing, &[("test", "error 0..0 \"no\"")]);
}

#[test]
fn what_was_rewound_is_not_reported(rt: HostRuntime) {
    let ahead = group((just_text("a"), any_char(), just_text("b").or_not())).rewind();
    let rows = [("ad", "error 1..2 expected 'c' found 'd'")];
    assert_answers(&rt, &ahead.then(just_text("ac")), &rows);
}

#[test]
fn unwrapped_gives_what_is_in_it(rt: HostRuntime) {
    let of_some = just_char('a').map(Some).unwrapped();
    let of_ok = just_char('b').map(Ok::<char, ()>).unwrapped();
    let rows = [
        ("ab", "ok ('a', 'b')"),
        ("b", "error 0..1 expected 'a' found 'b'"),
        ("ac", "error 1..2 expected 'b' found 'c'"),
    ];
    assert_answers(&rt, &of_some.then(of_ok), &rows);
}
