//! Folds and mapped items whose closures are shown the run: spans, refusals, and states that they write.
use answers::asserts::{assert_answers, assert_answers_from};
use answers::extras::{Own, Tallied};
use answers::leaves::just_char;
use chumsky::prelude::*;
use extending::states::Tally;
use std::alloc::Global;

/// From the left each span begins where the whole began, and ends with the item.
#[test]
fn a_fold_from_the_left_is_shown_all_that_was_taken(rt: HostRuntime) {
    let spans = just_char('a').to((9, 9)).foldl_with(
        just_char('b').separated_by(just_char(',')).allow_leading(),
        |_, _, extra| {
            let span = extra.span();
            (span.start, span.end)
        },
    );
    let rows = [
        ("xabb", "error 3..4 expected ',', end of input found 'b'"),
        ("xab", "ok (1, 3)"),
        ("xa,b,b", "ok (1, 6)"),
        ("xa", "ok (9, 9)"),
        ("xb", "error 1..2 expected 'a' found 'b'"),
    ];
    assert_answers(&rt, &just_char('x').ignore_then(spans), &rows);
}

/// From the right each span begins before the item, or before its separator, and ends with the parser after them.
#[test]
fn a_fold_from_the_right_is_shown_what_follows_an_item(rt: HostRuntime) {
    let spans = just_char('a')
        .separated_by(just_char(','))
        .foldr_with(just_char('b').to(0usize), |_, digits, extra| {
            let span = extra.span();
            let digits = digits.wrapping_mul(10).wrapping_add(span.start);
            digits.wrapping_mul(10).wrapping_add(span.end)
        });
    let rows = [
        ("ab", "ok 2"),
        ("a,a,ab", "ok 361606"),
        ("b", "ok 0"),
        ("a,", "error 2..2 expected 'a' found end"),
        ("ac", "error 1..2 expected ',', 'b' found 'c'"),
    ];
    assert_answers(&rt, &spans, &rows);
}

/// A digit, as what it counts.
macro_rules! digit {
    () => {
        one_of::<_, &str, Own>('0'..='9').map(|c: char| (c as usize).wrapping_sub(48))
    };
}

#[test]
fn folds_are_shown_where_each_step_lies(rt: HostRuntime) {
    let ends = digit!().foldl_with(just('+').ignore_then(digit!()).repeated(), |ends, _, e| {
        ends.wrapping_mul(10).wrapping_add(e.span().end)
    });
    assert_answers(&rt, &ends, &[("1+2+3", "ok 135")]);
    let starts = just_char('-')
        .repeated()
        .foldr_with(digit!(), |_, starts, e| {
            starts.wrapping_mul(10).wrapping_add(e.span().start)
        });
    assert_answers(&rt, &starts, &[("--7", "ok 710")]);
}

/// An error that says `zero`.
fn zero(alloc: Global, span: SimpleSpan) -> Rich<char> {
    match Rich::custom_in(alloc, span, "zero") {
        Ok(error) => error,
        Err(_) => Rich::custom(span, String::new(alloc)),
    }
}

/// A number of digits, of which one that is 0 is refused.
#[test]
fn a_refused_item_fails_where_its_step_began(rt: HostRuntime) {
    let value = |digit: char| (digit as u64).wrapping_sub('0' as u64);
    let number = one_of::<_, &str, Own>('0'..='9').map(value).try_foldl(
        one_of('0'..='9').map(value).repeated(),
        |number: u64, digit, extra| {
            if digit == 0 {
                return Err(zero(extra.alloc(), extra.span()));
            }
            Ok(number.wrapping_mul(10).wrapping_add(digit))
        },
    );
    let rows = [
        ("47", "ok 47"),
        ("0", "ok 0"),
        ("407", "error 0..2 \"zero\""),
        ("4107", "error 0..3 \"zero\""),
        ("00a", "error 0..2 \"zero\""),
        (
            "x",
            "error 0..1 expected '0', '1', '2', '3', '4', '5', '6', '7', '8', '9' found 'x'",
        ),
    ];
    assert_answers(&rt, &number, &rows);
}

#[test]
fn a_sum_that_is_too_large_is_refused(rt: HostRuntime) {
    let alloc = rt.alloc();
    let others = just('+').ignore_then(digit!()).repeated();
    let sum = digit!().try_foldl(others, |sum, n, e| {
        let sum = sum.wrapping_add(n);
        if sum < 10 {
            Ok(sum)
        } else {
            Err(zero(alloc, e.span()))
        }
    });
    let rows = [("1+2", "ok 3"), ("7+8", "error 0..3 \"zero\"")];
    assert_answers(&rt, &sum, &rows);
}

/// The error of a refusal is no further than the failure of another alternative that took more.
#[test]
fn a_refusal_is_nearer_than_what_another_alternative_took(rt: HostRuntime) {
    let refusing = just_char('a').try_foldl(
        just_char('b').repeated(),
        |_, _, extra| Err(Rich::custom(extra.span(), String::new(extra.alloc()))),
    );
    let other = just_char('a')
        .then_ignore(just_char('b'))
        .then_ignore(just_char('c'));
    let rows = [
        ("a", "ok 'a'"),
        ("abc", "ok 'a'"),
        ("abd", "error 2..3 expected 'c' found 'd'"),
        ("ad", "error 1..2 expected 'b', end of input found 'd'"),
    ];
    assert_answers(&rt, &refusing.or(other), &rows);
}

/// Where no output is wanted, the folder is not called and so writes nothing. The item that fails at last is gone back from,
/// with the state that was written before it.
#[test]
fn what_folders_write_to_the_state_stands(rt: HostRuntime) {
    let adding = just::<_, &str, Tallied>('a').foldl_with(
        just('b').repeated(),
        |first, _, extra| {
            let tally = extra.state();
            tally.count = tally.count.saturating_add(1);
            first
        },
    );
    let rows = [
        (
            "abb",
            "ok 'a'; state Tally { count: 7 }, by check Tally { count: 5 }",
        ),
        ("a", "ok 'a'; state Tally { count: 5 }"),
    ];
    assert_answers_from(&rt, &adding, Tally { count: 5 }, &rows);
    let adding = just::<_, &str, Tallied>('a')
        .repeated()
        .foldr_with(just('b'), |_, last, extra| {
            let tally = extra.state();
            tally.count = tally.count.saturating_add(1);
            last
        });
    let rows = [(
        "aab",
        "ok 'b'; state Tally { count: 7 }, by check Tally { count: 5 }",
    )];
    assert_answers_from(&rt, &adding, Tally { count: 5 }, &rows);
}

/// A folder that may refuse is called in both paths, and nothing goes back from its refusal.
#[test]
fn what_a_refusing_folder_writes_stands_in_both_paths(rt: HostRuntime) {
    let adding = just::<_, &str, Tallied>('a').try_foldl(any().repeated(), |first, item, extra| {
        let tally = extra.state();
        tally.count = tally.count.saturating_add(1);
        if item == 'b' {
            Ok(first)
        } else {
            Err(EmptyErr::default())
        }
    });
    let rows = [
        ("abb", "ok 'a'; state Tally { count: 7 }"),
        ("abcb", "error; state Tally { count: 7 }"),
    ];
    assert_answers_from(&rt, &adding, Tally { count: 5 }, &rows);
}

/// Items that end where they began, without a cap.
#[test]
fn folds_that_are_shown_the_run_ask_for_progress(rt: HostRuntime) {
    let rows = [("a+b+c", "refused NoProgress"), ("", "refused NoProgress")];
    let items = empty::<&str, Own>().to(()).repeated();
    let fold = empty().to(0u8).foldl_with(items, |count, _, _| count);
    assert_answers(&rt, &fold, &rows);
    let items = empty::<&str, Own>().to(()).repeated();
    let fold = items.foldr_with(empty().to(0u8), |_, count, _| count);
    assert_answers(&rt, &fold, &rows);
    let items = empty::<&str, Own>().to(()).repeated();
    let fold = empty().to(0u8).try_foldl(items, |count, _, _| Ok(count));
    assert_answers(&rt, &fold, &rows);
}

/// A step of a list with separators begins before the separator.
#[test]
fn mappers_of_items_are_shown_what_each_step_took(rt: HostRuntime) {
    let spans = one_of::<_, &str, Own>("ab")
        .separated_by(just_char(','))
        .map_items_with(|item, extra| {
            let span = extra.span();
            (item, span.start, span.end)
        })
        .collect::<Vec<_>>();
    let rows = [
        ("xa,b,a", "ok [('a', 1, 2), ('b', 2, 4), ('a', 4, 6)]"),
        ("x", "ok []"),
        ("xa;", "error 2..3 expected ',', end of input found ';'"),
    ];
    assert_answers(&rt, &just_char('x').ignore_then(spans), &rows);
}
