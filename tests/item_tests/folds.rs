//! One value of many items, folded from the left and from the right; and items with their numbers.
ghost use Rattle.std.specs.Prelude.{⊤};

use answers::asserts::assert_answers;
use answers::extras::Own;
use answers::leaves::{any_char, just_char};
use chumsky::combinator::{Folder, Mapper, RightFolder};
use chumsky::prelude::*;
use std::alloc::AllocError;

/// Makes a number of a digit.
#[derive(Clone, Copy)]
struct Value;

impl Mapper<char, u64> for Value {
    ghost gives = { λ _ _ _. ⊤ };

    fn apply(&self, digit: char) -> u64 {
        (digit as u64).wrapping_sub('0' as u64)
    }
}

/// The number with one more digit.
fn with_digit(number: u64, digit: u64) -> u64 {
    number.wrapping_mul(10).wrapping_add(digit)
}

#[test]
fn a_number_is_read_from_its_first_digit(rt: HostRuntime) {
    let first = one_of::<_, _, Own>("0123456789").map_by(Value);
    let others = one_of("0123456789").map_by(Value).repeated();
    let rows = [
        ("407", "ok 407"),
        ("4", "ok 4"),
        (
            "4a",
            "error 1..2 expected '0', '1', '2', '3', '4', '5', '6', '7', '8', '9', end of input found 'a'",
        ),
    ];
    assert_answers(&rt, &first.foldl(others, with_digit), &rows);
}

/// A digit, as what it counts.
macro_rules! digit {
    () => {
        one_of::<_, &str, Own>('0'..='9').map(|c: char| (c as usize).wrapping_sub(48))
    };
}

#[test]
fn items_are_folded(rt: HostRuntime) {
    let sum = digit!()
        .repeated()
        .fold(0usize, |sum, n| sum.wrapping_add(n));
    assert_answers(&rt, &sum, &[("123", "ok 6")]);
    let number = digit!().foldl(digit!().repeated(), |number, n| {
        number.wrapping_mul(10).wrapping_add(n)
    });
    assert_answers(&rt, &number, &[("123", "ok 123")]);
    let minuses = just_char('-')
        .repeated()
        .foldr(digit!(), |_, n| n.wrapping_add(10));
    assert_answers(&rt, &minuses, &[("--7", "ok 27")]);
}

#[test]
fn a_number_is_folded_from_a_value(rt: HostRuntime) {
    let digit = one_of::<_, _, Own>('0'..='9').map_by(Value);
    let rows = [("407", "ok 407"), ("0", "ok 0"), ("", "ok 0")];
    assert_answers(&rt, &digit.repeated().fold(0, with_digit), &rows);
}

#[test]
fn a_number_is_read_from_its_last_digit(rt: HostRuntime) {
    let digit = one_of::<_, _, Own>('0'..='9').map_by(Value);
    let number = digit
        .repeated()
        .foldr(empty().to(0), |digit, number| with_digit(number, digit));
    assert_answers(&rt, &number, &[("407", "ok 704"), ("", "ok 0")]);
}

/// It begins where the items ended.
#[test]
fn what_is_folded_into_comes_after_all_items(rt: HostRuntime) {
    let opened = just::<_, _, Own>('(')
        .repeated()
        .foldr(just('x').to(0u8), |_, depth| depth.wrapping_add(1));
    let rows = [
        ("((x", "ok 2"),
        ("x", "ok 0"),
        ("((", "error 2..2 expected '(', 'x' found end"),
        ("(xx", "error 2..3 expected end of input found 'x'"),
    ];
    assert_answers(&rt, &opened, &rows);
}

/// Whether an item lies before the one that it follows, and the last item.
#[derive(Clone, Copy)]
struct Falls;

impl Folder<(bool, char), char> for Falls {
    ghost gives = { λ _ _ _ _. ⊤ };

    fn step(&self, accumulator: (bool, char), item: char) -> (bool, char) {
        let (falls, before) = accumulator;
        (falls || item < before, item)
    }
}

#[test]
fn a_type_of_ones_own_folds_from_the_left(rt: HostRuntime) {
    let letters = any_char().repeated().fold_by((false, 'a'), Falls);
    let rows = [
        ("abc", "ok (false, 'c')"),
        ("acb", "ok (true, 'b')"),
        ("", "ok (false, 'a')"),
    ];
    assert_answers(&rt, &letters, &rows);
}

#[test]
fn a_type_of_ones_own_folds_from_an_output(rt: HostRuntime) {
    let letters = just_char('k')
        .to((false, 'k'))
        .foldl_by(any_char().repeated(), Falls);
    let rows = [
        ("kl", "ok (false, 'l')"),
        ("ka", "ok (true, 'a')"),
        ("a", "error 0..1 expected 'k' found 'a'"),
    ];
    assert_answers(&rt, &letters, &rows);
}

/// How often two neighbours differ, and the first of all.
#[derive(Clone, Copy)]
struct Apart;

impl RightFolder<char, (u8, char)> for Apart {
    ghost gives = { λ _ _ _ _. ⊤ };

    fn step(&self, item: char, accumulator: (u8, char)) -> (u8, char) {
        let (changes, next) = accumulator;
        let changed = if item == next { 0 } else { 1 };
        (changes.wrapping_add(changed), item)
    }
}

#[test]
fn a_type_of_ones_own_folds_from_the_right(rt: HostRuntime) {
    let letters = one_of::<_, _, Own>("ab")
        .repeated()
        .foldr_by(just_char('.').to((0, '.')), Apart);
    let rows = [
        ("aab.", "ok (2, 'a')"),
        (".", "ok (0, '.')"),
        ("b.", "ok (1, 'b')"),
    ];
    assert_answers(&rt, &letters, &rows);
}

#[test]
fn items_are_numbered_from_zero(rt: HostRuntime) {
    let numbered = just_char('a').repeated().enumerate().collect::<Vec<_>>();
    let rows = [
        ("aa", "ok [(0, 'a'), (1, 'a')]"),
        ("", "ok []"),
        ("ab", "error 1..2 expected 'a', end of input found 'b'"),
    ];
    assert_answers(&rt, &numbered, &rows);
}

#[test]
fn any_items_are_numbered(rt: HostRuntime) {
    let numbered = any_char().repeated().enumerate().collect::<Vec<_>>();
    assert_answers(&rt, &numbered, &[("ab", "ok [(0, 'a'), (1, 'b')]")]);
}

#[test]
fn numbered_items_are_folded(rt: HostRuntime) {
    let last = any_char()
        .separated_by(just_char(','))
        .enumerate()
        .fold((9usize, '-'), |_, last| last);
    let rows = [("a,b,c", "ok (2, 'c')"), ("", "ok (9, '-')")];
    assert_answers(&rt, &last, &rows);
}

/// Items that end where they began, without a cap.
#[test]
fn folds_ask_for_progress(rt: HostRuntime) {
    let rows = [("", "refused NoProgress"), ("a+b+c", "refused NoProgress")];
    let fold = empty::<_, Own>().repeated().fold(0u8, |count, _| count);
    assert_answers(&rt, &fold, &rows);
    let items = empty::<_, Own>().repeated();
    assert_answers(&rt, &empty().to(0u8).foldl(items, |count, _| count), &rows);
    let items = empty::<_, Own>().repeated();
    assert_answers(&rt, &items.foldr(empty(), |_, unit| unit), &rows);
    let items = empty::<_, Own>().repeated();
    assert_answers(&rt, &items.enumerate().count(), &rows);
}

#[test]
fn a_cap_takes_items_that_do_not_move(rt: HostRuntime) {
    let two = empty::<&str, Own>()
        .repeated()
        .at_most(2)
        .fold(0u8, |count, _| count.wrapping_add(1));
    assert_answers(&rt, &two, &[("", "ok 2")]);
}

/// A value that there is never memory to clone.
#[derive(Drop, Debug)]
struct Large;

impl Clone for Large {
    ghost is_clone = { λ _ _. ⊤ };

    fn clone(&self) -> Result<Large, AllocError> {
        Err(AllocError)
    }
}

/// Where no output is wanted nothing is cloned, so nothing is refused.
#[test]
fn a_value_without_a_clone_refuses_the_run(rt: HostRuntime) {
    let large = just_char('a').repeated().fold(Large, |large, _| large);
    let rows = [("aa", "parse: refused Memory; but check: ok")];
    assert_answers(&rt, &large, &rows);
}
