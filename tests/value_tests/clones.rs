//! How often values are cloned, with a value wanted and without, and that whatever lets go of a value drops it.
use super::counted::{Counted, Counts, assert_clones, counted_letter, make_counts};
use answers::extras::Quiet;
use arrayvec::ArrayVec;
use chumsky::combinator::{Configurer, RepeatedCfg, To};
use chumsky::inspector::SimpleState;
use chumsky::prelude::*;
use chumsky::primitive::{Just, select, select_ref};
use std::alloc::AllocGlobal;
use std::cell::Cell;
use std::collections::BTreeMap;
use std::process::Abort;
use std::rc::Rc;

/// A letter, whose output is a clone of its own.
type Letter<'src> = To<Just<char, &'src str, Quiet>, char, Counted>;

/// A parser of a letter.
fn letter<'src, R: Abort>(rt: &R, letter: char, counts: &Rc<Counts>) -> Letter<'src> {
    just(letter).to(counted_letter(rt, letter, counts))
}

#[test]
fn a_pair_lets_go_of_its_first_output(rt: HostRuntime) {
    let counts = make_counts(&rt);
    let pair = letter(&rt, 'a', &counts).then(letter(&rt, 'b', &counts));
    let rows = [("ab", 2, 0), ("ax", 1, 0), ("x", 0, 0), ("abx", 2, 0)];
    assert_clones(&rt, &pair, &counts, &rows);
}

#[test]
fn what_is_ignored_is_not_cloned(rt: HostRuntime) {
    let counts = make_counts(&rt);
    let first = letter(&rt, 'a', &counts).then_ignore(letter(&rt, 'b', &counts));
    assert_clones(&rt, &first, &counts, &[("ab", 1, 0), ("ax", 1, 0)]);
    let second = letter(&rt, 'a', &counts).ignore_then(letter(&rt, 'b', &counts));
    assert_clones(&rt, &second, &counts, &[("ab", 1, 0), ("ax", 0, 0)]);
    let nothing = letter(&rt, 'a', &counts).ignored();
    assert_clones(&rt, &nothing, &counts, &[("a", 0, 0), ("ax", 0, 0)]);
    let another = letter(&rt, 'a', &counts).to('z');
    assert_clones(&rt, &another, &counts, &[("a", 0, 0), ("ax", 0, 0)]);
}

#[test]
fn what_stands_around_is_not_cloned(rt: HostRuntime) {
    let counts = make_counts(&rt);
    let brackets = letter(&rt, 'a', &counts).delimited_by(
        letter(&rt, '(', &counts),
        letter(&rt, ')', &counts),
    );
    assert_clones(
        &rt,
        &brackets,
        &counts,
        &[("(a)", 1, 0), ("(ax", 1, 0), ("(", 0, 0)],
    );
    let padded = letter(&rt, 'a', &counts).padded_by(letter(&rt, ' ', &counts));
    assert_clones(&rt, &padded, &counts, &[(" a ", 1, 0), (" ax", 1, 0)]);
}

#[test]
fn an_alternative_that_fails_lets_go(rt: HostRuntime) {
    let counts = make_counts(&rt);
    let either = letter(&rt, 'a', &counts)
        .then_ignore(just('b'))
        .or(letter(&rt, 'a', &counts));
    assert_clones(
        &rt,
        &either,
        &counts,
        &[("ab", 1, 0), ("a", 2, 0), ("c", 0, 0)],
    );
    let one = choice((
        letter(&rt, 'a', &counts).then_ignore(just('b')),
        letter(&rt, 'a', &counts).then_ignore(just('c')),
        letter(&rt, 'a', &counts),
    ));
    assert_clones(
        &rt,
        &one,
        &counts,
        &[("ab", 1, 0), ("a", 3, 0), ("ad", 3, 0)],
    );
    let perhaps = letter(&rt, 'a', &counts).then_ignore(just('b')).or_not();
    assert_clones(
        &rt,
        &perhaps,
        &counts,
        &[("ab", 1, 0), ("a", 1, 0), ("", 0, 0)],
    );
}

#[test]
fn what_a_strategy_does_not_take_is_let_go(rt: HostRuntime) {
    let counts = make_counts(&rt);
    let replaced = letter(&rt, 'a', &counts)
        .then_ignore(just('b'))
        .recover_with(via_parser(letter(&rt, 'a', &counts)));
    assert_clones(
        &rt,
        &replaced,
        &counts,
        &[("ab", 1, 0), ("a", 2, 0), ("c", 0, 0), ("ac", 2, 0)],
    );
    // Nothing is made of what is skipped, nor of what it is skipped to.
    let skipped = just('a').ignored().recover_with(skip_until(
        letter(&rt, 'x', &counts).ignored(),
        letter(&rt, ';', &counts).ignored(),
        || (),
    ));
    assert_clones(&rt, &skipped, &counts, &[("xx;", 0, 0), ("xx", 0, 0)]);
    let retried = letter(&rt, 'a', &counts)
        .then_ignore(just('b'))
        .recover_with(skip_then_retry_until(any().ignored(), just(';').ignored()));
    assert_clones(
        &rt,
        &retried,
        &counts,
        &[("ab", 1, 0), ("xab", 1, 0), ("axaxab", 3, 0), ("ax;", 1, 0)],
    );
}

#[test]
fn a_mapper_has_its_argument_for_itself(rt: HostRuntime) {
    let counts = make_counts(&rt);
    let rows = [("a", 1, 0), ("ax", 1, 0), ("b", 0, 0)];
    let mapped = letter(&rt, 'a', &counts).map(|it| it.letter());
    assert_clones(&rt, &mapped, &counts, &rows);
    let in_memory = letter(&rt, 'a', &counts).map_in(|it, alloc| Ok(Box::new(alloc, it)?));
    assert_clones(&rt, &in_memory, &counts, &rows);
}

#[test]
fn a_group_lets_go_of_its_outputs(rt: HostRuntime) {
    let counts = make_counts(&rt);
    let three = group((
        letter(&rt, 'a', &counts),
        letter(&rt, 'b', &counts),
        letter(&rt, 'c', &counts),
    ));
    let rows = [("abc", 3, 0), ("abx", 2, 0), ("ax", 1, 0), ("abcx", 3, 0)];
    assert_clones(&rt, &three, &counts, &rows);
}

/// A group over an array, and a set over it.
fn assert_of_array<'src, R: Abort + AllocGlobal>(
    rt: &R,
    one: [Letter<'src>; 3],
    two: [Letter<'src>; 3],
    counts: &Rc<Counts>,
) {
    let rows = [("abc", 3, 0), ("abx", 2, 0), ("ax", 1, 0), ("abcx", 3, 0)];
    assert_clones(rt, &group(one), counts, &rows);
    let rows = [("cab", 3, 3), ("bax", 2, 2), ("x", 0, 0), ("abcx", 3, 3)];
    assert_clones(rt, &set(two), counts, &rows);
}

#[test]
fn an_array_lets_go_of_its_outputs(rt: HostRuntime) {
    let counts = make_counts(&rt);
    let one = [
        letter(&rt, 'a', &counts),
        letter(&rt, 'b', &counts),
        letter(&rt, 'c', &counts),
    ];
    let two = [
        letter(&rt, 'a', &counts),
        letter(&rt, 'b', &counts),
        letter(&rt, 'c', &counts),
    ];
    assert_of_array(&rt, one, two, &counts);
}

#[test]
fn a_set_lets_go_of_what_it_took_and_of_what_did_not_move(rt: HostRuntime) {
    let counts = make_counts(&rt);
    let two = set((letter(&rt, 'a', &counts), letter(&rt, 'b', &counts)));
    assert_clones(
        &rt,
        &two,
        &counts,
        &[("ba", 2, 0), ("bx", 1, 0), ("x", 0, 0)],
    );
    let still = set((
        empty::<_, Quiet>().to(counted_letter(&rt, 'e', &counts)),
        letter(&rt, 'a', &counts),
    ));
    assert_clones(&rt, &still, &counts, &[("a", 4, 0), ("x", 2, 0)]);
}

/// A set over a `Vec`.
fn assert_of_vec<'src, R: Abort + AllocGlobal>(
    rt: &R,
    letters: Vec<Letter<'src>>,
    counts: &Rc<Counts>,
    rows: &[(&'src str, u32, u32)],
) {
    assert_clones(rt, &set(letters), counts, rows);
}

#[test]
fn a_set_of_a_vec_lets_go(rt: HostRuntime) {
    let counts = make_counts(&rt);
    let letters = vec![in rt.alloc(); letter(&rt, 'a', &counts), letter(&rt, 'b', &counts)].expect(
        &rt,
        "out of memory",
    );
    let rows = [("ba", 2, 0), ("bx", 1, 0), ("x", 0, 0)];
    assert_of_vec(&rt, letters, &counts, &rows);
}

#[test]
fn a_list_lets_go_of_its_items(rt: HostRuntime) {
    let counts = make_counts(&rt);
    let list = letter(&rt, 'a', &counts)
        .repeated()
        .at_least(2)
        .collect::<Vec<_>>();
    let rows = [("aaa", 3, 0), ("aax", 2, 0), ("a", 1, 0), ("", 0, 0)];
    assert_clones(&rt, &list, &counts, &rows);
    let nothing = letter(&rt, 'a', &counts).repeated().collect::<()>();
    assert_clones(&rt, &nothing, &counts, &[("aa", 2, 0), ("aax", 2, 0)]);
    let three = letter(&rt, 'a', &counts)
        .repeated()
        .collect_exactly::<ArrayVec<_, 3>>();
    assert_clones(
        &rt,
        &three,
        &counts,
        &[("aaa", 3, 0), ("aa", 2, 0), ("aaaa", 3, 0)],
    );
}

#[test]
fn items_that_no_one_wants_are_not_cloned(rt: HostRuntime) {
    let counts = make_counts(&rt);
    let number = letter(&rt, 'a', &counts).repeated().count();
    assert_clones(&rt, &number, &counts, &[("aaa", 0, 0)]);
    let nothing = letter(&rt, 'a', &counts).repeated().at_least(2);
    assert_clones(&rt, &nothing, &counts, &[("aaa", 0, 0), ("a", 0, 0)]);
    let list = letter(&rt, 'a', &counts)
        .separated_by(letter(&rt, ',', &counts))
        .collect::<Vec<_>>();
    assert_clones(
        &rt,
        &list,
        &counts,
        &[("a,a", 2, 0), ("a,a,", 2, 0), (",", 0, 0)],
    );
    let nothing = letter(&rt, 'a', &counts).separated_by(letter(&rt, ',', &counts));
    assert_clones(&rt, &nothing, &counts, &[("a,a", 0, 0)]);
}

#[test]
fn a_map_lets_go_of_the_value_that_is_replaced(rt: HostRuntime) {
    let counts = make_counts(&rt);
    let entries = any()
        .then(letter(&rt, 'a', &counts))
        .repeated()
        .collect::<BTreeMap<_, _>>();
    assert_clones(&rt, &entries, &counts, &[("xaxaya", 3, 0), ("xaxay", 2, 0)]);
}

#[test]
fn a_picker_is_asked_in_both(rt: HostRuntime) {
    let counts = make_counts(&rt);
    let a = counted_letter(&rt, 'a', &counts);
    let picked = select::<_, &str, Counted, Quiet>(move |c, _| {
        if c == a.letter() {
            a.clone().ok()
        } else {
            None
        }
    });
    assert_clones(
        &rt,
        &picked,
        &counts,
        &[("a", 1, 1), ("ab", 1, 1), ("b", 0, 0)],
    );
    let a = counted_letter(&rt, 'a', &counts);
    let picked = select_ref::<_, &[char], Counted, extra::Default>(move |c, _| {
        if *c == a.letter() {
            a.clone().ok()
        } else {
            None
        }
    });
    let rows: [(&[char], u32, u32); 2] = [(&['a'], 1, 1), (&['a', 'b'], 1, 1)];
    assert_clones(&rt, &picked, &counts, &rows);
}

#[test]
fn a_closure_is_called_in_both(rt: HostRuntime) {
    let counts = make_counts(&rt);
    let a = counted_letter(&rt, 'a', &counts);
    let closure = custom::<_, &str, Counted, Quiet>(move |inp| {
        inp.parse(just('a'))?;
        Ok(a.clone()?)
    });
    assert_clones(
        &rt,
        &closure,
        &counts,
        &[("a", 1, 1), ("ab", 1, 1), ("b", 0, 0)],
    );
    let a = counted_letter(&rt, 'a', &counts);
    let closure = custom::<_, &str, Counted, Quiet>(move |inp| {
        let inside = just('a').to(a.clone()?);
        inp.parse(inside)
    });
    assert_clones(
        &rt,
        &closure,
        &counts,
        &[("a", 2, 2), ("ab", 2, 2), ("b", 1, 1)],
    );
}

#[test]
fn a_fold_clones_its_start_where_it_gives_a_value(rt: HostRuntime) {
    let counts = make_counts(&rt);
    let start = counted_letter(&rt, 's', &counts);
    let folded = letter(&rt, 'a', &counts)
        .repeated()
        .fold(start, |sum, item| {
            drop(item);
            sum
        });
    let rows = [("aa", 3, 0), ("", 1, 0), ("aax", 3, 0)];
    assert_clones(&rt, &folded, &counts, &rows);
}

#[test]
fn folds_let_go_of_their_items(rt: HostRuntime) {
    let counts = make_counts(&rt);
    let left = letter(&rt, 'a', &counts).foldl(letter(&rt, 'b', &counts).repeated(), |sum, item| {
        drop(item);
        sum
    });
    assert_clones(
        &rt,
        &left,
        &counts,
        &[("abb", 3, 0), ("abx", 2, 0), ("b", 0, 0)],
    );
    let right = letter(&rt, 'a', &counts)
        .repeated()
        .foldr(letter(&rt, 'b', &counts), |item, sum| {
            drop(item);
            sum
        });
    assert_clones(
        &rt,
        &right,
        &counts,
        &[("aab", 3, 0), ("aax", 2, 0), ("b", 1, 0)],
    );
}

#[test]
fn the_items_of_an_output_are_let_go(rt: HostRuntime) {
    let counts = make_counts(&rt);
    let items = letter(&rt, 'a', &counts)
        .repeated()
        .collect::<Vec<_>>()
        .into_iter();
    let rows = [("aaa", 3, 3), ("", 0, 0), ("aax", 2, 2)];
    let again = items.clone().expect(&rt, "out of memory");
    assert_clones(&rt, &again.count(), &counts, &rows);
    let again = items.clone().expect(&rt, "out of memory");
    assert_clones(&rt, &again.collect::<Vec<_>>(), &counts, &rows);
    let rows = [("aaa", 3, 3), ("aa", 2, 2), ("aaaa", 4, 4)];
    assert_clones(
        &rt,
        &items.collect_exactly::<ArrayVec<_, 3>>(),
        &counts,
        &rows,
    );
}

#[test]
fn the_items_of_each_item_are_let_go(rt: HostRuntime) {
    let counts = make_counts(&rt);
    let items = letter(&rt, 'a', &counts)
        .repeated()
        .at_least(1)
        .collect::<Vec<_>>()
        .separated_by(just(','))
        .flatten();
    let rows = [("aa,a", 3, 3), ("a,", 1, 1), ("", 0, 0), ("a,ax", 2, 2)];
    let again = items.clone().expect(&rt, "out of memory");
    assert_clones(&rt, &again.count(), &counts, &rows);
    let again = items.clone().expect(&rt, "out of memory");
    assert_clones(&rt, &again.collect::<Vec<_>>(), &counts, &rows);
    let rows = [("a,aa", 3, 3), ("a,a", 2, 2), ("aa,aa", 4, 4)];
    assert_clones(
        &rt,
        &items.collect_exactly::<ArrayVec<_, 3>>(),
        &counts,
        &rows,
    );
}

/// Each call makes a clone of what it is lent.
#[test]
fn a_judge_is_called_once(rt: HostRuntime) {
    let counts = make_counts(&rt);
    let passes = letter(&rt, 'a', &counts).filter(|it| it.clone().is_ok());
    assert_clones(
        &rt,
        &passes,
        &counts,
        &[("a", 2, 2), ("ax", 2, 2), ("b", 0, 0)],
    );
    let fails = letter(&rt, 'a', &counts).filter(|it| it.clone().is_err());
    assert_clones(&rt, &fails, &counts, &[("a", 2, 2)]);
    let picked = letter(&rt, 'a', &counts).filter_map(|it| it.clone().ok());
    assert_clones(&rt, &picked, &counts, &[("a", 2, 2), ("b", 0, 0)]);
    let tried = letter(&rt, 'a', &counts).try_map(|it, _| it.clone().map_err(|_| EmptyErr));
    assert_clones(&rt, &tried, &counts, &[("a", 2, 2), ("b", 0, 0)]);
    let tried = letter(&rt, 'a', &counts).try_map_in(|it, _, _| {
        Ok(it.clone().map_err(|_| EmptyErr))
    });
    assert_clones(&rt, &tried, &counts, &[("a", 2, 2), ("b", 0, 0)]);
    let valid = letter(&rt, 'a', &counts).validate(|it, _, _| it.clone().ok());
    assert_clones(&rt, &valid, &counts, &[("a", 2, 2), ("b", 0, 0)]);
}

#[test]
fn the_output_that_is_a_context_is_let_go(rt: HostRuntime) {
    let counts = make_counts(&rt);
    let under = letter(&rt, 'a', &counts).ignore_with_ctx(any::<
        _,
        extra::Full<EmptyErr, (), Counted>,
    >());
    assert_clones(
        &rt,
        &under,
        &counts,
        &[("ab", 1, 1), ("a", 1, 1), ("b", 0, 0)],
    );
}

#[test]
fn a_state_is_copied_once_for_each_run(rt: HostRuntime) {
    let counts = make_counts(&rt);
    let state = SimpleState(counted_letter(&rt, 's', &counts));
    let list = any::<&str, extra::Full<EmptyErr, SimpleState<Counted>, ()>>()
        .repeated()
        .with_state(state)
        .then_ignore(end::<&str, Quiet>());
    assert_clones(&rt, &list, &counts, &[("", 1, 1), ("abc", 1, 1)]);
}

/// How often a configurer is called.
#[derive(Drop)]
struct Calls {
    made: Cell<u32>,
}

/// Sets three items, and counts that.
#[derive(Drop)]
struct Three {
    calls: Rc<Calls>,
}

impl Configurer<RepeatedCfg, ()> for Three {
    ghost use Rattle.std.specs.Prelude.{⊤};

    ghost gives = { λ _ _ _ _. ⊤ };

    fn configured(&self, config: RepeatedCfg, _context: &()) -> RepeatedCfg {
        self.calls.made.set(self.calls.made.get().wrapping_add(1));
        config.exactly(3)
    }
}

#[test]
fn a_list_is_configured_once_for_each_iteration(rt: HostRuntime) {
    let none = Calls { made: Cell::new(0) };
    let calls = Rc::new(rt.alloc(), none).expect(&rt, "out of memory");
    let three = Three {
        calls: calls.clone().expect(&rt, "out of memory"),
    };
    let list = any::<&str, Quiet>().repeated().configure_by(three).count();
    assert!(rt; list.parse(rt.alloc(), "abc").is_ok());
    assert_eq!(rt; calls.made.get(), 1);
    assert!(rt; list.check(rt.alloc(), "abcd").is_ok());
    assert_eq!(rt; calls.made.get(), 2);
}

#[test]
fn tokens_are_cloned_where_they_are_wanted(rt: HostRuntime) {
    let counts = make_counts(&rt);
    let a = [counted_letter(&rt, 'a', &counts)];
    let b = [counted_letter(&rt, 'b', &counts)];
    assert_tokens(&rt, &counts, &a, &b);
}

/// Parsers of tokens, on one that they take and one that they don't.
fn assert_tokens<R: Abort + AllocGlobal>(
    rt: &R,
    counts: &Rc<Counts>,
    a: &[Counted],
    b: &[Counted],
) {
    let exactly = just::<_, &[Counted], extra::Default>(counted_letter(rt, 'a', counts));
    assert_clones(rt, &exactly, counts, &[(a, 1, 0), (b, 0, 0)]);
    let one = one_of::<_, &[Counted], extra::Default>(counted_letter(rt, 'a', counts));
    assert_clones(rt, &one, counts, &[(a, 1, 0), (b, 0, 0)]);
    let none = none_of::<_, &[Counted], extra::Default>(counted_letter(rt, 'b', counts));
    assert_clones(rt, &none, counts, &[(a, 1, 0), (b, 0, 0)]);
    let whichever = any::<&[Counted], extra::Default>();
    assert_clones(rt, &whichever, counts, &[(a, 1, 0), (b, 1, 0)]);
}

/// A result with a letter for its output, and letters for its errors.
fn both_ways<R: Abort + AllocGlobal>(rt: &R, counts: &Rc<Counts>) -> ParseResult<Counted, Counted> {
    let errors = vec![in rt.alloc();
        counted_letter(rt, 'e', counts),
        counted_letter(rt, 'f', counts),
    ]
    .expect(rt, "out of memory");
    ParseResult {
        output: Some(counted_letter(rt, 'o', counts)),
        errors,
    }
}

#[test]
fn a_result_drops_what_is_not_asked_for(rt: HostRuntime) {
    let counts = make_counts(&rt);
    assert_eq!(rt; counts.alive(), 0);
    let output = both_ways(&rt, &counts).into_output();
    assert!(rt; output.is_some());
    assert_eq!(rt; counts.alive(), 1);
    let errors = both_ways(&rt, &counts).into_errors();
    assert_eq!(rt; (errors.len(), counts.alive()), (2, 3));
    match both_ways(&rt, &counts).into_result() {
        Ok(_) => assert!(rt; false),
        Err(errors) => assert_eq!(rt; (errors.len(), counts.alive()), (2, 5)),
    }
    assert_eq!(rt; counts.alive(), 3);
}
