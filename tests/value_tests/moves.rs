//! Which parsers move wherever they succeed: what each type of the library says.
ghost use Rattle.std.specs.Prelude.{true};
ghost use Rattle.chumsky.specs.Values.{TakesAToken};

use answers::asserts::assert_answers;
use answers::extras::{Own, Quiet};
use answers::leaves::{any_char, just_char, just_text};
use arrayvec::ArrayVec;
use chumsky::combinator::{Part, part_of, run_part};
use chumsky::extra::ParserExtra;
use chumsky::input::InputRef;
use chumsky::pratt::{infix, left, prefix};
use chumsky::prelude::*;
use chumsky::primitive::{Just, any_ref, select, select_ref};
use chumsky::recursive::{MayStay, Moving, MovingItems, MovingPart, run_moving};
use chumsky::{Fault, PResult};
use std::process::Abort;
use std::rc::Rc;

type Text<'src> = &'src str;

/// Asserts that parsers are said to move, or not, as each row says.
fn assert_rows<R: Abort>(rt: &R, rows: &[(&str, bool, bool)]) {
    for (what, says, expected) in rows {
        assert_eq!(rt; *says, *expected, "{what}");
    }
}

/// Whether a parser over texts says that it moves.
fn moves<'src, O, P>(parser: P) -> bool
where
    P: IsParser<Text<'src>, O, Own> + Moving<'src, Text<'src>, O, Own> + Drop,
{
    parser.always_moves()
}

/// The same of one over bytes.
fn moves_over_bytes<'src, O, P>(parser: P) -> bool
where
    P: IsParser<&'src [u8], O, Own> + Moving<'src, &'src [u8], O, Own> + Drop,
{
    parser.always_moves()
}

/// `just` of a text that has no characters.
fn no_text<'src>() -> Just<&'static str, Text<'src>, Own> {
    just_text("")
}

#[test]
fn a_primitive_moves_where_it_takes_a_token(rt: HostRuntime) {
    let picks = select(|c: char, _| if c == 'a' { Some(1) } else { None });
    let picks_byte = select_ref(|byte: &u8, _| Some(*byte));
    let nothing = custom(|_| Ok(()));
    assert_rows(
        &rt,
        &[
            ("any", moves(any_char()), true),
            ("any_ref", moves_over_bytes(any_ref()), true),
            ("one_of", moves(one_of("ab")), true),
            ("none_of", moves(none_of("ab")), true),
            ("select", moves(picks), true),
            ("select_ref", moves_over_bytes(picks_byte), true),
            ("just of a token", moves(just_char('a')), true),
            ("just of a text", moves(just_text("ab")), true),
            ("just of no text", moves(no_text()), false),
            ("end", moves(end()), false),
            ("empty", moves(empty()), false),
            ("custom", moves(nothing), false),
        ],
    );
}

#[test]
fn a_sequence_moves_where_one_part_does(rt: HostRuntime) {
    let (a, none) = (|| just_char('a'), || no_text());
    assert_rows(
        &rt,
        &[
            ("then, first", moves(a().then(none())), true),
            ("then, second", moves(none().then(a())), true),
            ("then, none", moves(none().then(none())), false),
            ("ignore_then", moves(none().ignore_then(a())), true),
            ("ignore_then, none", moves(none().ignore_then(none())), false),
            ("then_ignore", moves(none().then_ignore(a())), true),
            ("then_ignore, none", moves(none().then_ignore(none())), false),
            ("delimited_by", moves(none().delimited_by(none(), a())), true),
            ("delimited_by, none", moves(none().delimited_by(none(), none())), false),
            ("padded_by", moves(none().padded_by(a())), true),
            ("padded_by, none", moves(none().padded_by(none())), false),
            ("lazy", moves(a().lazy()), true),
            ("lazy, none", moves(none().lazy()), false),
        ],
    );
}

#[test]
fn a_group_moves_where_one_part_does(rt: HostRuntime) {
    let (a, none) = (|| just_text("a"), || no_text());
    assert_rows(
        &rt,
        &[
            ("one", moves(group((a(),))), true),
            ("one, none", moves(group((none(),))), false),
            ("two", moves(group((none(), a()))), true),
            ("two, none", moves(group((none(), none()))), false),
            ("three", moves(group((none(), a(), none()))), true),
            ("four", moves(group((none(), none(), none(), a()))), true),
            ("five", moves(group((a(), none(), none(), none(), none()))), true),
            ("six", moves(group((none(), none(), none(), a(), none(), none()))), true),
            ("seven", moves(group((none(), none(), none(), none(), none(), none(), a()))), true),
            ("eight", moves(group((none(), none(), none(), none(), none(), none(), none(), a()))), true),
            ("eight, none", moves(group((none(), none(), none(), none(), none(), none(), none(), none()))), false),
            ("an array", moves::<ArrayVec<&str, 2>, _>(group([none(), a()])), true),
            ("an array, none", moves::<ArrayVec<&str, 2>, _>(group([none(), none()])), false),
        ],
    );
}

#[test]
fn a_set_moves_where_one_part_does(rt: HostRuntime) {
    let (a, none) = (|| just_text("a"), || no_text());
    let parts = vec![in rt.alloc(); none(), a()].expect(&rt, "refused");
    let stay = vec![in rt.alloc(); none(), none()].expect(&rt, "refused");
    let mut no_parts = vec![in rt.alloc(); a()].expect(&rt, "refused");
    no_parts.clear();
    assert_rows(
        &rt,
        &[
            ("one", moves(set((a(),))), true),
            ("one, none", moves(set((none(),))), false),
            ("two, the first", moves(set((a(), none()))), true),
            ("two, the second", moves(set((none(), a()))), true),
            ("two, none", moves(set((none(), none()))), false),
            ("two, one of which may be absent", moves(set((a().or_not(), a()))), true),
            ("two that may be absent", moves(set((a().or_not(), a().or_not()))), false),
            ("three", moves(set((none(), a(), none()))), true),
            ("three, none", moves(set((none(), none(), none()))), false),
            ("four", moves(set((none(), none(), none(), a()))), true),
            ("four, none", moves(set((none(), none(), none(), none()))), false),
            ("an array", moves::<ArrayVec<&str, 2>, _>(set([none(), a()])), true),
            ("an array, none", moves::<ArrayVec<&str, 2>, _>(set([none(), none()])), false),
            ("a vector", moves::<Vec<&str>, _>(set(parts)), true),
            ("a vector, none", moves::<Vec<&str>, _>(set(stay)), false),
            ("a vector of no parts", moves::<Vec<&str>, _>(set(no_parts)), false),
        ],
    );
}

#[test]
fn a_choice_moves_where_each_alternative_does(rt: HostRuntime) {
    let (a, none) = (|| just_text("a"), || no_text());
    let letters = [a(), a()];
    let mixed = [a(), none()];
    assert_rows(
        &rt,
        &[
            ("or", moves(a().or(a())), true),
            ("or, not the first", moves(none().or(a())), false),
            ("or, not the second", moves(a().or(none())), false),
            ("one", moves(choice((a(),))), true),
            ("two", moves(choice((a(), a()))), true),
            ("two, not the second", moves(choice((a(), none()))), false),
            ("three", moves(choice((a(), a(), a()))), true),
            ("four", moves(choice((a(), a(), a(), a()))), true),
            ("four, not the third", moves(choice((a(), a(), none(), a()))), false),
            ("five", moves(choice((a(), a(), a(), a(), a()))), true),
            ("six", moves(choice((a(), a(), a(), a(), a(), a()))), true),
            ("seven", moves(choice((a(), a(), a(), a(), a(), a(), a()))), true),
            ("eight", moves(choice((a(), a(), a(), a(), a(), a(), a(), a()))), true),
            ("eight, not the last", moves(choice((a(), a(), a(), a(), a(), a(), a(), none()))), false),
            ("a slice", moves(choice(letters.as_slice())), true),
            ("a slice, not the last", moves(choice(mixed.as_slice())), false),
            ("a slice of none", moves(choice(&letters[..0])), true),
            ("an array", moves(choice([a(), a()])), true),
            ("an array, not the first", moves(choice([none(), a()])), false),
            ("a vector", moves(choice(vec![in rt.alloc(); a(), a()].expect(&rt, "refused"))), true),
        ],
    );
}

#[test]
fn what_is_made_of_an_output_moves_as_its_part(rt: HostRuntime) {
    let (a, none) = (|| just_char('a'), || empty());
    assert_rows(
        &rt,
        &[
            ("map", moves(a().map(|c| c)), true),
            ("map, none", moves(none().map(|()| 'a')), false),
            ("map_in", moves(a().map_in(|c, _| Ok(c))), true),
            ("map_in, none", moves(none().map_in(|(), _| Ok('a'))), false),
            ("map_with", moves(a().map_with(|c, _| c)), true),
            ("map_with, none", moves(none().map_with(|(), _| 'a')), false),
            ("to", moves(a().to(1)), true),
            ("to, none", moves(none().to(1)), false),
            ("ignored", moves(a().ignored()), true),
            ("ignored, none", moves(none().ignored()), false),
            ("into_iter", moves(a().map(Some).into_iter()), true),
            ("unwrapped", moves(a().map(Some).unwrapped()), true),
        ],
    );
}

#[test]
fn what_judges_an_output_moves_as_its_part(rt: HostRuntime) {
    let (a, none) = (|| just_char('a'), || empty());
    assert_rows(
        &rt,
        &[
            ("filter", moves(a().filter(|_| true)), true),
            ("filter, none", moves(none().filter(|_| true)), false),
            ("filter_map", moves(a().filter_map(Some)), true),
            ("filter_map, none", moves(none().filter_map(Some)), false),
            ("try_map", moves(a().try_map(|c, _| Ok(c))), true),
            ("try_map, none", moves(none().try_map(|c, _| Ok(c))), false),
            ("try_map_in", moves(a().try_map_in(|c, _, _| Ok(Ok(c)))), true),
            ("try_map_in, none", moves(none().try_map_in(|c, _, _| Ok(Ok(c)))), false),
            ("try_map_with", moves(a().try_map_with(|c, _| Ok(c))), true),
            ("validate", moves(a().validate(|c, _, _| c)), true),
            ("map_err", moves(a().map_err(|error| error)), true),
            ("map_err, none", moves(none().map_err(|error| error)), false),
            ("map_err_with", moves(a().map_err_with(|error, _| error)), true),
            ("map_err_with_state", moves(a().map_err_with_state(|error, _, _| error)), true),
            ("and_is", moves(a().and_is(none())), true),
            ("and_is, none", moves(none().and_is(a())), false),
        ],
    );
}

#[test]
fn a_labelled_or_padded_parser_moves_as_its_part(rt: HostRuntime) {
    let quiet = just::<_, Text, Quiet>('a').labelled("a letter");
    let nothing = empty::<Text, Quiet>().labelled("nothing");
    assert_rows(
        &rt,
        &[
            ("labelled", quiet.always_moves(), true),
            ("labelled, none", nothing.always_moves(), false),
            ("padded", moves(just_char('a').padded()), true),
            ("padded, none", moves(empty().padded()), false),
        ],
    );
}

#[test]
fn a_list_moves_where_it_has_an_item_that_does(rt: HostRuntime) {
    let (a, none) = (|| just_char('a'), || empty());
    let comma = || just_char(',');
    assert_rows(
        &rt,
        &[
            ("repeated", moves(a().repeated()), false),
            ("at_least(1)", moves(a().repeated().at_least(1)), true),
            ("at_least(1), none", moves(none().repeated().at_least(1)), false),
            ("exactly(2)", moves(a().repeated().exactly(2)), true),
            ("at_least(3).at_most(0)", moves(a().repeated().at_least(3).at_most(0)), false),
            ("separated_by", moves(a().separated_by(comma())), false),
            ("separated_by at_least(1)", moves(a().separated_by(comma()).at_least(1)), true),
            ("collect", moves(a().repeated().at_least(1).collect::<Vec<char>>()), true),
            ("collect, no minimum", moves(a().repeated().collect::<Vec<char>>()), false),
            ("collect, separated", moves(a().separated_by(comma()).at_least(1).collect::<Vec<char>>()), true),
            ("count", moves(a().repeated().at_least(1).count()), true),
            ("count, no minimum", moves(a().repeated().count()), false),
            ("collect_exactly", moves(a().repeated().exactly(2).collect_exactly::<ArrayVec<char, 2>>()), true),
            ("collect_exactly of none", moves(a().repeated().at_least(1).collect_exactly::<ArrayVec<char, 0>>()), false),
            ("map_items", moves(a().repeated().at_least(1).map_items(|c| c).count()), true),
            ("map_items_with", moves(a().repeated().at_least(1).map_items_with(|c, _| c).count()), true),
            ("then_items", moves(a().repeated().at_least(1).then_items(a().repeated()).count()), true),
            ("then_items, no minimum", moves(a().repeated().then_items(a().repeated().at_least(1)).count()), false),
            ("enumerate", moves(a().repeated().at_least(1).enumerate().count()), true),
            ("into_iter", moves(a().map(Some).into_iter().count()), true),
            ("flatten", moves(a().map(Some).repeated().at_least(1).flatten().count()), true),
            ("flatten, no minimum", moves(a().map(Some).repeated().flatten().count()), false),
            ("flatten of an output", moves(a().map(|c| Some(Some(c))).into_iter().flatten().count()), true),
            ("flatten, none", moves(none().map(Some).repeated().at_least(1).flatten().count()), false),
        ],
    );
}

#[test]
fn a_fold_moves_where_its_parser_or_its_items_do(rt: HostRuntime) {
    let (a, none) = (|| just_char('a'), || empty().to('a'));
    let items = || just_char('b').repeated().at_least(1);
    let maybe = || just_char('b').repeated();
    assert_rows(
        &rt,
        &[
            ("fold", moves(items().fold(0, |n, _| n)), true),
            ("fold, no minimum", moves(maybe().fold(0, |n, _| n)), false),
            ("foldl", moves(a().foldl(maybe(), |n, _| n)), true),
            ("foldl, items", moves(none().foldl(items(), |n, _| n)), true),
            ("foldl, none", moves(none().foldl(maybe(), |n, _| n)), false),
            ("foldl_with", moves(a().foldl_with(maybe(), |n, _, _| n)), true),
            ("foldl_with, none", moves(none().foldl_with(maybe(), |n, _, _| n)), false),
            ("try_foldl", moves(a().try_foldl(maybe(), |n, _, _| Ok(n))), true),
            ("try_foldl, none", moves(none().try_foldl(maybe(), |n, _, _| Ok(n))), false),
            ("foldr", moves(maybe().foldr(a(), |_, n| n)), true),
            ("foldr, items", moves(items().foldr(none(), |_, n| n)), true),
            ("foldr, none", moves(maybe().foldr(none(), |_, n| n)), false),
            ("foldr_with", moves(maybe().foldr_with(a(), |_, n, _| n)), true),
            ("foldr_with, none", moves(maybe().foldr_with(none(), |_, n, _| n)), false),
        ],
    );
}

#[test]
fn an_expression_moves_where_its_atom_does(rt: HostRuntime) {
    let (a, none) = (|| just_char('a'), || empty().to('a'));
    let minus = || prefix(1, just_char('-'), |_: char, operand: char| operand);
    let joined = infix(left(1), just_text(""), |before: char, _: &str, _: char| before);
    assert_rows(
        &rt,
        &[
            ("pratt", moves(a().pratt((minus(),))), true),
            ("pratt, an operator that takes nothing", moves(a().pratt((minus(), joined))), true),
            ("pratt, none", moves(none().pratt((minus(),))), false),
        ],
    );
}

/// The errors of a text, on a state.
type On<S> = extra::Full<Rich<char>, S, ()>;

/// `just` of a text, with an extra.
fn just_by<'src, E: ParserExtra<Text<'src>>>(text: &'static str) -> Just<&'static str, Text<'src>, E> {
    just(text)
}

/// `just` of a text, under a character as its context.
fn under<'src>(text: &'static str) -> Just<&'static str, Text<'src>, extra::Full<Rich<char>, (), char>> {
    just(text)
}

#[test]
fn under_another_context_or_state_a_parser_moves_as_before(rt: HostRuntime) {
    let (a, none) = (|| just_text("a"), || no_text());
    let on = |text| just_by::<On<SimpleState<usize>>>(text);
    let made = |_: &()| 'x';
    let set = just_text("a").configure(|c, _: &()| c);
    assert_rows(
        &rt,
        &[
            ("with_ctx", moves(under("a").with_ctx('x')), true),
            ("with_ctx, none", moves(under("").with_ctx('x')), false),
            ("map_ctx", moves(map_ctx(made, under("a"))), true),
            ("map_ctx, none", moves(map_ctx(made, under(""))), false),
            ("with_state", moves(on("a").with_state(SimpleState(0))), true),
            ("with_state, none", moves(on("").with_state(SimpleState(0))), false),
            ("contextual", moves(a().contextual()), true),
            ("contextual, none", moves(none().contextual()), false),
            ("configure", moves(set), false),
        ],
    );
}

#[test]
fn a_parser_under_the_output_of_another_moves_where_one_of_the_two_does(rt: HostRuntime) {
    let (a, none) = (|| just_char('a'), || no_text().to('x'));
    let list = || under("b").repeated();
    let inner = || just_by::<extra::Err<Rich<char>>>("x");
    assert_rows(
        &rt,
        &[
            ("then_with_ctx, first", moves(a().then_with_ctx(under(""))), true),
            ("then_with_ctx, second", moves(none().then_with_ctx(under("b"))), true),
            ("then_with_ctx, none", moves(none().then_with_ctx(under(""))), false),
            ("ignore_with_ctx, first", moves(a().ignore_with_ctx(under(""))), true),
            ("ignore_with_ctx, second", moves(none().ignore_with_ctx(under("b"))), true),
            ("ignore_with_ctx, none", moves(none().ignore_with_ctx(under(""))), false),
            ("items of then_with_ctx", moves(a().then_with_ctx(list()).count()), true),
            ("items of then_with_ctx, none", moves(none().then_with_ctx(list()).count()), false),
            ("items of ignore_with_ctx", moves(a().ignore_with_ctx(list()).count()), true),
            ("items of ignore_with_ctx, none", moves(none().ignore_with_ctx(list()).count()), false),
            ("nested_in", moves(inner().nested_in(a().to("x"))), true),
            ("nested_in, none", moves(inner().nested_in(none().to("x"))), false),
        ],
    );
}

#[test]
fn what_goes_back_is_not_said_to_move(rt: HostRuntime) {
    let a = || just_char('a');
    let (letter, nothing) = (a(), end());
    let boxed = Box::new(rt.alloc(), a()).expect(&rt, "refused");
    let boxed_end = Box::new(rt.alloc(), end()).expect(&rt, "refused");
    let shared = Rc::new(rt.alloc(), a()).expect(&rt, "refused");
    assert_rows(
        &rt,
        &[
            ("or_not", moves(a().or_not()), false),
            ("not", moves(a().not()), false),
            ("rewind", moves(a().rewind()), false),
            ("by reference", moves(&letter), true),
            ("by reference, none", moves(&nothing), false),
            ("in a box", moves(boxed), true),
            ("in a box, none", moves(boxed_end), false),
            ("in an Rc", moves(shared), true),
        ],
    );
}

/// A part of one's own that says nothing.
#[derive(Drop)]
struct Letter;

impl<'src> IsParser<Text<'src>, char, Own> for Letter {}

impl MayStay for Letter {}

impl<'src> Part<'src, Text<'src>, char, Own> for Letter {
    fn run(
        &self,
        wanted: bool,
        inp: &mut InputRef<'src, '_, Text<'src>, Own>,
    ) -> PResult<Option<char>> {
        run_part(&just_char('a'), wanted, inp)
    }
}

#[test]
fn a_type_of_ones_own_says_nothing_by_one_line(rt: HostRuntime) {
    assert_rows(
        &rt,
        &[
            ("a part", Letter.always_moves(), false),
            ("a part as a parser", moves(part_of(Letter)), false),
            ("made of it", moves(part_of(Letter).then(just_char('a'))), true),
        ],
    );
}

/// A parser type of one's own, that does as the parser within and says nothing of whether it moves.
#[derive(Drop)]
struct Mine<P>(P);

impl<'src, P: IsParser<Text<'src>, char, Own>> IsParser<Text<'src>, char, Own> for Mine<P> {}

impl<'src, P: Parser<'src, Text<'src>, char, Own>> Parser<'src, Text<'src>, char, Own> for Mine<P> {
    ghost ready = { λ p. P.ready p.0 };

    ghost meaning = { λ p. P.meaning p.0 };

    ghost steady = { λ p. P.steady p.0 };

    ghost same = { λ p. P.same p.0 };

    ghost ends_after_start = { λ p. P.ends_after_start p.0 };

    ghost agrees = { λ p. P.agrees p.0 };

    ghost language = { λ p. P.language p.0 };

    ghost accepts = { λ p. P.accepts p.0 };

    fn go_emit(&self, inp: &mut InputRef<'src, '_, Text<'src>, Own>) -> PResult<char> {
        self.0.go_emit(inp)
    }

    fn go_check(&self, inp: &mut InputRef<'src, '_, Text<'src>, Own>) -> PResult<()> {
        self.0.go_check(inp)
    }
}

impl<'src, P: Parser<'src, Text<'src>, char, Own>> Moving<'src, Text<'src>, char, Own> for Mine<P> {
    ghost moved = { λ _ e. absurd (cc) };

    fn always_moves(&self) -> bool {
        false
    }
}

#[test]
fn a_parser_of_ones_own_says_nothing_by_an_impl(rt: HostRuntime) {
    assert_rows(
        &rt,
        &[
            ("a parser", moves(Mine(any_char())), false),
            ("by reference", moves(&Mine(any_char())), false),
            ("made of it", moves(Mine(any_char()).then(just_char('a'))), true),
        ],
    );
}

/// A part of one's own that takes a letter wherever it succeeds.
#[derive(Drop)]
struct Taken;

impl<'src> IsParser<Text<'src>, char, Own> for Taken {}

impl<'src> Part<'src, Text<'src>, char, Own> for Taken {
    ghost means = { λ _ _ _. TakesAToken };

    fn run(
        &self,
        wanted: bool,
        inp: &mut InputRef<'src, '_, Text<'src>, Own>,
    ) -> PResult<Option<char>> {
        run_moving(&just_char('a').or(just_char('b')), wanted, inp)
    }
}

impl<'src> MovingPart<'src, Text<'src>, char, Own> for Taken {
    ghost moves = { λ _. true };

    ghost moved = { λ _ _ _ _ takes. takes };

    fn always_moves(&self) -> bool {
        true
    }
}

#[test]
fn a_part_that_moves_answers_as_its_parser(rt: HostRuntime) {
    assert!(rt; moves(part_of(Taken)));
    let rows = [
        ("a", "ok 'a'"),
        ("b", "ok 'b'"),
        ("c", "error 0..1 expected 'a', 'b' found 'c'"),
        ("", "error 0..0 expected 'a', 'b' found end"),
    ];
    assert_answers(&rt, &part_of(Taken), &rows);
}
