//! Parsers that are configured by the context.
use answers::asserts::assert_answers;
use answers::extras::Own;
use answers::leaves::any_char;
use chumsky::combinator::{Configurer, RepeatedCfg, TryConfigurer};
use chumsky::prelude::*;
use chumsky::primitive::{JustCfg, OneOfCfg};
use std::alloc::Global;

/// The errors of a text, under a context.
type Under<X> = extra::Full<Rich<char>, (), X>;

/// A digit, for its value.
macro_rules! digit {
    () => {
        one_of::<_, &str, Own>("0123456789").map(|c: char| c as usize - 48)
    };
}

#[test]
fn a_list_takes_as_many_items_as_its_context_says(rt: HostRuntime) {
    let xs = just::<_, &str, Under<usize>>('x')
        .repeated()
        .configure(|c, n| c.exactly(*n))
        .collect::<String>();
    let counted = digit!().ignore_with_ctx(xs);
    let rows = [
        ("3xxx", "ok \"xxx\""),
        ("0", "ok \"\""),
        ("3xx", "error 3..3 expected 'x' found end"),
        ("2xxx", "error 3..4 expected end of input found 'x'"),
        (
            "x",
            "error 0..1 expected '0', '1', '2', '3', '4', '5', '6', '7', '8', '9' found 'x'",
        ),
    ];
    assert_answers(&rt, &counted, &rows);
}

#[test]
fn configured_items_are_counted(rt: HostRuntime) {
    let xs = just('x').repeated().configure(|c, n| c.exactly(*n)).count();
    let rows = [
        ("3xxx", "ok 3"),
        ("3xx", "error 3..3 expected 'x' found end"),
    ];
    assert_answers(&rt, &digit!().ignore_with_ctx(xs), &rows);
}

#[test]
fn the_fewest_and_the_most_items_are_set_by_themselves(rt: HostRuntime) {
    let some = digit!().ignore_with_ctx(just('x').repeated().configure(|c, n| c.at_least(*n)));
    let rows = [
        ("2xxx", "ok ()"),
        ("2x", "error 2..2 expected 'x' found end"),
    ];
    assert_answers(&rt, &some, &rows);
    let few = digit!().ignore_with_ctx(just('x').repeated().configure(|c, n| c.at_most(*n)));
    let rows = [
        ("2x", "ok ()"),
        ("2xxx", "error 3..4 expected end of input found 'x'"),
    ];
    assert_answers(&rt, &few, &rows);
}

#[test]
fn what_is_not_set_stays_as_the_list_has_it(rt: HostRuntime) {
    let at_most_two = just('x').repeated().at_most(2);
    let list = digit!().ignore_with_ctx(at_most_two.configure(|c, n| c.at_least(*n)));
    let rows = [
        ("1xx", "ok ()"),
        ("1", "error 1..1 expected 'x' found end"),
        ("1xxx", "error 3..4 expected end of input found 'x'"),
    ];
    assert_answers(&rt, &list, &rows);
}

#[test]
fn a_cap_that_the_context_sets_ends_a_list_that_takes_nothing(rt: HostRuntime) {
    let capped = empty::<&str, Own>()
        .repeated()
        .configure(|c, _: &()| c.at_most(2))
        .count();
    assert_answers(&rt, &capped, &[("", "ok 2")]);
    let endless = empty::<&str, Own>()
        .repeated()
        .configure(|c, _: &()| c)
        .count();
    assert_answers(&rt, &endless, &[("", "refused NoProgress")]);
}

#[test]
fn a_list_that_is_refused_fails_before_its_first_item(rt: HostRuntime) {
    let alloc = rt.alloc();
    let refused = just::<_, &str, Own>('a')
        .repeated()
        .try_configure(move |_: RepeatedCfg, _: &(), span: SimpleSpan| {
            let no = Rich::custom_in(alloc, span, "no");
            Err(no.unwrap_or(Rich::custom(span, String::new(alloc))))
        })
        .count();
    assert_answers(&rt, &refused, &[("aa", "error 0..0 \"no\"")]);
    let else_one = refused.map(|n| n as u64).or(just('b').to(1));
    let rows = [("b", "ok 1"), ("c", "error 0..0 \"no\"")];
    assert_answers(&rt, &else_one, &rows);
}

#[test]
fn a_list_that_is_not_refused_is_configured(rt: HostRuntime) {
    let xs = just::<_, &str, Under<usize>>('x')
        .repeated()
        .try_configure(|c: RepeatedCfg, n: &usize, _: SimpleSpan| Ok(c.exactly(*n)))
        .count();
    let counted = digit!().then_with_ctx(xs);
    let rows = [
        ("2xx", "ok (2, 2)"),
        ("2x", "error 2..2 expected 'x' found end"),
    ];
    assert_answers(&rt, &counted, &rows);
}

#[test]
fn a_sequence_is_the_one_that_the_context_says(rt: HostRuntime) {
    let twice = any_char().then_with_ctx(just('?').configure(|c, first| c.seq(*first)));
    let rows = [
        ("aa", "ok ('a', 'a')"),
        ("ab", "error 1..2 expected 'a' found 'b'"),
        ("a?", "error 1..2 expected 'a' found '?'"),
    ];
    assert_answers(&rt, &twice, &rows);
    let member = any_char().ignore_with_ctx(one_of('?').configure(|c, first| c.seq(*first)));
    let rows = [
        ("aa", "ok 'a'"),
        ("ab", "error 1..2 expected 'a' found 'b'"),
    ];
    assert_answers(&rt, &member, &rows);
}

#[test]
fn a_parser_whose_configuration_sets_nothing_is_as_it_was_made(rt: HostRuntime) {
    let one = just::<_, &str, Own>('a').configure(|c: JustCfg<char>, _: &()| c);
    assert_answers(
        &rt,
        &one,
        &[("a", "ok 'a'"), ("b", "error 0..1 expected 'a' found 'b'")],
    );
    let member = one_of::<_, &str, Own>("ab").configure(|c: OneOfCfg<&str>, _: &()| c);
    assert_answers(&rt, &member, &[("b", "ok 'b'")]);
}

#[test]
fn a_part_that_is_turned_off_fails_and_expects_nothing_else(rt: HostRuntime) {
    let off = just::<_, &str, Own>("foo")
        .contextual()
        .configure(|_, _: &()| false);
    assert_answers(
        &rt,
        &off,
        &[("foo", "error 0..0 expected nothing found end")],
    );
    let on = just::<_, &str, Own>("foo")
        .contextual()
        .configure(|_, _: &()| true);
    assert_answers(&rt, &on, &[("foo", "ok \"foo\"")]);
    let unconfigured = just::<_, &str, Own>("foo").contextual();
    assert_answers(&rt, &unconfigured, &[("foo", "ok \"foo\"")]);
}

#[test]
fn a_part_asks_its_context(rt: HostRuntime) {
    let same = just::<_, &str, Under<char>>('?').configure(|c, wanted| c.seq(*wanted));
    let rows = [("ab", "ok ('a', 'b')")];
    assert_answers(
        &rt,
        &same.with_ctx('a').then(just::<_, _, Own>('b')),
        &rows,
    );
    let foo = just::<_, &str, Under<bool>>("foo")
        .contextual()
        .configure(|_, on| *on);
    let end = empty::<_, Own>();
    let rows = [("foo", "ok (\"foo\", ())")];
    assert_answers(&rt, &foo.with_ctx(true).then(end), &rows);
    let rows = [("foo", "error 0..0 expected nothing found end")];
    assert_answers(&rt, &foo.with_ctx(false).then(end), &rows);
}

#[test]
fn the_context_turns_a_part_on(rt: HostRuntime) {
    let sign = one_of::<_, &str, Own>("+-").map(|c: char| c == '+');
    let b_after_plus = sign.ignore_with_ctx(
        just::<_, &str, Under<bool>>('b')
            .contextual()
            .configure(|_, plus| *plus)
            .or(just('c')),
    );
    let rows = [
        ("+b", "ok 'b'"),
        ("-c", "ok 'c'"),
        ("-b", "error 1..1 expected 'c' found end"),
    ];
    assert_answers(&rt, &b_after_plus, &rows);
}

/// Sets the first character of the context.
#[derive(Drop)]
struct First;

impl Configurer<JustCfg<char>, char> for First {
    ghost use Rattle.std.specs.Prelude.{⊤};

    ghost gives = { λ _ _ _ _. ⊤ };

    fn configured(&self, config: JustCfg<char>, context: &char) -> JustCfg<char> {
        config.seq(*context)
    }
}

/// As many items as the context says, but at most three.
#[derive(Drop)]
struct UpToThree {
    alloc: Global,
}

impl TryConfigurer<RepeatedCfg, usize, SimpleSpan, Rich<char>> for UpToThree {
    ghost use Rattle.std.specs.Prelude.{⊤};

    ghost gives = { λ _ _ _ _ _. ⊤ };

    fn try_configured(
        &self,
        config: RepeatedCfg,
        context: &usize,
        span: SimpleSpan,
    ) -> Result<RepeatedCfg, Rich<char>> {
        if *context > 3 {
            return Err(Rich::custom(span, String::new(self.alloc)));
        }
        Ok(config.exactly(*context))
    }
}

#[test]
fn a_type_of_ones_own_configures(rt: HostRuntime) {
    let twice = any_char().then_with_ctx(just('?').configure_by(First));
    assert_answers(&rt, &twice, &[("aa", "ok ('a', 'a')")]);
    let up_to_three = UpToThree { alloc: rt.alloc() };
    let xs = just('x').repeated().try_configure_by(up_to_three);
    let counted = digit!().ignore_with_ctx(xs);
    let rows = [("3xxx", "ok ()"), ("4xxxx", "error 1..1 \"\"")];
    assert_answers(&rt, &counted, &rows);
}
