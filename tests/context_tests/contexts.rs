//! Parsers under a context of their own, or under the output of another parser.
use answers::asserts::assert_answers;
use answers::extras::{Own, Quiet};
use answers::leaves::{any_char, just_char};
use chumsky::extra::ParserExtra;
use chumsky::prelude::*;
use chumsky::primitive::Select;

/// Whether a character is that of the context.
fn is_context(context: &char, c: char) -> bool {
    *context == c
}

#[test]
fn the_output_of_the_first_is_the_context_of_the_second(rt: HostRuntime) {
    let second: Select<_, &str, char, extra::Full<EmptyErr, (), char>> = select! {
        c = extra if is_context(extra.ctx(), c) => c,
    };
    let twice = any::<_, Quiet>().ignore_with_ctx(second);
    let rows = [
        ("aa", "ok 'a'"),
        ("éé", "ok 'é'"),
        ("ab", "error"),
        ("a", "error"),
    ];
    assert_answers(&rt, &twice, &rows);
}

#[test]
fn an_error_from_before_the_second_stays(rt: HostRuntime) {
    let second: Select<_, &str, char, extra::Full<Rich<char>, (), char>> = select! {
        c = extra if is_context(extra.ctx(), c) => c,
    };
    let twice = any_char()
        .then_ignore(just_char('b').or_not())
        .ignore_with_ctx(second);
    let rows = [("ac", "error 1..2 expected 'b', something else found 'c'")];
    assert_answers(&rt, &twice, &rows);
}

/// The errors of a text, under a context.
type Under<X> = extra::Full<Rich<char>, (), X>;

/// A digit, for its value.
macro_rules! digit {
    () => {
        one_of::<_, &str, Own>("0123456789").map(|c: char| c as usize - 48)
    };
}

#[test]
fn then_with_ctx_gives_both_outputs(rt: HostRuntime) {
    let xs = just('x')
        .repeated()
        .configure(|c, n| c.exactly(*n))
        .collect::<String>();
    let counted = digit!().then_with_ctx(xs);
    let rows = [
        ("3xxx", "ok (3, \"xxx\")"),
        ("2x", "error 2..2 expected 'x' found end"),
    ];
    assert_answers(&rt, &counted, &rows);
}

#[test]
fn items_under_an_output_are_items(rt: HostRuntime) {
    let xs = just('x').repeated().configure(|c, n| c.exactly(*n));
    let items = digit!().then_with_ctx(xs).collect::<Vec<char>>();
    let rows = [
        ("3xxx", "ok ['x', 'x', 'x']"),
        ("2xxx", "error 3..4 expected end of input found 'x'"),
    ];
    assert_answers(&rt, &items, &rows);
    let ys = just('y').repeated().configure(|c, n| c.exactly(*n));
    let counted = digit!().ignore_with_ctx(ys).count();
    let rows = [("2yy", "ok 2"), ("2y", "error 2..2 expected 'y' found end")];
    assert_answers(&rt, &counted, &rows);
}

/// A byte says how many bytes follow.
#[test]
fn a_length_says_how_many_bytes_follow(rt: HostRuntime) {
    let length = any::<&[u8], Own>().map(|n: u8| n as usize);
    let bytes = any().repeated().configure(|c, n| c.exactly(*n));
    let prefixed = length.ignore_with_ctx(bytes.collect::<Vec<u8>>());
    let rows: [(&[u8], &str); 4] = [
        (&[2, 7, 8], "ok [7, 8]"),
        (&[0], "ok []"),
        (&[3, 7, 8], "error 3..3 expected any found end"),
        (&[1, 7, 8], "error 2..3 expected end of input found 8"),
    ];
    assert_answers(&rt, &prefixed, &rows);
}

#[test]
fn a_context_ends_with_its_part(rt: HostRuntime) {
    let same = just::<_, &str, Under<char>>('?').configure(|c, wanted| c.seq(*wanted));
    let under_b = same.with_ctx('b').then(just::<_, &str, Own>('c'));
    let rows = [
        ("bc", "ok ('b', 'c')"),
        ("ac", "error 0..1 expected 'b' found 'a'"),
    ];
    assert_answers(&rt, &under_b, &rows);
    let inner = just::<_, &str, Under<char>>('?').configure(|c, wanted| c.seq(*wanted));
    let other = just::<_, &str, Under<char>>('?').configure(|c, wanted| c.seq(*wanted));
    let both = inner.with_ctx('b').then(other).with_ctx('c');
    assert_answers(
        &rt,
        &both.then_ignore(end::<&str, Own>()),
        &[
            ("bc", "ok ('b', 'c')"),
            ("bb", "error 1..2 expected 'c' found 'b'"),
        ],
    );
}

#[test]
fn a_context_is_made_of_the_one_of_the_run(rt: HostRuntime) {
    let xs = just::<_, &str, Under<usize>>('x')
        .repeated()
        .configure(|c, n| c.exactly(*n));
    let pairs = just::<_, &str, Under<(usize, char)>>('(').ignore_then(map_ctx(
        |pair: &(usize, char)| pair.0,
        xs.collect::<String>(),
    ));
    let counted = digit!().then(any()).ignore_with_ctx(pairs);
    let rows = [
        ("2a(xx", "ok \"xx\""),
        ("2a(x", "error 4..4 expected 'x' found end"),
    ];
    assert_answers(&rt, &counted, &rows);
}
