//! Small errors, and the short extras of the library.
use answers::asserts::assert_answers;
use chumsky::Failure;
use chumsky::extra::RichText;
use chumsky::prelude::*;

#[test]
fn a_simple_error_shows_where_and_what(rt: HostRuntime) {
    let a_or_b = just::<_, _, extra::Err<Simple<char>>>('a').or(just('b'));
    assert_answers(
        &rt,
        &a_or_b,
        &[("b", "ok 'b'"), ("c", "error 0..1 found 'c'")],
    );
}

#[test]
fn a_cheap_error_shows_where(rt: HostRuntime) {
    let a_or_b = just::<_, _, extra::Err<Cheap>>('a').or(just('b'));
    assert_answers(&rt, &a_or_b, &[("c", "error 0..1")]);
}

#[test]
fn a_label_is_expected_beside_tokens(rt: HostRuntime) {
    let month = custom::<_, &str, char, RichText>(|inp| match inp.parse(just('J')) {
        Err(Failure::Error(error)) => {
            Err(Failure::Error(error.with_label(inp.alloc(), "a month")?))
        }
        other => other,
    });
    let rows = [
        ("J", "ok 'J'"),
        ("x", "error 0..1 expected 'a', a month found 'x'"),
        ("", "error 0..0 expected 'a', a month found end"),
    ];
    assert_answers(&rt, &just('a').or(month), &rows);
}

#[test]
fn a_type_of_an_extra_may_stand_alone(rt: HostRuntime) {
    assert_answers(&rt, &any::<_, extra::Err<Rich<char>>>(), &[("é", "ok 'é'")]);
    assert_answers(&rt, &any::<_, extra::State<()>>(), &[("é", "ok 'é'")]);
    assert_answers(&rt, &any::<_, extra::Context<u8>>(), &[("", "error")]);
}

#[test]
fn an_array_is_a_sequence(rt: HostRuntime) {
    let array = just::<_, _, extra::Default>(['a', 'é']);
    assert_answers(&rt, &array, &[("aé", "ok ['a', 'é']"), ("ae", "error")]);
}
