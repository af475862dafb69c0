//! Parsers over slices of tokens.
use answers::asserts::assert_answers;
use answers::extras::Own;
use chumsky::prelude::*;

#[test]
fn a_token_is_given_where_it_lies(rt: HostRuntime) {
    let rows: [(&[u8], &str); 3] = [
        (&[7], "ok 7"),
        (&[7, 8], "error 1..2 expected end of input found 8"),
        (&[], "error 0..0 expected any found end"),
    ];
    assert_answers(&rt, &any_ref::<_, Own>(), &rows);
}

#[test]
fn tokens_come_by_value(rt: HostRuntime) {
    let one_then_any = just::<_, _, Own>(1).then(any());
    let rows: [(&[u8], &str); 3] = [
        (&[1, 2], "ok (1, 2)"),
        (&[2, 1], "error 0..1 expected 1 found 2"),
        (&[1], "error 1..1 expected any found end"),
    ];
    assert_answers(&rt, &one_then_any, &rows);
}

/// A token that can't be cloned.
#[derive(Drop)]
enum Word {
    Number(u32),
    Comma,
}

#[test]
fn a_token_need_not_be_cloned(rt: HostRuntime) {
    let number = any_ref::<_, extra::Default>().map(|word: &Word| match word {
        Word::Number(number) => *number,
        Word::Comma => 0,
    });
    let rows: [(&[Word], &str); 2] = [
        (&[Word::Number(12)], "ok 12"),
        (&[Word::Comma, Word::Comma], "error"),
    ];
    assert_answers(&rt, &number, &rows);
}
