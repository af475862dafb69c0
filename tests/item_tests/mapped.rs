//! Items that are put through mappers, and items after other items.
use answers::asserts::assert_answers;
use answers::extras::Own;
use answers::leaves::{any_char, just_char};
use chumsky::prelude::*;

#[test]
fn each_item_goes_through_its_mapper(rt: HostRuntime) {
    let values = one_of::<_, _, Own>("ab")
        .repeated()
        .at_least(1)
        .map_items(|c| c == 'a')
        .collect::<Vec<_>>();
    let rows = [
        ("aba", "ok [true, false, true]"),
        ("", "error 0..0 expected 'a', 'b' found end"),
        ("ac", "error 1..2 expected 'a', 'b', end of input found 'c'"),
    ];
    assert_answers(&rt, &values, &rows);
}

/// The second list begins where the first has ended, and a failure of the first is no end.
#[test]
fn the_items_of_one_list_come_before_those_of_another(rt: HostRuntime) {
    let letters = just_char('a')
        .repeated()
        .at_least(1)
        .at_most(2)
        .then(just_char('b').repeated())
        .then_items(just_char('.').or_not())
        .collect::<String>();
    let rows = [
        ("aabb.", "ok \"aabb.\""),
        ("a", "ok \"a\""),
        ("a.", "ok \"a.\""),
        ("b", "error 0..1 expected 'a' found 'b'"),
        (
            "aaa",
            "error 2..3 expected 'b', '.', end of input found 'a'",
        ),
        (
            "ac",
            "error 1..2 expected 'a', 'b', '.', end of input found 'c'",
        ),
        ("ab..", "error 3..4 expected end of input found '.'"),
    ];
    assert_answers(&rt, &letters, &rows);
}

#[test]
fn items_are_made_of_items(rt: HostRuntime) {
    let pairs = any_char().repeated().map_items(|c| (c, 1));
    assert_answers(&rt, &pairs.collect::<Vec<_>>(), &[("a", "ok [('a', 1)]")]);
    let spans = any_char()
        .repeated()
        .map_items_with(|c, extra| (c, extra.span()));
    let spans_of_both =
        "ok [('a', 0..1), ('b', 1..2)]";
    let rows = [("ab", spans_of_both)];
    assert_answers(&rt, &spans.collect::<Vec<_>>(), &rows);
    let both = just_char('a')
        .repeated()
        .then_items(just_char('b').repeated());
    let rows = [
        ("aabb", "ok \"aabb\""),
        ("aba", "error 2..3 expected 'b', end of input found 'a'"),
    ];
    assert_answers(&rt, &both.collect::<String>(), &rows);
}
