//! What becomes of states where a parser goes back: one that stays, one that is restored, one that is cut.
use answers::asserts::assert_line;
use chumsky::inspector::{RollbackState, SimpleState, TruncateState};
use chumsky::prelude::*;
use chumsky::primitive::select;
use extending::states::Told;
use std::alloc::AllocGlobal;
use std::fmt::Debug;
use std::process::Abort;

/// The errors of a text, and a state.
type On<S> = extra::Full<Rich<char>, S, ()>;

/// A list that is cut.
type OnList = On<TruncateState<char>>;

/// A number that is restored.
type OnValue = On<RollbackState<u64>>;

/// A number that stays.
type OnCount = On<SimpleState<u64>>;

/// A list of the characters of a text.
fn list_of<R: Abort + AllocGlobal>(rt: &R, text: &str) -> TruncateState<char> {
    let mut list = Vec::new(rt.alloc());
    for c in text.chars() {
        list.push(c).expect(rt, "out of memory");
    }
    TruncateState(list)
}

/// Asserts that a list holds the characters of a text.
fn assert_list<R: Abort + AllocGlobal>(rt: &R, list: &TruncateState<char>, text: &str) {
    assert!(rt; *list == list_of(rt, text));
}

/// Asserts what `parse` answers from a list of the characters of a text, and what list it leaves; `check` leaves the other.
fn assert_cut<
    'src,
    O: Debug + Drop,
    P: IsParser<&'src str, O, OnList> + Parser<'src, &'src str, O, OnList>,
    R: Abort + AllocGlobal,
>(rt: &R, parser: &P, from: &str, rows: &[(&'src str, &str, &str, &str)]) {
    for (input, line, left, left_by_check) in rows {
        let mut list = list_of(rt, from);
        assert_line(
            rt,
            parser.parse_with_state(rt.alloc(), *input, &mut list),
            *line,
        );
        assert_list(rt, &list, *left);
        let mut other = list_of(rt, from);
        let checked = parser.check_with_state(rt.alloc(), *input, &mut other);
        assert!(rt; checked.is_ok());
        assert_list(rt, &other, *left_by_check);
    }
}

/// Asserts what `parse` answers from zero, and which number it and `check` leave.
fn assert_restored<
    'src,
    O: Debug + Drop,
    P: IsParser<&'src str, O, OnValue> + Parser<'src, &'src str, O, OnValue>,
    R: Abort + AllocGlobal,
>(rt: &R, parser: &P, rows: &[(&'src str, &str, u64)]) {
    for (input, line, left) in rows {
        let mut value = RollbackState(0);
        assert_line(
            rt,
            parser.parse_with_state(rt.alloc(), *input, &mut value),
            *line,
        );
        assert_eq!(rt; value.0, *left);
        let mut other = RollbackState(0);
        let checked = parser.check_with_state(rt.alloc(), *input, &mut other);
        assert!(rt; checked.is_ok());
        assert_eq!(rt; other.0, *left);
    }
}

/// Takes a character and adds it to the list, on both paths.
macro_rules! push {
    () => {
        select::<_, &str, _, OnList>(|c: char, extra| {
            let _pushed = extra.state().0.push(c);
            Some(c)
        })
    };
}

/// Takes a character and adds one to the number, on both paths.
macro_rules! count {
    ($Extra:ty) => {
        select::<_, &str, _, $Extra>(|c: char, extra| {
            extra.state().0 = extra.state().0.wrapping_add(1);
            Some(c)
        })
    };
}

#[test]
fn what_an_alternative_wrote_is_undone_or_stays(rt: HostRuntime) {
    let restored = count!(OnValue).then(just('b')).or(any().then(any()));
    let rows = [("ac", "ok ('a', 'c')", 0), ("ab", "ok ('a', 'b')", 1)];
    assert_restored(&rt, &restored, &rows);
    let stays = count!(OnCount).then(just('b')).or(any().then(any()));
    let mut state = SimpleState(0);
    assert_line(
        &rt,
        stays.parse_with_state(rt.alloc(), "ac", &mut state),
        "ok ('a', 'c')",
    );
    assert_eq!(rt; state.0, 1);
}

#[test]
fn what_map_with_wrote_is_undone_or_stays(rt: HostRuntime) {
    let restored = any::<&str, OnValue>()
        .map_with(|c, extra| {
            extra.state().0 = extra.state().0.wrapping_add(1);
            c
        })
        .then(just('b'))
        .or(any().then(any()));
    let mut state = RollbackState(0);
    assert_line(
        &rt,
        restored.parse_with_state(rt.alloc(), "ac", &mut state),
        "ok ('a', 'c')",
    );
    assert_eq!(rt; state.0, 0);
    let stays = any::<&str, OnCount>()
        .map_with(|c, extra| {
            extra.state().0 = extra.state().0.wrapping_add(1);
            c
        })
        .then(just('b'))
        .or(any().then(any()));
    let mut state = SimpleState(0);
    assert_line(
        &rt,
        stays.parse_with_state(rt.alloc(), "ac", &mut state),
        "ok ('a', 'c')",
    );
    assert_eq!(rt; state.0, 1);
}

/// All alternatives of a `choice` go back by one mark: what the first removes doesn't come back, and of what the second adds
/// so much stays as the mark says.
#[test]
fn a_choice_cuts_a_list_by_one_mark(rt: HostRuntime) {
    let shorter = any::<&str, OnList>().map_with(|c, extra| {
        let _last = extra.state().0.pop();
        c
    });
    let longer = any::<&str, OnList>().map_with(|c, extra| {
        let _first = extra.state().0.push('z');
        let _second = extra.state().0.push('z');
        c
    });
    let last = any::<&str, OnList>().then(empty().to('e'));
    let parser = choice((shorter.then(just('b')), longer.then(just('b')), last));
    assert_cut(&rt, &parser, "xy", &[("a", "ok ('a', 'e')", "xz", "xy")]);
}

#[test]
fn a_choice_undoes_what_it_goes_back_from(rt: HostRuntime) {
    let parser = choice((push!().then(just('b')), push!().then(just('c'))));
    let rows = [
        ("ab", "ok ('a', 'b')", "xa", "xa"),
        ("ac", "ok ('a', 'c')", "xa", "xa"),
    ];
    assert_cut(&rt, &parser, "x", &rows);
    let restored = choice((
        count!(OnValue).then(just('b')),
        count!(OnValue).then(just('c')),
    ));
    assert_restored(&rt, &restored, &[("ac", "ok ('a', 'c')", 1)]);
}

#[test]
fn or_not_undoes_what_an_absent_part_wrote(rt: HostRuntime) {
    let parser = push!().then(just('b')).or_not().then(just("ac").or_not());
    let rows = [
        ("ab", "ok (Some(('a', 'b')), None)", "xa", "xa"),
        ("ac", "ok (None, Some(\"ac\"))", "x", "x"),
    ];
    assert_cut(&rt, &parser, "x", &rows);
    let restored = count!(OnValue).then(just('b')).or_not().then(just("ac"));
    assert_restored(&rt, &restored, &[("ac", "ok (None, \"ac\")", 0)]);
}

#[test]
fn a_list_undoes_what_the_item_wrote_that_is_not_there(rt: HostRuntime) {
    let parser = push!()
        .then_ignore(just(','))
        .repeated()
        .collect::<String>()
        .then(any());
    let rows = [("a,b,c", "ok (\"ab\", 'c')", "xab", "xab")];
    assert_cut(&rt, &parser, "x", &rows);
    let restored = count!(OnValue)
        .then_ignore(just(','))
        .repeated()
        .collect::<String>()
        .then(any());
    assert_restored(&rt, &restored, &[("a,b,c", "ok (\"ab\", 'c')", 2)]);
}

/// What stands between items is gone back from with the item after it.
#[test]
fn a_separated_list_undoes_what_its_last_separator_wrote(rt: HostRuntime) {
    let letter = select::<_, &str, _, OnList>(|c: char, extra| {
        if c == ',' {
            return None;
        }
        let _pushed = extra.state().0.push(c);
        Some(c)
    });
    let parser = letter
        .separated_by(just(',').then(push!().and_is(any()).rewind()).ignored())
        .collect::<String>()
        .then(any().repeated());
    let rows = [
        ("a", "ok (\"a\", ())", "xa", "xa"),
        ("a,,", "ok (\"a\", ())", "xa", "xa"),
    ];
    assert_cut(&rt, &parser, "x", &rows);
    let comma = select::<_, &str, _, OnValue>(|c: char, extra| {
        if c != ',' {
            return None;
        }
        extra.state().0 = extra.state().0.wrapping_add(10);
        Some(c)
    });
    let restored = count!(OnValue)
        .filter(|c| *c != ',')
        .separated_by(comma)
        .collect::<String>()
        .then(any().repeated());
    let rows = [
        ("a", "ok (\"a\", ())", 1),
        ("a,b,", "ok (\"ab\", ())", 12),
        (",", "ok (\"\", ())", 0),
    ];
    assert_restored(&rt, &restored, &rows);
}

#[test]
fn not_undoes_what_its_part_wrote(rt: HostRuntime) {
    let parser = push!().then(just('b')).not().then(just("ac"));
    assert_cut(&rt, &parser, "x", &[("ac", "ok ((), \"ac\")", "x", "x")]);
    let restored = count!(OnValue).then(just('b')).not().then(just("ac"));
    assert_restored(&rt, &restored, &[("ac", "ok ((), \"ac\")", 0)]);
    let refused = count!(OnValue).not();
    assert_restored(
        &rt,
        &refused,
        &[("a", "error 0..1 expected something else found 'a'", 0)],
    );
}

/// A mapper is not called where no output is wanted.
#[test]
fn rewind_keeps_what_its_part_wrote(rt: HostRuntime) {
    let push = any::<&str, OnList>().map_with(|c, extra| {
        let index = extra.state().0.len();
        let _pushed = extra.state().0.push(c);
        index
    });
    let parser = push.rewind().then_ignore(any());
    assert_cut(&rt, &parser, "", &[("a", "ok 0", "a", "")]);
}

#[test]
fn with_state_runs_on_a_copy_and_leaves_the_state_of_the_run(rt: HostRuntime) {
    let one = select::<_, &str, _, OnValue>(|c: char, extra| {
        extra.state().0 = extra.state().0.wrapping_add(1);
        Some((c, extra.state().0))
    });
    let parser = one
        .with_state(RollbackState(5))
        .then(count!(OnValue))
        .then_ignore(end());
    let rows = [
        ("ab", "ok (('a', 6), 'b')", 1),
        ("b", "error 1..1 expected any found end", 0),
    ];
    let mut state = RollbackState(0);
    for (input, line, left) in rows {
        state.0 = 0;
        let _checked = parser.check_with_state(rt.alloc(), input, &mut state);
        assert_eq!(rt; state.0, left);
        state.0 = 0;
        let parsed = parser.parse_with_state(rt.alloc(), input, &mut state);
        if left == 1 {
            assert_line(&rt, parsed, line);
        }
        assert_eq!(rt; state.0, left);
    }
}

#[test]
fn with_state_of_a_list_leaves_the_list_of_the_run(rt: HostRuntime) {
    let parser = push!()
        .with_state(TruncateState(Vec::new(rt.alloc())))
        .then_ignore(end::<&str, OnList>());
    assert_cut(&rt, &parser, "z", &[("a", "ok 'a'", "z", "z")]);
    let pushes = any::<&str, OnList>().map_with(|c, extra| {
        let _pushed = extra.state().0.push(c);
        c
    });
    let parser = pushes
        .with_state(TruncateState(Vec::new(rt.alloc())))
        .then_ignore(end::<&str, OnList>());
    assert_cut(&rt, &parser, "z", &[("a", "ok 'a'", "z", "z")]);
}

/// Errors that say nothing, and a number of tokens.
type OnTokens = extra::Full<EmptyErr, Told, ()>;

/// Each run begins with a copy, and that is told of each token.
#[test]
fn what_with_state_runs_on_is_told_of_its_tokens(rt: HostRuntime) {
    let told = any::<&str, OnTokens>()
        .then(any())
        .map_with(|_, extra| extra.state().tokens)
        .with_state(Told { tokens: 3 });
    let parser = told
        .repeated()
        .collect::<Vec<_>>()
        .then_ignore(end::<&str, OnTokens>());
    let mut state = Told { tokens: 0 };
    assert_line(
        &rt,
        parser.parse_with_state(rt.alloc(), "abcd", &mut state),
        "ok [5, 5]",
    );
    assert_eq!(rt; state.tokens, 0);
}

/// The state of the run is not told of the tokens that are taken on another one.
#[test]
fn with_state_alone_is_told_of_its_tokens(rt: HostRuntime) {
    let parser = any::<&str, OnTokens>()
        .with_state(Told { tokens: 0 })
        .then(any::<&str, OnTokens>());
    let mut state = Told { tokens: 0 };
    assert_line(
        &rt,
        parser.parse_with_state(rt.alloc(), "ab", &mut state),
        "ok ('a', 'b')",
    );
    assert_eq!(rt; state.tokens, 1);
}
