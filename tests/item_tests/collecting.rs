//! What is made of items: collections, arrays, numbers; and what becomes of items that are let go.
ghost use Rattle.std.specs.Prelude.{◌≡◌, length};

use answers::asserts::assert_answers;
use answers::extras::{Own, Quiet};
use answers::leaves::{any_char, just_char};
use arrayvec::ArrayVec;
use chumsky::combinator::Repeated;
use chumsky::container::Container;
use chumsky::input::{Finished, InputRef};
use chumsky::prelude::*;
use chumsky::primitive::Just;
use chumsky::{Fault, IterParserDebug, Stop};
use std::alloc::{AllocError, AllocGlobal, Global};
use std::collections::{BTreeMap, BTreeSet};
use std::process::Abort;
use std::rc::Rc;

#[test]
fn a_set_has_each_item_once(rt: HostRuntime) {
    let letters = just_char('a').repeated().collect::<BTreeSet<char>>();
    assert_answers(&rt, &letters, &[("aa", "ok {'a'}"), ("", "ok {}")]);
}

#[test]
fn a_set_has_each_byte_once(rt: HostRuntime) {
    let bytes = any::<_, Own>().repeated().collect::<BTreeSet<u8>>();
    let rows: [(&[u8], &str); 2] = [(&[7, 7], "ok {7}"), (&[8, 7, 8], "ok {7, 8}")];
    assert_answers(&rt, &bytes, &rows);
}

#[test]
fn the_last_value_of_a_key_stands(rt: HostRuntime) {
    let pairs = just_char('a').then(any_char()).repeated();
    let rows = [
        ("abac", "ok {'a': 'c'}"),
        ("aba", "error 3..3 expected any found end"),
    ];
    assert_answers(&rt, &pairs.collect::<BTreeMap<char, char>>(), &rows);
}

#[test]
fn the_last_value_of_a_byte_stands(rt: HostRuntime) {
    let pairs = any::<_, Own>().then(any()).repeated();
    let rows: [(&[u8], &str); 2] = [
        (&[7, 1, 7, 2], "ok {7: 2}"),
        (&[9, 1, 7, 2], "ok {7: 2, 9: 1}"),
    ];
    assert_answers(&rt, &pairs.collect::<BTreeMap<u8, u8>>(), &rows);
}

#[test]
fn characters_make_a_text(rt: HostRuntime) {
    let text = none_of::<_, _, Own>(",").repeated().collect::<String>();
    let rows = [
        ("aé", "ok \"aé\""),
        ("", "ok \"\""),
        (
            "é,",
            "error 2..3 expected something else, end of input found ','",
        ),
    ];
    assert_answers(&rt, &text, &rows);
}

#[test]
fn items_are_collected(rt: HostRuntime) {
    let text = any_char().repeated().collect::<String>();
    assert_answers(&rt, &text, &[("abc", "ok \"abc\"")]);
    let two = just_char('a')
        .repeated()
        .collect_exactly::<ArrayVec<_, 2>>();
    let rows = [
        ("aa", "ok ['a', 'a']"),
        ("a", "error 1..1 expected 'a' found end"),
    ];
    assert_answers(&rt, &two, &rows);
}

#[test]
fn nothing_takes_each_item(rt: HostRuntime) {
    let nothing = any_char().repeated().collect::<()>();
    assert_answers(&rt, &nothing, &[("aé", "ok ()"), ("", "ok ()")]);
}

/// A character, again and again.
type Letters<'src> = Repeated<Just<char, &'src str, Own>, char, &'src str, Own>;

/// Asserts what three letters make.
fn assert_three<'src, R: Abort + AllocGlobal>(
    rt: &R,
    letters: Letters<'src>,
    rows: &[(&'src str, &str)],
) {
    assert_answers(rt, &letters.collect_exactly::<ArrayVec<char, 3>>(), rows);
}

#[test]
fn an_array_is_filled_and_asks_for_no_more(rt: HostRuntime) {
    let rows = [
        ("aaa", "ok ['a', 'a', 'a']"),
        ("aa", "error 2..2 expected 'a' found end"),
        ("aaaa", "error 3..4 expected end of input found 'a'"),
    ];
    assert_three(&rt, just('a').repeated(), &rows);
    let rows = [
        ("aa", "error 2..2 expected nothing found end"),
        ("a", "error 1..1 expected 'a' found end"),
    ];
    assert_three(&rt, just('a').repeated().at_most(2), &rows);
}

/// A failure with nothing expected is filtered as any other.
#[test]
fn an_array_that_is_filtered_fails_as_it_does(rt: HostRuntime) {
    let two = just_char('a').repeated().at_most(2);
    let three = two.collect_exactly::<ArrayVec<char, 3>>().filter(|_| true);
    assert_answers(
        &rt,
        &three,
        &[("aa", "error 2..2 expected nothing found end")],
    );
}

/// A byte, again and again.
type Bytes<'src> = Repeated<Just<u8, &'src [u8], Own>, u8, &'src [u8], Own>;

/// Asserts what three bytes make.
fn assert_three_bytes<'src, R: Abort + AllocGlobal>(
    rt: &R,
    bytes: Bytes<'src>,
    rows: &[(&'src [u8], &str)],
) {
    assert_answers(rt, &bytes.collect_exactly::<ArrayVec<u8, 3>>(), rows);
}

#[test]
fn an_array_of_bytes_is_filled_and_asks_for_no_more(rt: HostRuntime) {
    let rows: [(&[u8], &str); 2] = [
        (&[7, 7, 7], "ok [7, 7, 7]"),
        (&[7, 7, 7, 7], "error 3..4 expected end of input found 7"),
    ];
    assert_three_bytes(&rt, just(7).repeated(), &rows);
    let rows: [(&[u8], &str); 1] = [(&[7, 7], "error 2..2 expected nothing found end")];
    assert_three_bytes(&rt, just(7).repeated().at_most(2), &rows);
}

#[test]
fn items_of_an_array_need_not_move(rt: HostRuntime) {
    let two = empty::<_, Own>()
        .repeated()
        .collect_exactly::<ArrayVec<(), 2>>();
    let rows = [
        ("", "ok [(), ()]"),
        ("a", "error 0..1 expected end of input found 'a'"),
    ];
    assert_answers(&rt, &two, &rows);
}

#[test]
fn items_of_an_array_over_bytes_need_not_move(rt: HostRuntime) {
    let two = empty::<_, Own>()
        .repeated()
        .collect_exactly::<ArrayVec<(), 2>>();
    let rows: [(&[u8], &str); 2] = [
        (&[], "ok [(), ()]"),
        (&[7], "error 0..1 expected end of input found 7"),
    ];
    assert_answers(&rt, &two, &rows);
}

#[test]
fn what_may_be_absent_is_one_item_or_none(rt: HostRuntime) {
    let perhaps = just_char('a').or_not().collect::<Vec<_>>();
    let rows = [
        ("a", "ok ['a']"),
        ("", "ok []"),
        ("aa", "error 1..2 expected end of input found 'a'"),
        ("b", "error 0..1 expected 'a', end of input found 'b'"),
    ];
    assert_answers(&rt, &perhaps, &rows);
}

#[test]
fn a_byte_that_may_be_absent_is_one_item_or_none(rt: HostRuntime) {
    let perhaps = just::<_, _, Own>(7).or_not().count();
    let rows: [(&[u8], &str); 3] = [
        (&[7], "ok 1"),
        (&[], "ok 0"),
        (&[8], "error 0..1 expected 7, end of input found 8"),
    ];
    assert_answers(&rt, &perhaps, &rows);
}

/// The second try fails past its emitted error, and is gone back from.
#[test]
fn what_a_failing_item_emits_goes(rt: HostRuntime) {
    let emitting = custom::<_, &str, char, Quiet>(|inp| {
        let token = inp.parse(any())?;
        inp.emit(EmptyErr)?;
        Ok(token)
    });
    let pairs = emitting.then(just('c')).repeated();
    let rows = [("acac", "ok (); error; error"), ("acad", "error; error")];
    assert_answers(&rt, &pairs, &rows);
}

/// Counts the items that it takes, and has room for two.
#[derive(Drop, Debug)]
struct Two {
    taken: usize,
}

impl Container<char> for Two {
    ghost holds = { λ xs two. two.taken ≡ length xs };

    ghost takes_no_memory = { ⊥ };

    fn new(_alloc: Global) -> Two {
        Two { taken: 0 }
    }

    fn push(&mut self, _item: char) -> Result<(), AllocError> {
        if self.taken >= 2 {
            return Err(AllocError);
        }
        self.taken += 1;
        Ok(())
    }
}

/// Where no output is wanted nothing is collected, so nothing is refused.
#[test]
fn an_item_without_room_refuses_the_run(rt: HostRuntime) {
    let letters = just_char('a').repeated().collect::<Two>();
    let rows = [
        ("aa", "ok Two { taken: 2 }"),
        ("aaa", "parse: refused Memory; but check: ok"),
        ("", "ok Two { taken: 0 }"),
    ];
    assert_answers(&rt, &letters, &rows);
}

/// A value and a copy of it for a parser to hand out, whose clones are counted.
fn shared<R: Abort + AllocGlobal>(rt: &R) -> (Rc<u8>, Rc<u8>) {
    let first = Rc::new(rt.alloc(), 7).ok().expect(rt, "out of memory");
    let second = first.clone().ok().expect(rt, "out of memory");
    (first, second)
}

/// Two holders are left after each run: the test, and the parser.
#[test]
fn a_list_that_fails_lets_its_items_go(rt: HostRuntime) {
    let (value, handed_out) = shared(&rt);
    let list = just_char('a')
        .to(handed_out)
        .repeated()
        .at_least(2)
        .collect::<Vec<_>>();
    let rows = [
        ("aaa", "ok [7, 7, 7]"),
        ("a", "error 1..1 expected 'a' found end"),
        ("aab", "error 2..3 expected 'a', end of input found 'b'"),
    ];
    for (text, line) in rows {
        assert_answers(&rt, &list, &[(text, line)]);
        assert_eq!(rt; Rc::strong_count(&value), 2);
    }
}

#[test]
fn an_array_that_is_not_filled_lets_its_items_go(rt: HostRuntime) {
    let (value, handed_out) = shared(&rt);
    let array = just_char('a')
        .to(Some(handed_out))
        .repeated()
        .collect_exactly::<ArrayVec<Option<Rc<u8>>, 2>>();
    let rows = [
        ("aa", "ok [Some(7), Some(7)]"),
        ("a", "error 1..1 expected 'a' found end"),
        ("aaa", "error 2..3 expected end of input found 'a'"),
    ];
    for (text, line) in rows {
        assert_answers(&rt, &array, &[(text, line)]);
        assert_eq!(rt; Rc::strong_count(&value), 2);
    }
}

/// Takes a run apart.
fn end<'src>(inp: InputRef<'src, '_, &'src str, Quiet>) {
    let Finished {
        cursor: _,
        state: _,
        errors: _,
    } = inp.finish();
}

/// A step that is asked after as many items as can be counted.
#[test]
fn no_progress_goes_before_a_count_too_large(rt: HostRuntime) {
    let mut state = ();
    let mut inp: InputRef<'_, '_, &str, Quiet> = InputRef::new(rt.alloc(), "aaaa", &mut state, &());
    let asked = IterParserDebug {
        nonconsumption_is_ok: false,
    };
    let mut count = usize::MAX;
    let step = empty::<_, Quiet>()
        .repeated()
        .next_emit(&mut inp, &mut count, asked);
    assert!(rt; matches!(step, Err(Fault::Stop(Stop::NoProgress))));
    let step = empty::<_, Quiet>()
        .repeated()
        .next_check(&mut inp, &mut count, asked);
    assert!(rt; matches!(step, Err(Fault::Stop(Stop::NoProgress))));
    let step = any::<_, Quiet>()
        .repeated()
        .next_emit(&mut inp, &mut count, asked);
    assert!(rt; matches!(step, Err(Fault::Stop(Stop::CountTooLarge))));
    let step = any::<_, Quiet>()
        .repeated()
        .next_check(&mut inp, &mut count, asked);
    assert!(rt; matches!(step, Err(Fault::Stop(Stop::CountTooLarge))));
    let step = just::<_, _, Quiet>('b')
        .repeated()
        .next_emit(&mut inp, &mut count, asked);
    assert!(rt; matches!(step, Ok(None)));
    end(inp);
}
