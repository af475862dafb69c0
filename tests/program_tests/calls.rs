//! Closures that look ahead, ask where the run stands, and ask for its state and its context.
use answers::asserts::{assert_answers, assert_answers_from};
use answers::extras::{Counted, Own};
use chumsky::prelude::*;
use extending::states::Kept;

#[test]
fn a_closure_looks_ahead(rt: HostRuntime) {
    let perhaps_x = custom::<_, &str, bool, Own>(|inp| {
        let is_x = inp.peek()? == Some('x');
        if is_x {
            inp.skip();
        }
        Ok(is_x)
    });
    let rows = [
        ("x", "ok true"),
        ("", "ok false"),
        ("y", "error 0..1 expected end of input found 'y'"),
    ];
    assert_answers(&rt, &perhaps_x, &rows);
}

#[test]
fn a_closure_asks_where_it_stands(rt: HostRuntime) {
    let extent = custom::<_, &str, (usize, usize, usize), Own>(|inp| {
        let before = inp.cursor();
        inp.skip();
        let span = inp.span_since(&before);
        Ok((span.start, span.end, inp.slice_since(&before).len()))
    });
    let rows = [("é", "ok (0, 2, 2)"), ("", "ok (0, 0, 0)")];
    assert_answers(&rt, &extent, &rows);
}

#[test]
fn a_closure_sees_tokens_where_they_lie(rt: HostRuntime) {
    let twins = custom::<_, &[u8], Option<u8>, Own>(|inp| {
        let first = inp.next_ref().copied();
        if inp.peek_ref().copied() == first {
            inp.skip();
        }
        Ok(first)
    });
    let rows: [(&[u8], &str); 2] = [
        (&[7, 7], "ok Some(7)"),
        (&[7, 8], "error 1..2 expected end of input found 8"),
    ];
    assert_answers(&rt, &twins, &rows);
}

#[test]
fn a_closure_reads_and_writes_the_state(rt: HostRuntime) {
    let counted = custom::<_, &str, u32, Counted>(|inp| {
        let before = inp.state().count;
        let first = inp.ctx().number;
        *inp.state() = Kept { count: first };
        Ok(before)
    });
    let rows = [("", "ok 1; state Kept { count: 3 }")];
    assert_answers_from(&rt, &counted, Kept { count: 1 }, &rows);
}
