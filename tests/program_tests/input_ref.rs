//! Calls of `InputRef` over a slice, with a state that shows what it was told.
ghost use Rattle.std.specs.Prelude.{ℕ, ⊤, refl};

use chumsky::extra::{Default, Full};
use chumsky::input::{Finished, InputRef, Tokens};
use chumsky::inspector::Inspector;
use chumsky::prelude::*;
use std::alloc::AllocError;

/// The last token that was told.
#[derive(Drop)]
struct Last {
    token: u8,
}

impl<I: Tokens<Token = u8>> Inspector<I> for Last {
    type Mark = u8;

    ghost Seen = { ℕ };

    ghost seen = { λ s. s.token };

    ghost Marked = { ℕ };

    ghost marked = { λ m. m };

    ghost after = { λ s t. t };

    ghost mark = { λ s. s };

    ghost back = { λ s m. m };

    ghost takes_no_memory = { ⊤ };

    ghost goes_back = { λ s. refl };

    fn on_token(&mut self, token: &u8) {
        self.token = *token;
    }

    fn on_save(&self) -> Result<u8, AllocError> {
        Ok(self.token)
    }

    fn on_rewind(&mut self, saved: &u8) -> Result<(), AllocError> {
        self.token = *saved;
        Ok(())
    }
}

type Told = Full<EmptyErr, Last, char>;

/// Takes a run apart.
fn end<'src>(inp: InputRef<'src, '_, &'src [u8], Told>) {
    let Finished {
        cursor: _,
        state: _,
        errors: _,
    } = inp.finish();
}

/// Writes the state, and leaves all else.
fn write<'src>(inp: &mut InputRef<'src, '_, &'src [u8], Told>, token: u8) {
    *inp.state() = Last { token };
}

#[test]
fn a_peek_takes_nothing_and_tells_nothing(rt: HostRuntime) {
    let mut state = Last { token: 0 };
    let context = 'c';
    let tokens = [7, 8];
    let mut inp: InputRef<'_, '_, &[u8], Told> = InputRef::new(
        rt.alloc(),
        &tokens,
        &mut state,
        &context,
    );
    let peeked = inp.peek().ok().expect(&rt, "a byte takes no memory");
    assert!(rt; peeked == Some(7));
    assert!(rt; inp.peek_ref() == Some(&7));
    assert!(rt; inp.state().token == 0);
    let taken = inp.next().ok().expect(&rt, "a byte takes no memory");
    assert!(rt; taken == Some(7));
    assert!(rt; inp.state().token == 7);
    inp.skip();
    let peeked = inp.peek().ok().expect(&rt, "there is no token");
    assert!(rt; peeked == None);
    assert!(rt; inp.peek_ref() == None);
    end(inp);
}

#[test]
fn a_token_is_taken_where_it_lies(rt: HostRuntime) {
    let mut state = Last { token: 0 };
    let context = 'c';
    let tokens = [7, 8, 9];
    let mut inp: InputRef<'_, '_, &[u8], Told> = InputRef::new(
        rt.alloc(),
        &tokens,
        &mut state,
        &context,
    );
    inp.skip();
    assert!(rt; inp.state().token == 7);
    let before = inp.cursor();
    assert!(rt; inp.next_ref() == Some(&8));
    assert!(rt; inp.state().token == 8);
    assert!(rt; inp.next_ref() == Some(&9));
    assert!(rt; inp.next_ref() == None);
    assert!(rt; inp.slice_since(&before) == [8, 9].as_slice());
    assert!(rt; inp.span_since(&before) == SimpleSpan { start: 1, end: 3 });
    end(inp);
}

#[test]
fn a_state_can_be_written(rt: HostRuntime) {
    let mut state = Last { token: 0 };
    let context = 'c';
    let tokens = [7];
    let mut inp: InputRef<'_, '_, &[u8], Told> = InputRef::new(
        rt.alloc(),
        &tokens,
        &mut state,
        &context,
    );
    write(&mut inp, 3);
    assert!(rt; inp.state().token == 3);
    assert!(rt; *inp.ctx() == 'c');
    let mut bytes = Vec::new(inp.alloc());
    bytes.push(1).ok().expect(&rt, "room for a byte");
    assert!(rt; bytes.as_slice() == [1].as_slice());
    end(inp);
}

#[test]
fn a_part_of_a_text_begins_and_ends_at_characters(rt: HostRuntime) {
    let mut state = ();
    let context = ();
    let mut inp: InputRef<'_, '_, &str, Default> = InputRef::new(
        rt.alloc(),
        "aéb",
        &mut state,
        &context,
    );
    inp.skip();
    let before = inp.cursor();
    inp.skip();
    assert!(rt; inp.slice_since(&before) == "é");
    let Finished {
        cursor: _,
        state: _,
        errors: _,
    } = inp.finish();
}
