//! States that go back where the parser does.
use crate::line::{Line, Say};
use crate::run::{say_answer, say_stop};
use chumsky::Stop;
use chumsky::extra::Full;
use chumsky::inspector::RollbackState;
use chumsky::prelude::*;
use guide::contexts::declared;
use std::alloc::Global;

/// Errors of a text, and a number that is restored.
type Restored = Full<Rich<char>, RollbackState<u64>, ()>;

/// What is left of a number that a failed alternative counted up.
pub fn sweep_restored_state(alloc: Global, _row: usize, check: bool, again: bool) -> Line {
    let pair = any::<&str, Restored>()
        .map_with(|c, extra| {
            extra.state().0 = extra.state().0.wrapping_add(1);
            c
        })
        .then(just('b'))
        .or(any().then(any()));
    let mut line = Line::new();
    from_zero(&pair, alloc, check, &mut line);
    if again {
        line.byte(b'\n');
        from_zero(&pair, alloc, check, &mut line);
    }
    line
}

/// Errors of a text, and a text that is restored: each save and each rewind takes memory.
type RestoredText = Full<Rich<char>, RollbackState<String>, ()>;

/// A text that is restored, where an alternative failed.
pub fn sweep_restored_text(alloc: Global, _row: usize, check: bool, again: bool) -> Line {
    let pair = any::<&str, RestoredText>()
        .map_with(|c, extra| {
            extra.state().0.clear();
            c
        })
        .then(just('b'))
        .or(any().then(any()));
    let mut line = Line::new();
    from_text(&pair, alloc, check, &mut line);
    if again {
        line.byte(b'\n');
        from_text(&pair, alloc, check, &mut line);
    }
    line
}

/// Runs a parser of two characters from a state of one letter, and writes what it leaves of the state where it isn't refused.
fn from_text<'src, P>(parser: &P, alloc: Global, check: bool, line: &mut Line)
where
    P: IsParser<&'src str, (char, char), RestoredText>
        + Parser<'src, &'src str, (char, char), RestoredText>,
    requires { P.ready parser.now }
{
    let mut state = match String::from_str(alloc, "z") {
        Ok(text) => RollbackState(text),
        Err(_) => {
            say_stop(line, Stop::Memory);
            return;
        }
    };
    let answered = if check {
        let answer = parser.check_with_state(alloc, "ac", &mut state);
        say_answer(line, &answer);
        answer.is_ok()
    } else {
        let answer = parser.parse_with_state(alloc, "ac", &mut state);
        say_answer(line, &answer);
        answer.is_ok()
    };
    if answered {
        line.text("; state ");
        line.text(state.0.as_str());
    }
}

/// Runs a parser of two characters from a state of zero, and writes what it leaves of the state where it isn't refused.
fn from_zero<'src, P>(parser: &P, alloc: Global, check: bool, line: &mut Line)
where
    P: IsParser<&'src str, (char, char), Restored>
        + Parser<'src, &'src str, (char, char), Restored>,
    requires { P.ready parser.now }
{
    let mut state = RollbackState(0u64);
    let answered = if check {
        let answer = parser.check_with_state(alloc, "ac", &mut state);
        say_answer(line, &answer);
        answer.is_ok()
    } else {
        let answer = parser.parse_with_state(alloc, "ac", &mut state);
        say_answer(line, &answer);
        answer.is_ok()
    };
    if answered {
        line.text("; state ");
        match usize::try_from(state.0) {
            Ok(number) => line.number(number),
            Err(_) => line.text("many"),
        }
    }
}

/// The names that a text declares, by the guide's function.
pub fn sweep_declared(alloc: Global, _row: usize, _check: bool, again: bool) -> Line {
    let mut line = Line::new();
    say_declared(alloc, &mut line);
    if again {
        line.byte(b'\n');
        say_declared(alloc, &mut line);
    }
    line
}

/// Writes the names, or why there are none.
fn say_declared(alloc: Global, line: &mut Line) {
    match declared(alloc, "a;b!c;") {
        Ok(names) => {
            line.text("ok ");
            for name in names.as_slice() {
                name.say(line);
            }
        }
        Err(stop) => say_stop(line, stop),
    }
}
