//! The program `chk`, by the function that it calls: its words, its input and what it prints.
use crate::line::Line;
use crate::run::say_stop;
use chk_run::run::run;
use chumsky::Stop;
use std::alloc::Global;

/// One run of the program on the words `parse` or `check` and a name, over a text: its status and what it printed, with `|` at the
/// end of each line.
pub fn sweep_chk(alloc: Global, row: usize, check: bool, again: bool) -> Line {
    let (name, text) = match row {
        0 => ("ab", "ab"),
        1 => ("ab", "ac"),
        2 => ("list", "[12,3,]"),
        3 => ("list", "[1,,2]"),
        4 => ("loops", "[+[]]"),
        5 => ("loops", "[["),
        6 => ("settings", "a=01\nb=[1,[x,],]\n"),
        7 => ("settings", "a=1"),
        8 => ("settings", "a=99999999999999999999\n"),
        _ => ("no", ""),
    };
    let mut refused = false;
    let command = if check { "check" } else { "parse" };
    let words = words_of(alloc, command, name, &mut refused);
    let mut line = Line::new();
    if refused {
        say_stop(&mut line, Stop::Memory);
    } else {
        say_run(alloc, words.as_slice(), text, &mut line);
    }
    if again {
        line.byte(b'\n');
        say_run(alloc, words.as_slice(), text, &mut line);
    }
    line
}

/// Two words, each asked for once more where it is refused.
fn words_of(alloc: Global, command: &str, name: &str, refused: &mut bool) -> Vec<String> {
    let mut words = Vec::new(alloc);
    if words.reserve(2).is_err() {
        *refused = true;
        let _ = words.reserve(2);
    }
    let _ = words.push(word_of(alloc, command, refused));
    let _ = words.push(word_of(alloc, name, refused));
    words
}

/// A word, asked for once more where it is refused.
fn word_of(alloc: Global, word: &str, refused: &mut bool) -> String {
    match String::from_str(alloc, word) {
        Ok(word) => word,
        Err(_) => {
            *refused = true;
            match String::from_str(alloc, word) {
                Ok(word) => word,
                Err(_) => String::new(alloc),
            }
        }
    }
}

/// Writes the status of a run, and what it printed on either output.
fn say_run(alloc: Global, words: &[String], text: &str, line: &mut Line) {
    let mut left = text.as_bytes();
    let mut printed = Line::new();
    let mut complaint = Line::new();
    let status = run(alloc, words, &mut left, &mut printed, &mut complaint).status;
    if status == 3 && printed.written() == b"refused Memory|".as_slice() {
        say_stop(line, Stop::Memory);
    } else {
        line.number(status as usize);
        line.byte(b' ');
        line.line(&printed);
    }
    line.line(&complaint);
}
