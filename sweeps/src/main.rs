//! Runs of the library that ask for memory: the standard input names a row and how it is run, and the standard output says what
//! it answers, a line for each run. A row makes what it runs, runs it, and where that is asked for, runs the same thing once
//! more. Nothing else that this program does asks for memory, so that a judge can refuse one request of a row after another.
#![tactic(auto)]

mod chk;
mod clones;
mod cloning;
mod descent;
mod grammars;
mod items;
mod line;
mod plans;
mod pratt;
mod recovery;
mod rows;
mod run;
mod states;

use crate::line::Line;
use std::alloc::Global;
use std::io;
use std::io::{Read, Write};
use std::process::ExitCode;

/// Reads the number of a row, 1 for `check` and 0 for `parse`, 1 for a second run and 0 for none, each in one byte, and the name of
/// a row. The status is 0 where all of the answer was written.
fn main(rt: HostRuntime) -> ExitCode {
    let mut asked = [0u8; 64];
    let read = match rt.reader().read(&mut asked) {
        Ok(read) => read,
        Err(_) => return ExitCode::from(2),
    };
    let line = match asked.get(..read) {
        Some([row, check, again, name @ ..]) => {
            answer_of(
                rt.alloc(),
                name,
                usize::from(*row),
                *check == 1,
                *again == 1,
            )
        }
        _ => None,
    };
    let answered = match line {
        Some(line) => io::writer(&rt).write_all(line.written()).is_ok(),
        None => false,
    };
    ExitCode::from(if answered { 0 } else { 2 })
}

/// Runs a row. None where no row has this name.
fn answer_of(alloc: Global, name: &[u8], row: usize, check: bool, again: bool) -> Option<Line> {
    let answer = match name {
        b"chk" => chk::sweep_chk(alloc, row, check, again),
        b"clone_primitive" => clones::sweep_clone_primitive(alloc, row, check, again),
        b"clone_sequence" => clones::sweep_clone_sequence(alloc, row, check, again),
        b"clone_operators" => clones::sweep_clone_operators(alloc, row, check, again),
        b"clone_mapped" => clones::sweep_clone_mapped(alloc, row, check, again),
        b"clone_items" => clones::sweep_clone_items(alloc, row, check, again),
        b"clone_recovered" => clones::sweep_clone_recovered(alloc, row, check, again),
        b"clone_under" => clones::sweep_clone_under(alloc, row, check, again),
        b"clone_value" => clones::sweep_clone_value(alloc, row, check, again),
        b"into_owned" => clones::sweep_into_owned(alloc, row, check, again),
        b"closing" => grammars::sweep_closing(alloc, row, check, again),
        b"well_founded" => grammars::sweep_well_founded(alloc, row, check, again),
        b"grammar" => grammars::sweep_grammar(alloc, row, check, again),
        b"drawn" => grammars::sweep_drawn(alloc, row, check, again),
        b"recursive" => grammars::sweep_recursive(alloc, row, check, again),
        b"calls" => descent::sweep_calls(alloc, row, check, again),
        b"chained_items" => items::sweep_chained_items(alloc, row, check, again),
        b"flatten" => items::sweep_flatten(alloc, row, check, again),
        b"collect" => items::sweep_collect(alloc, row, check, again),
        b"filtered_items" => items::sweep_filtered_items(alloc, row, check, again),
        b"items" => items::sweep_items(alloc, row, check, again),
        b"few_items" => items::sweep_few_items(alloc, row, check, again),
        b"empty_items" => items::sweep_empty_items(alloc, row, check, again),
        b"items_of_an_output" => items::sweep_items_of_an_output(alloc, row, check, again),
        b"operators" => pratt::sweep_operators(alloc, row, check, again),
        b"kept_operators" => pratt::sweep_kept_operators(alloc, row, check, again),
        b"recovered" => recovery::sweep_recovered(alloc, row, check, again),
        b"delimited" => recovery::sweep_delimited(alloc, row, check, again),
        b"set" => rows::sweep_set(alloc, row, check, again),
        b"filtered_merges" => rows::sweep_filtered_merges(alloc, row, check, again),
        b"merges" => rows::sweep_merges(alloc, row, check, again),
        b"messages" => rows::sweep_messages(alloc, row, check, again),
        b"refusal_with_a_message" => rows::sweep_refusal_with_a_message(alloc, row, check, again),
        b"filter" => rows::sweep_filter(alloc, row, check, again),
        b"nested" => rows::sweep_nested(alloc, row, check, again),
        b"declared" => states::sweep_declared(alloc, row, check, again),
        b"restored_state" => states::sweep_restored_state(alloc, row, check, again),
        b"restored_text" => states::sweep_restored_text(alloc, row, check, again),
        _ => return None,
    };
    Some(answer)
}
