//! Works whose time a text from outside could let grow: each is run on an input of one size and on one ten times as large, and
//! the quotient of the two times is printed. See scripts/growth.
#![tactic(auto)]

mod works;

use crate::works::{Work, run_work};
use std::process::ExitCode;
use std::time::{Duration, Instant};
use std::{env, io};

/// How many times as large the second input is.
const TIMES: usize = 10;

/// How many runs there are of each size, of which the shortest counts.
const RUNS: usize = 2;

/// The shortest time of some runs of a work of this size. None where a run doesn't answer as it should.
fn shortest(rt: &HostRuntime, work: Work, size: usize) -> io::Result<Option<Duration>> {
    let mut shortest = Duration::from_secs(86_400);
    for _run in 0..RUNS {
        let began = Instant::now(rt)?;
        let answered = run_work(rt.alloc(), work, size)?;
        let took = began.elapsed(rt)?;
        if !answered {
            return Ok(None);
        }
        shortest = shortest.min(took);
    }
    Ok(Some(shortest))
}

/// Runs a work, and prints by how much its time grew. Says whether that is little enough.
fn grows_little(
    rt: &HostRuntime,
    work: Work,
    name: &str,
    size: usize,
    at_most: u128,
) -> io::Result<bool> {
    let small = shortest(rt, work, size)?;
    let large = shortest(rt, work, size * TIMES)?;
    let (Some(small), Some(large)) = (small, large) else {
        println!(rt; "{name}: answered wrongly: FAILED")?;
        return Ok(false);
    };
    let (small, large) = (small.as_micros().max(1), large.as_micros());
    let passes = large <= small * at_most;
    let verdict = if passes { "" } else { ": FAILED" };
    let grew = large / small;
    println!(rt;
        "{name}: {size} in {small} us, {TIMES} times as many in {large} us, {grew} times as long{verdict}"
    )?;
    Ok(passes)
}

/// The size that a word names, if it names one.
fn size_of(word: Option<&String>, size: usize) -> usize {
    match word {
        Some(word) => word.as_str().parse::<usize>().unwrap_or(size),
        None => size,
    }
}

fn main(rt: HostRuntime) -> io::Result<ExitCode> {
    let mut args = env::args(&rt)?;
    let _program = args.next();
    let words: Vec<String> = args.collect(rt.alloc())?;
    let words = words.as_slice();
    let (mut passed, mut failed) = (0, 0);
    for (work, name, size, at_most) in works::WORKS {
        if words.first().is_none_or(|word| word.as_str() == name) {
            if grows_little(&rt, work, name, size_of(words.get(1), size), at_most)? {
                passed += 1;
            } else {
                failed += 1;
            }
        }
    }
    println!(rt; "{passed} passed, {failed} failed")?;
    Ok(ExitCode::from(if failed == 0 && passed > 0 { 0 } else { 1 }))
}
