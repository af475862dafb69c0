//! Lines of a log: a reader that keeps no errors, and one that goes on behind a line that is wrong.
use chumsky::Stop;
use chumsky::error::Rich;
use chumsky::prelude::*;
use examples::exact_log::parse_lines;
use examples::log_lines::{Line, parse_log, recover_lines};
use std::alloc::{AllocError, AllocGlobal, Global};
use std::process::Abort;

/// Lines, of which some are right.
const LINES: [&str; 34] = [
    "",
    " ",
    "07:30:59 INFO started",
    "00:00:00 WARN a",
    "23:59:59 ERROR  \tdisk \u{B}full\u{A0} ",
    "12:00:00 INFO \u{2028}x\u{2028}y",
    "12:00:00 INFO \u{85}é€😀\u{C}",
    "12:00:00 INFO INFO INFO",
    "12:00:00 INFO  \t\u{3000}",
    "12:00:00 INFO ",
    "12:00:00 INFO",
    "12:00:00 INFOR no",
    "12:00:00 INFO_ no",
    "12:00:00 INFO: no",
    "12:00:00 INF no",
    "12:00:00 WARNING no",
    "12:00:00 info no",
    "12:00:00  INFO no",
    "12:00:00\tINFO no",
    "12:00:00 INFO\tno",
    "12:00:00INFO no",
    "12:00:60 INFO no",
    "12:60:00 INFO no",
    "24:00:00 INFO no",
    "12:00:0 INFO no",
    "12:0:00 INFO no",
    "2:00:00 INFO no",
    "012:00:00 INFO no",
    "12:00:000 INFO no",
    "+2:00:00 INFO no",
    "12-00:00 INFO no",
    "١٢:00:00 INFO no",
    " 12:00:00 INFO no",
    "\u{B}12:00:00 INFO no",
];

/// Ends of lines, and what is none.
const ENDS: [&str; 9] = [
    "\n", "\r", "\r\n", "\n\r", "\n\n\r\r\n", "", "\u{B}", "\u{2028}", " \n ",
];

/// What stands on another line.
const OTHERS: [&str; 3] = ["", "23:59:59 ERROR x  y ", "23:59:59 FATAL x"];

/// What a run answers.
fn line_of<'src>(
    alloc: Global,
    answer: &Result<ParseResult<Vec<Line<'src>>, Rich<char>>, Stop>,
) -> Result<String, AllocError> {
    match answer {
        Ok(parsed) => format!(in alloc; "{:?} {:?}", parsed.output, parsed.errors),
        Err(stop) => format!(in alloc; "{stop:?}"),
    }
}

/// What a run would answer that has these lines.
fn line_of_lines(alloc: Global, lines: &[Line]) -> Result<String, AllocError> {
    format!(in alloc; "Some({lines:?}) []")
}

/// Whether the reader that keeps no errors takes a text. The other one has an error just where it doesn't, and both give the same.
fn is_taken<R: Abort + AllocGlobal>(rt: &R, text: &str) -> bool {
    let exact = parse_lines(rt.alloc(), text).expect(rt, "a refusal");
    let recovered = recover_lines(rt.alloc(), text);
    let said = line_of(rt.alloc(), &recovered).expect(rt, "out of memory");
    let read = parse_log(rt.alloc(), text);
    let line = line_of(rt.alloc(), &read).expect(rt, "out of memory");
    assert_eq!(rt; line.as_str(), said.as_str(), "of {text:?}");
    match exact.into_output() {
        Some(lines) => {
            let line = line_of_lines(rt.alloc(), lines.as_slice()).expect(rt, "out of memory");
            assert_eq!(rt; line.as_str(), said.as_str(), "of {text:?}");
            true
        }
        None => {
            assert!(rt; !said.as_str().ends_with(" []"), "of {text:?}");
            false
        }
    }
}

#[test]
fn both_readers_take_the_same_texts(rt: HostRuntime) {
    let mut taken = 0;
    let mut left = 0;
    for line in LINES {
        for end in ENDS {
            for other in OTHERS {
                for (first, second) in [(line, other), (other, line)] {
                    let text = format!(in rt.alloc(); "{first}{end}{second}")
                        .expect(&rt, "out of memory");
                    if is_taken(&rt, text.as_str()) {
                        taken += 1;
                    } else {
                        left += 1;
                    }
                }
            }
        }
    }
    assert!(rt; taken > 100 && left > 100, "{taken} and {left}");
}
