//! How programs are asked, what they say where they give no answer, and the statuses that they end with.
use super::shown::{assert_ran, words_of};
use console::failure::{Failure, status_of};
use console::run::{Program, run};
use programs::calc::Calc;
use programs::format_json::FormatJson;
use programs::format_lisp::FormatLisp;
use programs::format_program::FormatProgram;
use programs::show::Show;
use std::alloc::{AllocError, Global};
use std::io;
use std::io::{ErrorKind, Read, Write};
use std::process::Abort;
use std::test::Fail;

/// Fails, for a reason.
#[derive(Drop)]
struct Failing {
    kind: ErrorKind,
}

impl Read for Failing {
    fn read(&mut self, buf: &mut [u8]) -> io::Result<usize> {
        Err(io::Error::from(self.kind))
    }
}

impl Write for Failing {
    fn write(&mut self, buf: &[u8]) -> io::Result<usize> {
        Err(io::Error::from(self.kind))
    }

    fn flush(&mut self) -> io::Result<()> {
        Err(io::Error::from(self.kind))
    }
}

#[test]
fn what_is_accepted_is_printed(rt: HostRuntime) {
    assert_ran(&rt, &Calc, &[("", b"2 * (3 + 4)\n", 0, "14\n", "")]);
    assert_ran(
        &rt,
        &FormatJson,
        &[
            ("", b"[1, {\"a\": null}]", 0, "[1,{\"a\":null}]\n", ""),
            ("--indented", b"[1]", 0, "[\n  1\n]\n", ""),
        ],
    );
    assert_ran(&rt, &FormatLisp, &[("", b"(a  b) c", 0, "(a b)\nc\n", "")]);
    assert_ran(&rt, &Show, &[("ini", b"[a]\nb=c", 0, "[a]\nb = c\n", "")]);
    let rows: [(&str, &[u8], u8, &str, &str); 3] = [
        ("", b"", 0, "", ""),
        ("", b"let a=1 /* one */; a+2 *-b(c,d)\n", 0, "let a = 1;\n(a + (2 * -b(c, d)));\n", ""),
        ("", b"{}; f({a;b})(); (1); \"x;\" // end", 0, "{};\nf({a; b})();\n1;\n\"x;\";\n", ""),
    ];
    assert_ran(&rt, &FormatProgram, &rows);
}

#[test]
fn errors_are_reported_beside_the_output(rt: HostRuntime) {
    let by_zero = "input:1:3: division by zero\n1 / 0\n  ^\n";
    assert_ran(&rt, &Calc, &[("", b"1 / 0", 1, "", by_zero)]);
    let no_value = "input:1:2: expected a string, a number, 'n', 't', 'f', '[' or '{', found 'x'\n[x]\n ^\n";
    let not_closed = "input:1:3: expected a value, ',' or ']', found end of input\n[x\n  ^\n";
    let rows: [(&str, &[u8], u8, &str, &str); 2] = [
        ("", b"[x]", 1, "", no_value),
        ("", b"[x", 1, "", not_closed),
    ];
    assert_ran(&rt, &FormatJson, &rows);
    let no_list =
        "input:1:1: expected whitespace, a comment, an atom, '(', '\\'' or end of input, found ')'\n)\n^\n";
    assert_ran(&rt, &FormatLisp, &[("", b")", 1, "", no_list)]);
    let of_both = "input:1:3: expected an operator, ';', '}' or end of input, found 'a name'\na b; 1 $+ 2\n  ^\n\
                   input:1:8: expected a token, found '$'\na b; 1 $+ 2\n       ^\n";
    assert_ran(&rt, &FormatProgram, &[("", b"a b; 1 $+ 2", 1, "a b;\n(1 + 2);\n", of_both)]);
}

/// What `format_program` prints is a program that it prints alike.
#[test]
fn a_program_that_was_formatted_stays_as_it_is(rt: HostRuntime) {
    let formatted = b"let a = (1 + (2 * -b(c, {d; e})));\n{};\n\"x\"(a)(b);\n";
    assert_ran(&rt, &FormatProgram, &[("", formatted, 0, "let a = (1 + (2 * -b(c, {d; e})));\n{};\n\"x\"(a)(b);\n", "")]);
}

#[test]
fn other_words_are_answered_by_what_words_there_are(rt: HostRuntime) {
    for line in ["", "yaml", "ini log", "ini --indent"] {
        assert_ran(&rt, &Show, &[(line, b"1", 2, "", "usage: show ini|log\n")]);
    }
    assert_ran(&rt, &Calc, &[("1+1", b"1", 2, "", "usage: calc\n")]);
    assert_ran(
        &rt,
        &FormatLisp,
        &[("--indented", b"1", 2, "", "usage: format_lisp\n")],
    );
    assert_ran(
        &rt,
        &FormatProgram,
        &[("--indented", b"1", 2, "", "usage: format_program\n")],
    );
    for line in ["--indent", "--indented --indented"] {
        assert_ran(
            &rt,
            &FormatJson,
            &[(line, b"1", 2, "", "usage: format_json [--indented]\n")],
        );
    }
}

#[test]
fn what_is_no_text_is_not_read(rt: HostRuntime) {
    let told = "input is not UTF-8\n";
    assert_ran(&rt, &Calc, &[("", b"1\xFF", 2, "", told)]);
    assert_ran(&rt, &FormatJson, &[("", b"[\xFF]", 2, "", told)]);
    assert_ran(&rt, &FormatLisp, &[("", b"(\xFF)", 2, "", told)]);
    assert_ran(&rt, &FormatProgram, &[("", b"a;\xFF", 2, "", told)]);
    assert_ran(&rt, &Show, &[("ini", b"[\xFF]", 2, "", told)]);
}

/// Whether a program whose input can't be read for this reason ends with the status, a line on `err` and no output.
fn says_of_input<P: Program>(
    program: &P,
    alloc: Global,
    line: &str,
    kind: ErrorKind,
    status: u8,
    told: &str,
) -> Result<bool, AllocError> {
    let words = words_of(alloc, line)?;
    let (mut out, mut err) = (Vec::new(alloc), Vec::new(alloc));
    let mut input = Failing { kind };
    let ended = run(
        program,
        alloc,
        words.as_slice(),
        &mut input,
        &mut out,
        &mut err,
    );
    Ok(ended == status && out.is_empty() && err.as_slice() == told.as_bytes())
}

/// Whether a program says of its input that it can't be read, and that there is no memory for it.
fn tells_of_input<P: Program>(program: &P, alloc: Global, line: &str) -> Result<bool, AllocError> {
    let torn = ErrorKind::Other;
    let starved = ErrorKind::OutOfMemory;
    Ok(
        says_of_input(program, alloc, line, torn, 2, "cannot read input\n")?
            && says_of_input(program, alloc, line, starved, 3, "refused: out of memory\n")?,
    )
}

#[test]
fn input_that_cannot_be_read_is_told(rt: HostRuntime) -> Result<(), Fail> {
    let alloc = rt.alloc();
    assert!(rt; tells_of_input(&Calc, alloc, "")?);
    assert!(rt; tells_of_input(&FormatJson, alloc, "")?);
    assert!(rt; tells_of_input(&FormatLisp, alloc, "")?);
    assert!(rt; tells_of_input(&FormatProgram, alloc, "")?);
    assert!(rt; tells_of_input(&Show, alloc, "log")?);
    Ok(())
}

/// Whether a program whose output can't be written says so.
fn tells_of_output<P: Program>(
    program: &P,
    alloc: Global,
    line: &str,
    text: &str,
) -> Result<bool, AllocError> {
    let words = words_of(alloc, line)?;
    let mut out = Failing {
        kind: ErrorKind::Other,
    };
    let (mut input, mut err) = (text.as_bytes(), Vec::new(alloc));
    let ended = run(
        program,
        alloc,
        words.as_slice(),
        &mut input,
        &mut out,
        &mut err,
    );
    Ok(ended == 2 && err.as_slice() == b"cannot write output\n".as_slice())
}

#[test]
fn output_that_cannot_be_written_is_told(rt: HostRuntime) -> Result<(), Fail> {
    let alloc = rt.alloc();
    assert!(rt; tells_of_output(&Calc, alloc, "", "1")?);
    assert!(rt; tells_of_output(&FormatJson, alloc, "", "1")?);
    assert!(rt; tells_of_output(&FormatLisp, alloc, "", "1")?);
    assert!(rt; tells_of_output(&FormatProgram, alloc, "", "1")?);
    assert!(rt; tells_of_output(&Show, alloc, "ini", "[a]")?);
    Ok(())
}

#[test]
fn a_line_that_cannot_be_written_changes_no_status(rt: HostRuntime) {
    let mut err = Failing {
        kind: ErrorKind::Other,
    };
    assert_eq!(rt; status_of(&mut err, "calc", Err(Failure::Words)), 2);
    assert_eq!(rt; status_of(&mut err, "calc", Err(Failure::NoGrammar)), 3);
}

/// So many opening brackets.
fn opened(alloc: Global, bracket: char, count: usize) -> Result<String, AllocError> {
    let mut text = String::new(alloc);
    for _ in 0..count {
        text.push(bracket)?;
    }
    Ok(text)
}

#[test]
fn what_is_nested_too_deeply_is_refused(rt: HostRuntime) -> Result<(), Fail> {
    let told = "refused: too deep\n";
    let lists = opened(rt.alloc(), '(', 200)?;
    assert_ran(
        &rt,
        &FormatLisp,
        &[("", lists.as_str().as_bytes(), 3, "", told)],
    );
    let lists = opened(rt.alloc(), '[', 200)?;
    assert_ran(
        &rt,
        &FormatJson,
        &[("", lists.as_str().as_bytes(), 3, "", told)],
    );
    let blocks = opened(rt.alloc(), '{', 200)?;
    assert_ran(
        &rt,
        &FormatProgram,
        &[("", blocks.as_str().as_bytes(), 3, "", told)],
    );
    Ok(())
}

#[test]
fn a_hundred_brackets_are_a_sum_or_one_error(rt: HostRuntime) -> Result<(), Fail> {
    let alloc = rt.alloc();
    let opening = opened(alloc, '(', 100)?;
    let closing = opened(alloc, ')', 100)?;
    let sum = format!(in alloc; "{opening}7{closing}")?;
    let marks = opened(alloc, '^', 100)?;
    let why = "this comes to no number, and nests too deep to say why";
    let err = format!(in alloc; "input:1:1: {why}\n{opening}\n{marks}\n")?;
    assert_ran(
        &rt,
        &Calc,
        &[
            ("", sum.as_str().as_bytes(), 0, "7\n", ""),
            ("", opening.as_str().as_bytes(), 1, "", err.as_str()),
        ],
    );
    Ok(())
}

#[test]
fn an_item_that_nests_too_deep_is_told(rt: HostRuntime) -> Result<(), Fail> {
    let alloc = rt.alloc();
    let minuses = opened(alloc, '-', 120)?;
    let marks = opened(alloc, '^', 121)?;
    let text = format!(in alloc; "a+b;{minuses}1")?;
    let out = format!(in alloc; "(a + b);\n{minuses}1;\n")?;
    let err = format!(in alloc; "input:1:5: this item nests too deep\n{text}\n    {marks}\n")?;
    assert_ran(
        &rt,
        &FormatProgram,
        &[("", text.as_str().as_bytes(), 1, out.as_str(), err.as_str())],
    );
    Ok(())
}
