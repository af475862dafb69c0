//! Runs of a program over a text.
use console::run::{Program, run};
use programs::show::Show;
use std::alloc::{AllocError, AllocGlobal, Global};
use std::process::Abort;

/// What a run left behind.
#[derive(Drop)]
pub struct Answer {
    pub status: u8,
    pub out: Vec<u8>,
    pub err: Vec<u8>,
}

/// The words of a line, which has a space between them.
pub fn words_of(alloc: Global, line: &str) -> Result<Vec<String>, AllocError> {
    let mut words = Vec::new(alloc);
    for word in line.split(' ').filter(|word| !word.is_empty()) {
        words.push(String::from_str(alloc, word)?)?;
    }
    Ok(words)
}

/// Runs a program on the words of a line.
pub fn ran<P: Program>(
    program: &P,
    alloc: Global,
    line: &str,
    input: &[u8],
) -> Result<Answer, AllocError> {
    let words = words_of(alloc, line)?;
    let mut left = input;
    let mut out = Vec::new(alloc);
    let mut err = Vec::new(alloc);
    let status = run(
        program,
        alloc,
        words.as_slice(),
        &mut left,
        &mut out,
        &mut err,
    );
    Ok(Answer { status, out, err })
}

/// Asserts what a program prints of each text, what it reports, and the exit status: by words, text, status, output and report.
pub fn assert_ran<R: Abort + AllocGlobal, P: Program>(
    rt: &R,
    program: &P,
    rows: &[(&str, &[u8], u8, &str, &str)],
) {
    for (line, text, status, output, reported) in rows {
        let answer = ran(program, rt.alloc(), line, text).expect(rt, "out of memory");
        let printed = String::from_utf8(answer.out).expect(rt, "not UTF-8");
        let told = String::from_utf8(answer.err).expect(rt, "not UTF-8");
        assert_eq!(rt; printed.as_str(), *output, "of {text:?}");
        assert_eq!(rt; told.as_str(), *reported, "of {text:?}");
        assert_eq!(rt; answer.status, *status, "of {text:?}");
    }
}

/// Asserts what `show` prints of each text, then what it reports, from the first `input:` on, and the exit status.
pub fn assert_shown<R: Abort + AllocGlobal>(rt: &R, line: &str, rows: &[(&str, u8, &str)]) {
    for (text, status, told) in rows {
        let (output, reported) = told.split_at(told.find("input:").unwrap_or(told.len()));
        assert_ran(
            rt,
            &Show,
            &[(line, text.as_bytes(), *status, output, reported)],
        );
    }
}
