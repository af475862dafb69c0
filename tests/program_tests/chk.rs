//! What the program `chk` answers, word for word.
use chk_run::look::look;
use chk_run::run::{Ended, run};
use std::alloc::{AllocError, AllocGlobal, Global};
use std::io;
use std::io::{ErrorKind, Read, Write};
use std::process::Abort;
use std::test::Fail;

/// What a run left behind.
#[derive(Drop)]
struct Outcome {
    status: u8,
    told: bool,
    out: Vec<u8>,
    err: Vec<u8>,
}

fn owned(alloc: Global, words: &[&str]) -> Result<Vec<String>, AllocError> {
    let mut all = Vec::new(alloc);
    for word in words {
        all.push(String::from_str(alloc, *word)?)?;
    }
    Ok(all)
}

fn run_on(alloc: Global, words: &[&str], input: &[u8]) -> Result<Outcome, AllocError> {
    let words = owned(alloc, words)?;
    let mut left = input;
    let mut out = Vec::new(alloc);
    let mut err = Vec::new(alloc);
    let Ended { status, told } = run(alloc, words.as_slice(), &mut left, &mut out, &mut err);
    Ok(Outcome {
        status,
        told,
        out,
        err,
    })
}

/// Gives an `a`, and then fails.
#[derive(Drop)]
struct Torn {
    given: bool,
}

impl Read for Torn {
    fn read(&mut self, buf: &mut [u8]) -> io::Result<usize> {
        match buf {
            [first, ..] if !self.given => {
                *first = b'a';
                self.given = true;
                Ok(1)
            }
            _ => Err(io::Error::other("torn")),
        }
    }
}

/// Fails where memory runs out.
#[derive(Drop)]
struct Starved;

impl Read for Starved {
    fn read(&mut self, buf: &mut [u8]) -> io::Result<usize> {
        Err(io::Error::from(ErrorKind::OutOfMemory))
    }
}

/// Takes so many writes, and then fails.
#[derive(Drop)]
struct Brittle {
    writes: usize,
    kept: Vec<u8>,
}

impl Write for Brittle {
    fn write(&mut self, buf: &[u8]) -> io::Result<usize> {
        if self.writes == 0 {
            return Err(io::Error::other("full"));
        }
        self.writes -= 1;
        self.kept.extend_from_slice(buf)?;
        Ok(buf.len())
    }

    fn flush(&mut self) -> io::Result<()> {
        Ok(())
    }
}

/// Asserts what the program prints of each text, and its status.
fn assert_prints<R: Abort + AllocGlobal>(
    rt: &R,
    words: &[&str],
    rows: &[(&str, u8, &str)],
) -> Result<(), AllocError> {
    for (text, status, line) in rows {
        let got = run_on(rt.alloc(), words, text.as_bytes())?;
        assert_eq!(rt; got.out.as_slice(), line.as_bytes(), "at {text:?}");
        assert_eq!(rt; got.status, *status, "at {text:?}");
        assert!(rt; got.told, "at {text:?}");
        assert_eq!(rt; got.err.len(), 0, "at {text:?}");
    }
    Ok(())
}

#[test]
fn parses(rt: HostRuntime) -> Result<(), Fail> {
    let rows = [
        ("ab", 0, "ok ab\n"),
        ("ba", 0, "ok ba\n"),
        ("b\u{e9}", 0, "ok b\u{e9}\n"),
        ("ac", 1, "error 1..2 expected 'b' found 'c'\n"),
        ("", 1, "error 0..0 expected 'a', 'b' found end\n"),
        ("abc", 1, "error 2..3 expected end of input found 'c'\n"),
        ("b", 1, "error 1..1 expected any found end\n"),
        ("\u{e9}", 1, "error 0..2 expected 'a', 'b' found U+00E9\n"),
        ("ab\n", 1, "error 2..3 expected end of input found U+000A\n"),
        ("a\u{1f600}", 1, "error 1..5 expected 'b' found U+1F600\n"),
        ("a ", 1, "error 1..2 expected 'b' found ' '\n"),
        ("a~", 1, "error 1..2 expected 'b' found '~'\n"),
        ("a\u{7f}", 1, "error 1..2 expected 'b' found U+007F\n"),
    ];
    assert_prints(&rt, &["parse", "ab"], &rows)?;
    Ok(())
}

#[test]
fn checks(rt: HostRuntime) -> Result<(), Fail> {
    let rows = [
        ("ab", 0, "ok\n"),
        ("ac", 1, "error 1..2 expected 'b' found 'c'\n"),
        ("", 1, "error 0..0 expected 'a', 'b' found end\n"),
        ("abc", 1, "error 2..3 expected end of input found 'c'\n"),
        ("b", 1, "error 1..1 expected any found end\n"),
    ];
    assert_prints(&rt, &["check", "ab"], &rows)?;
    Ok(())
}

/// What is printed of `[1,,2]`, by `parse` and by `check`.
const NO_NUMBER: &str =
    "error 3..4 expected '0', '1', '2', '3', '4', '5', '6', '7', '8', '9', ']' found ','\n";

/// What is printed of `[1`.
const NOT_CLOSED: &str =
    "error 2..2 expected '0', '1', '2', '3', '4', '5', '6', '7', '8', '9', ',', ']' found end\n";

#[test]
fn parses_lists(rt: HostRuntime) -> Result<(), Fail> {
    let rows = [
        ("[12,3,]", 0, "ok 12 3\n"),
        ("[12,3]", 0, "ok 12 3\n"),
        ("[007]", 0, "ok 007\n"),
        ("[]", 0, "ok\n"),
        ("[1,,2]", 1, NO_NUMBER),
        ("[1", 1, NOT_CLOSED),
        ("12", 1, "error 0..1 expected '[' found '1'\n"),
        ("[]]", 1, "error 2..3 expected end of input found ']'\n"),
    ];
    assert_prints(&rt, &["parse", "list"], &rows)?;
    Ok(())
}

#[test]
fn checks_lists(rt: HostRuntime) -> Result<(), Fail> {
    let rows = [
        ("[12,3,]", 0, "ok\n"),
        ("[]", 0, "ok\n"),
        ("[1,,2]", 1, NO_NUMBER),
        ("[1", 1, NOT_CLOSED),
        ("", 1, "error 0..0 expected '[' found end\n"),
    ];
    assert_prints(&rt, &["check", "list"], &rows)?;
    Ok(())
}

#[test]
fn parses_loops(rt: HostRuntime) -> Result<(), Fail> {
    let rows = [
        ("", 0, "ok 0\n"),
        ("+", 0, "ok 0\n"),
        ("+[+[]][]", 0, "ok 3\n"),
        ("[[]", 1, "error 3..3 expected '+', '[', ']' found end\n"),
        (
            "[]]",
            1,
            "error 2..3 expected '+', '[', end of input found ']'\n",
        ),
    ];
    assert_prints(&rt, &["parse", "loops"], &rows)?;
    Ok(())
}

#[test]
fn checks_loops(rt: HostRuntime) -> Result<(), Fail> {
    let rows = [
        ("+[+[]][]", 0, "ok\n"),
        ("[[]", 1, "error 3..3 expected '+', '[', ']' found end\n"),
    ];
    assert_prints(&rt, &["check", "loops"], &rows)?;
    Ok(())
}

/// So many pairs of brackets, each but the first within another.
fn nested(alloc: Global, pairs: usize) -> Result<String, AllocError> {
    let mut text = String::new(alloc);
    for _ in 0..pairs {
        text.push('[')?;
    }
    for _ in 0..pairs {
        text.push(']')?;
    }
    Ok(text)
}

#[test]
fn ten_thousand_pairs_within_one_another_are_counted(rt: HostRuntime) -> Result<(), Fail> {
    let text = nested(rt.alloc(), 10_000)?;
    assert_prints(
        &rt,
        &["parse", "loops"],
        &[(text.as_str(), 0, "ok 10000\n")],
    )?;
    assert_prints(&rt, &["check", "loops"], &[(text.as_str(), 0, "ok\n")])?;
    Ok(())
}

/// What is printed of `a=1`, which has no end of line.
const NO_LINE_END: &str =
    "error 3..3 expected '0', '1', '2', '3', '4', '5', '6', '7', '8', '9', U+000A found end\n";

#[test]
fn parses_settings(rt: HostRuntime) -> Result<(), Fail> {
    let rows = [
        ("", 0, "ok\n"),
        ("a=01\nb=[1,[x,],]\n", 0, "ok a=1 b=[1,[x]]\n"),
        ("ab=xy\nc=[]\n", 0, "ok ab=xy c=[]\n"),
        ("a=000\n", 0, "ok a=0\n"),
        ("a=1", 1, NO_LINE_END),
        ("a=18446744073709551615\n", 0, "ok a=18446744073709551615\n"),
        (
            "a=18446744073709551616\n",
            1,
            "error 2..22 number too large\n",
        ),
        (
            "a=99999999999999999999\n",
            1,
            "error 2..22 number too large\n",
        ),
    ];
    assert_prints(&rt, &["parse", "settings"], &rows)?;
    Ok(())
}

#[test]
fn checks_settings(rt: HostRuntime) -> Result<(), Fail> {
    let rows = [
        ("", 0, "ok\n"),
        ("a=01\nb=[1,[x,],]\n", 0, "ok\n"),
        ("a=1", 1, NO_LINE_END),
        (
            "a=99999999999999999999\n",
            1,
            "error 2..22 number too large\n",
        ),
        ("a=18446744073709551615\n", 0, "ok\n"),
    ];
    assert_prints(&rt, &["check", "settings"], &rows)?;
    Ok(())
}

#[test]
fn ten_thousand_lists_within_one_another_are_read(rt: HostRuntime) -> Result<(), Fail> {
    let alloc = rt.alloc();
    let lists = nested(alloc, 10_000)?;
    let text = format!(in alloc; "a={lists}\n")?;
    let line = format!(in alloc; "ok a={lists}\n")?;
    assert_prints(
        &rt,
        &["parse", "settings"],
        &[(text.as_str(), 0, line.as_str())],
    )?;
    assert_prints(&rt, &["check", "settings"], &[(text.as_str(), 0, "ok\n")])?;
    Ok(())
}

/// `loops` and `settings` are closed with the limit for their text, which only rules in order have.
#[test]
fn each_grammar_of_rules_is_well_founded(rt: HostRuntime) -> Result<(), Fail> {
    for name in ["loops", "settings"] {
        let ran = run_on(rt.alloc(), &["check", name], b"")?;
        assert_eq!(rt; ran.status, 0);
    }
    Ok(())
}

/// What is printed of a grammar that is looked at, and whether there is one.
fn looked_at(alloc: Global, words: &[&str]) -> Result<Option<Vec<u8>>, AllocError> {
    let words = owned(alloc, words)?;
    let mut out = Vec::new(alloc);
    match look(alloc, words.as_slice(), &mut out) {
        Some(ended) if ended.status == 0 && ended.told => Ok(Some(out)),
        _ => Ok(None),
    }
}

#[test]
fn shows_grammars(rt: HostRuntime) -> Result<(), Fail> {
    let loops = looked_at(rt.alloc(), &["show", "loops"])?.expect(&rt, "no grammar");
    let expected = "loops ::= ('+' | '[' loops ']')*\n";
    assert_eq!(rt; loops.as_slice(), expected.as_bytes());
    let settings = looked_at(rt.alloc(), &["show", "settings"])?.expect(&rt, "no grammar");
    let expected = "settings ::= ([a-z]+ '=' value #xA)*\n\
        value ::= [0-9]+ | [a-z]+ | '[' (value (',' value)* ','?)? ']'\n";
    assert_eq!(rt; settings.as_slice(), expected.as_bytes());
    assert!(rt; looked_at(rt.alloc(), &["show", "ab"])?.is_none());
    assert!(rt; looked_at(rt.alloc(), &["parse", "loops"])?.is_none());
    assert!(rt; looked_at(rt.alloc(), &["show"])?.is_none());
    Ok(())
}

#[test]
fn draws_grammars(rt: HostRuntime) -> Result<(), Fail> {
    let loops = looked_at(rt.alloc(), &["draw", "loops"])?.expect(&rt, "no grammar");
    assert!(rt; loops.as_slice().starts_with(b"<svg xmlns=\"http://www.w3.org/2000/svg\" "));
    assert!(rt; loops.as_slice().ends_with(b"</svg>\n"));
    let mut full = Brittle {
        writes: 1,
        kept: Vec::new(rt.alloc()),
    };
    let words = owned(rt.alloc(), &["draw", "loops"])?;
    let ended = look(rt.alloc(), words.as_slice(), &mut full).expect(&rt, "no grammar");
    assert_eq!(rt; ended.status, 2);
    assert!(rt; !ended.told);
    Ok(())
}

fn is_usage(alloc: Global, words: &[&str]) -> Result<bool, AllocError> {
    let words = owned(alloc, words)?;
    let mut out = Vec::new(alloc);
    let mut err = Vec::new(alloc);
    let mut torn = Torn { given: false };
    let ended = run(alloc, words.as_slice(), &mut torn, &mut out, &mut err);
    let usage = b"usage: chk parse|check|show|draw NAME\n";
    Ok(
        ended.status == 2
            && ended.told
            && out.is_empty()
            && err.as_slice() == usage.as_slice()
            && !torn.given,
    )
}

#[test]
fn wrong_words_are_found_before_the_input_is_read(rt: HostRuntime) -> Result<(), Fail> {
    assert!(rt; is_usage(rt.alloc(), &[])?);
    assert!(rt; is_usage(rt.alloc(), &["parse"])?);
    assert!(rt; is_usage(rt.alloc(), &["parse", "ab", "ab"])?);
    assert!(rt; is_usage(rt.alloc(), &["parse", "abc"])?);
    assert!(rt; is_usage(rt.alloc(), &["parse", "AB"])?);
    assert!(rt; is_usage(rt.alloc(), &["parse", "lists"])?);
    assert!(rt; is_usage(rt.alloc(), &["Parse", "ab"])?);
    assert!(rt; is_usage(rt.alloc(), &["", "ab"])?);
    assert!(rt; is_usage(rt.alloc(), &["parse", "ab "])?);
    Ok(())
}

#[test]
fn input_is_utf_8(rt: HostRuntime) -> Result<(), Fail> {
    for input in [b"\xff\xfe".as_slice(), b"ab\xc3", b"a\xed\xa0\x80"] {
        let got = run_on(rt.alloc(), &["parse", "ab"], input)?;
        assert_eq!(rt; got.status, 2);
        assert!(rt; got.told);
        assert_eq!(rt; got.out.len(), 0);
        assert_eq!(rt; got.err.as_slice(), b"input is not UTF-8\n".as_slice());
    }
    Ok(())
}

#[test]
fn a_read_that_fails_is_told(rt: HostRuntime) -> Result<(), Fail> {
    let alloc = rt.alloc();
    let words = owned(alloc, &["parse", "ab"])?;
    for given in [false, true] {
        let mut out = Vec::new(alloc);
        let mut err = Vec::new(alloc);
        let mut torn = Torn { given };
        let ended = run(alloc, words.as_slice(), &mut torn, &mut out, &mut err);
        assert_eq!(rt; ended.status, 2);
        assert_eq!(rt; out.len(), 0);
        assert_eq!(rt; err.as_slice(), b"cannot read input\n".as_slice());
    }
    Ok(())
}

#[test]
fn want_of_memory_is_a_refusal(rt: HostRuntime) -> Result<(), Fail> {
    let alloc = rt.alloc();
    for command in ["parse", "check"] {
        let words = owned(alloc, &[command, "ab"])?;
        let mut out = Vec::new(alloc);
        let mut err = Vec::new(alloc);
        let ended = run(alloc, words.as_slice(), &mut Starved, &mut out, &mut err);
        assert_eq!(rt; ended.status, 3);
        assert_eq!(rt; out.as_slice(), b"refused Memory\n".as_slice());
        assert_eq!(rt; err.len(), 0);
    }
    Ok(())
}

#[test]
fn a_refusal_that_cannot_be_written_is_a_failure(rt: HostRuntime) -> Result<(), Fail> {
    let alloc = rt.alloc();
    let words = owned(alloc, &["parse", "ab"])?;
    let kept = Vec::new(alloc);
    let mut out = Brittle { writes: 0, kept };
    let mut err = Vec::new(alloc);
    let ended = run(alloc, words.as_slice(), &mut Starved, &mut out, &mut err);
    assert_eq!(rt; ended.status, 2);
    assert_eq!(rt; err.len(), 0);
    Ok(())
}

/// How many writes a text takes, where a failure of any of them leaves status 2, no message and the text so far.
fn writes_needed(
    alloc: Global,
    words: &[&str],
    text: &str,
    line: &str,
) -> Result<Option<usize>, AllocError> {
    let words = owned(alloc, words)?;
    for writes in 0..30 {
        let mut left = text.as_bytes();
        let kept = Vec::new(alloc);
        let mut out = Brittle { writes, kept };
        let mut err = Vec::new(alloc);
        let ended = run(alloc, words.as_slice(), &mut left, &mut out, &mut err);
        let kept = out.kept.as_slice();
        if !err.is_empty() || !line.as_bytes().starts_with(kept) {
            return Ok(None);
        }
        if ended.told == (ended.status == 2) {
            return Ok(None);
        }
        if ended.told {
            return Ok((kept.len() == line.len()).then_some(writes));
        }
    }
    Ok(None)
}

#[test]
fn a_write_that_fails_says_nothing_more(rt: HostRuntime) -> Result<(), Fail> {
    let alloc = rt.alloc();
    let rows = [
        (["parse", "ab"], "ab", "ok ab\n"),
        (["check", "ab"], "ab", "ok\n"),
        (["parse", "ab"], "ac", "error 1..2 expected 'b' found 'c'\n"),
        (["check", "ab"], "ac", "error 1..2 expected 'b' found 'c'\n"),
        (["parse", "list"], "[12,3]", "ok 12 3\n"),
        (["parse", "settings"], "a=1\n", "ok a=1\n"),
    ];
    for (words, text, line) in rows {
        let needed = writes_needed(alloc, &words, text, line)?;
        assert!(rt; needed.is_some_and(|writes| writes > 0), "at {text:?}");
    }
    Ok(())
}

#[test]
fn a_message_that_cannot_be_written_changes_nothing(rt: HostRuntime) -> Result<(), Fail> {
    let alloc = rt.alloc();
    for (name, input) in [("no", b"ab".as_slice()), ("ab", b"\xff")] {
        let words = owned(alloc, &["parse", name])?;
        let mut left = input;
        let mut out = Vec::new(alloc);
        let kept = Vec::new(alloc);
        let mut err = Brittle { writes: 0, kept };
        let ended = run(alloc, words.as_slice(), &mut left, &mut out, &mut err);
        assert_eq!(rt; ended.status, 2);
        assert_eq!(rt; out.len(), 0);
    }
    Ok(())
}

/// Whether a run whose message is cut short after its first write answers as if it were whole.
fn stands_cut_short<R: Read>(
    alloc: Global,
    name: &str,
    input: &mut R,
    message: &str,
) -> Result<bool, AllocError> {
    let words = owned(alloc, &["parse", name])?;
    let mut out = Vec::new(alloc);
    let kept = Vec::new(alloc);
    let mut err = Brittle { writes: 1, kept };
    let ended = run(alloc, words.as_slice(), input, &mut out, &mut err);
    let kept = err.kept.as_slice();
    let cut_short = !kept.is_empty() && kept.len() < message.len();
    Ok(
        ended.status == 2
            && !ended.told
            && out.is_empty()
            && cut_short
            && message.as_bytes().starts_with(kept),
    )
}

#[test]
fn a_message_that_is_cut_short_changes_nothing(rt: HostRuntime) -> Result<(), Fail> {
    let alloc = rt.alloc();
    let usage = "usage: chk parse|check|show|draw NAME\n";
    assert!(rt; stands_cut_short(alloc, "no", &mut b"ab".as_slice(), usage)?);
    let wrong = "input is not UTF-8\n";
    assert!(rt; stands_cut_short(alloc, "ab", &mut b"\xff".as_slice(), wrong)?);
    let mut torn = Torn { given: false };
    assert!(rt; stands_cut_short(alloc, "ab", &mut torn, "cannot read input\n")?);
    Ok(())
}
