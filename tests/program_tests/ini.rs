//! The two readers of INI, on each short text: the one that keeps no errors has an output just where the other has no error, and
//! then they have the same one.
use examples::ini::{Ini, IniText, parse_ini, read_lines};
use examples::sections::parse_sections;
use std::alloc::{AllocError, AllocGlobal, Global};
use std::process::Abort;

/// The characters of which these texts are made: each stands for its kind.
const KINDS: [char; 7] = ['[', ']', '=', ';', '\n', ' ', 'a'];

/// The text of this number, after a beginning: its digits are characters.
fn text_of(alloc: Global, beginning: &str, number: usize) -> Result<String, AllocError> {
    let mut text = String::from_str(alloc, beginning)?;
    let mut left = number;
    while left > 0 {
        text.push(KINDS[(left - 1) % 7])?;
        left = (left - 1) / 7;
    }
    Ok(text)
}

/// The sections as a text, or nothing where there are none.
fn shown(alloc: Global, sections: Option<&Ini<'_>>) -> Result<String, AllocError> {
    match sections {
        Some(ini) => String::format(alloc, IniText(ini)),
        None => String::from_str(alloc, "none"),
    }
}

/// Asserts of a text that both readers say the same of it, and `parse_ini` too.
fn assert_agree<R: Abort + AllocGlobal>(rt: &R, text: &str) {
    let alloc = rt.alloc();
    let exact = parse_sections(alloc, text).expect(rt, "refused");
    let lines = read_lines(alloc, text).expect(rt, "refused");
    let parsed = parse_ini(alloc, text).expect(rt, "refused");
    let whole = shown(alloc, parsed.output()).expect(rt, "out of memory");
    let by_lines = shown(alloc, lines.output()).expect(rt, "out of memory");
    assert_eq!(rt; exact.has_output(), !lines.has_errors(), "of {text:?}");
    assert_eq!(rt; lines.errors.len(), parsed.errors.len(), "of {text:?}");
    assert_eq!(rt; whole.as_str(), by_lines.as_str(), "of {text:?}");
    if exact.has_output() {
        let sections = shown(alloc, exact.output()).expect(rt, "out of memory");
        assert_eq!(rt; sections.as_str(), by_lines.as_str(), "of {text:?}");
    }
}

#[test]
fn both_readers_of_ini_agree_on_each_short_text(rt: HostRuntime) {
    for beginning in ["", "[a]", "[a]b=c\n"] {
        for number in 0..2801 {
            let text = text_of(rt.alloc(), beginning, number).expect(&rt, "out of memory");
            assert_agree(&rt, text.as_str());
        }
    }
}

#[test]
fn both_readers_of_ini_agree_on_long_texts(rt: HostRuntime) {
    let texts = [
        "; where\r\n[server]\r\nport = 8080\r\n\r\n[ log ]\r\nfile = a b.log\r\n# end",
        "[a]\u{2028}b\u{A0}c\u{3000}=\u{A0}d\u{2028}e\u{3000}\n\u{2028}f=\n",
        "[\u{3000}]\n[\t]x=1\n[]",
        "[a][b];c\n[a]x=1=2=\n=3",
        "[a]\r\r\nb\r=\rc\r",
        "# \n;\n#",
        "[a\n]",
        "[a] [b] c # d = e",
        "[a] c = d # e\n#f",
    ];
    for text in texts {
        assert_agree(&rt, text);
    }
}
