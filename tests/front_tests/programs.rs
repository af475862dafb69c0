//! What the programs of a text are, read in two stages.
use chumsky::report::Report;
use front::item_text::ItemText;
use front::leaves::DEEPEST;
use front::read::read_program;
use std::alloc::{AllocError, AllocGlobal, Global};
use std::process::Abort;
use std::test::Fail;

/// What is printed of a text: a report of each error, and then each item in a line of its own.
fn shown(alloc: Global, text: &str) -> Result<String, AllocError> {
    let Ok(reading) = read_program(alloc, text) else {
        return String::from_str(alloc, "refused\n");
    };
    let mut all = String::new(alloc);
    for error in reading.errors.iter() {
        let report = Report {
            name: "input",
            text,
            error,
        };
        all.push_str(format!(in alloc; "{report}\n")?.as_str())?;
    }
    if let Some(program) = reading.program {
        for item in program.iter() {
            all.push_str(format!(in alloc; "{item}\n")?.as_str())?;
        }
    }
    Ok(all)
}

/// Asserts what is printed of each text.
fn assert_lines<R: Abort + AllocGlobal, F: Fn(Global, &str) -> Result<String, AllocError>>(
    rt: &R,
    shown: F,
    rows: &[(&str, &str)],
) {
    for (text, expected) in rows {
        let lines = shown(rt.alloc(), *text).expect(rt, "out of memory");
        assert_eq!(rt; lines.as_str(), *expected, "of {text}");
    }
}

/// So many times `opening`, then `inside`, then as many times `closing`.
fn nested(
    alloc: Global,
    depth: usize,
    opening: &str,
    inside: &str,
    closing: &str,
) -> Result<String, AllocError> {
    let mut text = String::new(alloc);
    for _level in 0..depth {
        text.push_str(opening)?;
    }
    text.push_str(inside)?;
    for _level in 0..depth {
        text.push_str(closing)?;
    }
    Ok(text)
}

#[test]
fn a_program_is_its_items_each_with_its_span(rt: HostRuntime) {
    let rows = [
        ("", ""),
        ("// nothing\n", ""),
        ("a; b;", "name@0..1\nname@3..4\n"),
        ("let a = 12; f(a + 2 * -3, {let b = 1; b})(4)", "let 4..5 = 12@8..10@0..10\nname@12..13((name@14..15 + (2@18..19 * -3@23..24@22..24)@18..24)@14..24,{let 31..32 = 1@35..36@27..36;name@38..39;}@26..40,)@12..41(4@42..43,)@12..44\n"),
        ("1 - 2 - 3 * (4 + \"x;\") /* ; */ / g()", "((1@0..1 - 2@4..5)@0..5 - ((3@8..9 * (4@13..14 + text@17..21)@13..21)@8..21 / name@33..34()@33..36)@8..36)@0..36\n"),
        ("{}; {a;}", "{}@0..2\n{name@5..6;}@4..8\n"),
    ];
    assert_lines(&rt, shown, &rows);
}

#[test]
fn each_item_that_is_wrong_is_told(rt: HostRuntime) {
    let rows = [
        ("let a = 12;\nf(a +);\nlet 3;\n{ let b = ; b };\nc", "input:2:6: expected an expression, found ')'\nf(a +);\n     ^\ninput:3:5: expected a name, found '3'\nlet 3;\n    ^\ninput:4:11: expected an expression, found ';'\n{ let b = ; b };\n          ^\nlet 4..5 = 12@8..10@0..10\nwrong@12..18\nwrong@20..25\n{wrong@29..36;name@39..40;}@27..42\nname@44..45\n"),
        ("a b; c }", "input:1:3: expected an operator, ';', '}' or end of input, found 'a name'\na b; c }\n  ^\ninput:1:8: expected an operator, ';' or end of input, found '}'\na b; c }\n       ^\n"),
        ("f(1, 2 // more\n", "input:1:15: expected an operator, ',' or ')', found end of input\nf(1, 2 // more\n              ^\nwrong@0..6\n"),
        ("f(1 /* é */ 22)", "input:1:13: expected an operator, ',' or ')', found '22'\nf(1 /* é */ 22)\n            ^^\nwrong@0..16\n"),
        ("{ a; { b c; d", "input:1:14: expected an operator, ';' or '}', found end of input\n{ a; { b c; d\n             ^\ninput:1:14: expected an operator, ';' or '}', found end of input\n{ a; { b c; d\n             ^\nwrong@0..3\nwrong@5..10\nname@12..13\n"),
    ];
    assert_lines(&rt, shown, &rows);
}

#[test]
fn errors_of_both_stages_stand_in_the_order_of_the_text(rt: HostRuntime) {
    let rows = [
        ("let = 1;\nlet a = $1 + 99999999999999999999999;\nb c;\n\"open\n(;\n1 /* x", "input:1:5: expected a name, found '='\nlet = 1;\n    ^\ninput:2:9: expected a token, found '$'\nlet a = $1 + 99999999999999999999999;\n        ^\ninput:2:14: this number is too large\nlet a = $1 + 99999999999999999999999;\n             ^^^^^^^^^^^^^^^^^^^^^^^\ninput:3:3: expected an operator, ';', '}' or end of input, found 'a name'\nb c;\n  ^\ninput:4:1: this text isn't closed\n\"open\n^^^^^\ninput:5:2: expected an expression or ')', found ';'\n(;\n ^\ninput:6:3: this comment isn't closed\n1 /* x\n  ^^^^\nwrong@0..7\nlet 13..14 = (1@18..19 + 0@22..45)@18..45@9..45\nwrong@47..50\nwrong@52..59\n1@61..62\n"),
    ];
    assert_lines(&rt, shown, &rows);
}

#[test]
fn programs_nested_too_deep_are_refused(rt: HostRuntime) {
    let alloc = rt.alloc();
    let well = nested(alloc, 30, "{", "a", "}").expect(&rt, "out of memory");
    let deep = nested(alloc, 100, "{", "a", "}").expect(&rt, "out of memory");
    assert!(rt; read_program(alloc, well.as_str()).is_ok());
    assert_lines(&rt, shown, &[(deep.as_str(), "refused\n")]);
}

/// What is told of a text: each error with its span, and then each item as text again.
fn told(alloc: Global, text: &str) -> Result<String, AllocError> {
    let Ok(reading) = read_program(alloc, text) else {
        return String::from_str(alloc, "refused\n");
    };
    let mut all = String::new(alloc);
    for error in reading.errors.iter() {
        let span = error.span();
        all.push_str(format!(in alloc; "{}..{}: {error}\n", span.start, span.end)?.as_str())?;
    }
    if let Some(program) = reading.program {
        for item in program.iter() {
            let item = ItemText { text, item };
            all.push_str(format!(in alloc; "{item}\n")?.as_str())?;
        }
    }
    Ok(all)
}

/// An operation that is said again and again: what stands before and behind its operand, and so in what is printed.
#[derive(Clone, Copy)]
struct Chain {
    before: &'static str,
    behind: &'static str,
    before_printed: &'static str,
    behind_printed: &'static str,
}

/// Sums, minuses and calls.
const CHAINS: [Chain; 4] = [
    Chain {
        before: "",
        behind: "+b",
        before_printed: "(",
        behind_printed: " + b)",
    },
    Chain {
        before: "b*",
        behind: "",
        before_printed: "(",
        behind_printed: " * b)",
    },
    Chain {
        before: "-",
        behind: "",
        before_printed: "-",
        behind_printed: "",
    },
    Chain {
        before: "",
        behind: "()",
        before_printed: "",
        behind_printed: "()",
    },
];

/// A text between two others.
fn between(alloc: Global, before: &str, text: &str, behind: &str) -> Result<String, AllocError> {
    format!(in alloc; "{before}{text}{behind}")
}

/// The text of an operation so many times, and what is printed of it.
fn chained(alloc: Global, chain: Chain, count: usize) -> Result<(String, String), AllocError> {
    let text = nested(alloc, count, chain.before, "b", chain.behind)?;
    let printed = nested(
        alloc,
        count,
        chain.before_printed,
        "b",
        chain.behind_printed,
    )?;
    Ok((text, printed))
}

#[test]
fn as_many_operations_as_may_be_are_read(rt: HostRuntime) -> Result<(), Fail> {
    let alloc = rt.alloc();
    for chain in CHAINS {
        let (text, printed) = chained(alloc, chain, DEEPEST - 1)?;
        let line = between(alloc, "", printed.as_str(), "\n")?;
        assert_lines(&rt, told, &[(text.as_str(), line.as_str())]);
        let (text, printed) = chained(alloc, chain, DEEPEST - 2)?;
        let bound = between(alloc, "let a = ", text.as_str(), "")?;
        let line = between(alloc, "let a = ", printed.as_str(), "\n")?;
        assert_lines(&rt, told, &[(bound.as_str(), line.as_str())]);
    }
    Ok(())
}

#[test]
fn more_operations_are_an_error(rt: HostRuntime) -> Result<(), Fail> {
    let alloc = rt.alloc();
    for chain in CHAINS {
        for count in [DEEPEST, DEEPEST + 1, 3 * DEEPEST, 10_000] {
            let (text, _) = chained(alloc, chain, count)?;
            let end = 3 + text.len();
            let text = between(alloc, "a; ", text.as_str(), "; c")?;
            let expected = format!(in alloc; "3..{end}: this item nests too deep\na\n{}\nc\n", text.as_str().get(3..end).unwrap_or(""))?;
            assert_lines(&rt, told, &[(text.as_str(), expected.as_str())]);
        }
    }
    Ok(())
}

#[test]
fn what_nests_in_an_operation_counts(rt: HostRuntime) -> Result<(), Fail> {
    let alloc = rt.alloc();
    let half = DEEPEST / 2;
    for chain in CHAINS {
        let (text, printed) = chained(alloc, chain, half)?;
        // What stands in brackets counts, but for these, as do an argument, its call, and an item and its block.
        for (before, behind, printed_before, printed_behind, levels) in [
            ("(", ")", "", "", 0),
            ("f(a, ", ", a)", "f(a, ", ", a)", 1),
            ("{a; ", "; a}", "{a; ", "; a}", 1),
            ("{let a = ", "}", "{let a = ", "}", 2),
        ] {
            let inside = between(alloc, before, text.as_str(), behind)?;
            let printed = between(alloc, printed_before, printed.as_str(), printed_behind)?;
            let count = DEEPEST - 1 - half - levels;
            let most = nested(alloc, count, "-", inside.as_str(), "")?;
            let line = nested(alloc, count, "-", printed.as_str(), "")?;
            let line = between(alloc, "", line.as_str(), "\n")?;
            assert_lines(&rt, told, &[(most.as_str(), line.as_str())]);
            let more = between(alloc, "-", most.as_str(), "")?;
            let expected = format!(in alloc; "0..{}: this item nests too deep\n{more}\n", more.len())?;
            assert_lines(&rt, told, &[(more.as_str(), expected.as_str())]);
        }
    }
    Ok(())
}

#[test]
fn each_item_that_nests_too_deep_is_told_once(rt: HostRuntime) -> Result<(), Fail> {
    let alloc = rt.alloc();
    let deep = nested(alloc, DEEPEST, "-", "b", "")?;
    let text = format!(in alloc; "f(({deep}), -{deep}); g({{a; let b = {deep}; c}}); {deep} d; {deep}")?;
    let most = deep.len();
    let mut expected = String::new(alloc);
    for (start, end) in [
        (0, 2 * most + 8),
        (2 * most + 16, 3 * most + 24),
    ] {
        expected.push_str(format!(in alloc; "{start}..{end}: this item nests too deep\n")?.as_str())?;
    }
    expected.push_str(
        format!(in alloc; "{}..{}: expected an operator, ';', '}}' or end of input, found 'a name'\n", 4 * most + 32, 4 * most + 33)?
            .as_str(),
    )?;
    expected.push_str(
        format!(in alloc; "{}..{}: this item nests too deep\n", 4 * most + 35, 5 * most + 35)?.as_str(),
    )?;
    expected.push_str(
        format!(in alloc; "f(({deep}), -{deep})\ng({{a; let b = {deep}; c}})\n{deep} d\n{deep}\n")?.as_str(),
    )?;
    assert_lines(&rt, told, &[(text.as_str(), expected.as_str())]);
    Ok(())
}
