//! Statements, of which each that is wrong is one error.
use answers::asserts::assert_line;
use examples::statements::parse_statements;

#[test]
fn statements_bind_and_print_sums(rt: HostRuntime) {
    let rows = [
        ("", "ok []"),
        (" \n", "ok []"),
        (
            "let x = 1 + 2; print x;",
            "ok [Let(\"x\", [Number(1), Number(2)]), Print([Name(\"x\")])]",
        ),
        (
            "\nlet let1=0;\n\tprint  let1+let1 ;\n",
            "ok [Let(\"let1\", [Number(0)]), Print([Name(\"let1\"), Name(\"let1\")])]",
        ),
    ];
    for (text, line) in rows {
        assert_line(&rt, parse_statements(rt.alloc(), text), line);
    }
}

#[test]
fn each_statement_that_is_wrong_is_one_error(rt: HostRuntime) {
    let rows = [
        (
            "let x = ; print x;",
            "ok [Print([Name(\"x\")])]; error 8..9 expected a number or a name found ';'",
        ),
        (
            "let = 1; print +; let y 2;\nfoo; print y;;let z = 4294967296; print z;",
            "ok [Print([Name(\"y\")]), Print([Name(\"z\")])]; error 4..5 expected a name found '='; \
             error 15..16 expected a number or a name found '+'; error 24..25 expected '=' found '2'; \
             error 27..30 expected a statement found 'f'; error 40..41 expected a statement found ';'; \
             error 49..59 expected a number or a name found '4'",
        ),
        (
            "letx = 1; print x + ; ;",
            "ok []; error 0..4 expected a statement found 'l'; \
             error 20..21 expected a number or a name found ';'; error 22..23 expected a statement found ';'",
        ),
        // One that has no end of its own goes up to that of the next, or to the end of the text.
        (
            "let x = 1 + 2\nprint x; print 3;",
            "ok [Print([Number(3)])]; error 14..15 expected '+', ';' found 'p'",
        ),
        (
            "print x; print y",
            "ok [Print([Name(\"x\")])]; error 16..16 expected '+', ';' found end",
        ),
        (
            "let x = ; print x; print",
            "ok [Print([Name(\"x\")])]; error 8..9 expected a number or a name found ';'; \
             error 24..24 expected a number or a name found end",
        ),
        (
            "print x; y",
            "ok [Print([Name(\"x\")])]; error 9..10 expected a statement found 'y'",
        ),
    ];
    for (text, line) in rows {
        assert_line(&rt, parse_statements(rt.alloc(), text), line);
    }
}
