//! Expressions as Lisp writes them, read and printed.
use chumsky::Stop;
use exact::expressions::{Expression, parse_expression};
use exact::print_expression::print_expression;
use std::test::Fail;

#[test]
fn what_is_read_is_printed_as_it_was_written(rt: HostRuntime) -> Result<(), Fail> {
    let alloc = rt.alloc();
    for text in ["a", "_", "x1", "0", "42", "()", "(a)", "(())", "(() ())", "(add 1 (double x) ())", "(0 10 (99999999999999999999))", "((((deep))) (a b c))", "(if (is_zero n) 1 (times n (factorial (minus n 1))))"] {
        let parsed = parse_expression(alloc, text, text.len() + 1)?;
        let expression = parsed.into_result().ok();
        assert!(rt; expression.is_some(), "{text}");
        if let Some(expression) = expression {
            assert_eq!(rt; print_expression(alloc, &expression)?.as_str(), text);
        }
    }
    Ok(())
}

#[test]
fn each_name_number_and_list_stands_where_it_was_written(rt: HostRuntime) -> Result<(), Fail> {
    let alloc = rt.alloc();
    let parsed = parse_expression(alloc, "(f (x) 1)", 10)?;
    let mut inner = Vec::new(alloc);
    inner.push(Expression::Name("x"))?;
    let mut outer = Vec::new(alloc);
    outer.push(Expression::Name("f"))?;
    outer.push(Expression::List(inner))?;
    outer.push(Expression::Number("1"))?;
    assert!(rt; parsed.into_result().is_ok_and(|read| read == Expression::List(outer)));
    Ok(())
}

#[test]
fn other_texts_are_no_expressions(rt: HostRuntime) -> Result<(), Fail> {
    let alloc = rt.alloc();
    for text in ["", " ", "01", "1x", "-1", "1.5", "(1 02)", "a ", " a", "a b", "a)", "(", ")", "(a", "( )", "(a )", "( a)", "(a  b)", "(a\tb)", "(a,b)", "[a]", "()()", "() ()", "(a)(b)", "(é)", "(a-b)", "((a)", "(a))"] {
        let parsed = parse_expression(alloc, text, 100)?;
        assert!(rt; parsed.has_errors() && !parsed.has_output(), "{text}");
    }
    Ok(())
}

#[test]
fn an_expression_is_refused_that_is_deeper_than_the_limit(rt: HostRuntime) -> Result<(), Fail> {
    let alloc = rt.alloc();
    for (text, calls) in [("a", 1), ("()", 2), ("(a b c)", 2), ("(())", 3), ("(a (b) c)", 3), ("(((())))", 5)] {
        let parsed = parse_expression(alloc, text, calls)?;
        assert!(rt; parsed.into_result().is_ok(), "{text}");
        let refused = matches!(parse_expression(alloc, text, calls - 1), Err(Stop::TooDeep));
        assert!(rt; refused, "{text}");
    }
    Ok(())
}

/// The same number of calls is asked of a text with one expression in a list and of one with ten thousand.
#[test]
fn a_long_list_of_expressions_is_read_under_as_many_calls_as_its_levels_ask(rt: HostRuntime) -> Result<(), Fail> {
    let alloc = rt.alloc();
    for (expression, calls) in [("a", 2), ("()", 3), ("(a 1 ())", 4)] {
        let mut text = String::from_str(alloc, "(")?;
        for i in 0..10_000 {
            text.push_str(if i == 0 { "" } else { " " })?;
            text.push_str(expression)?;
        }
        text.push_str(")")?;
        let parsed = parse_expression(alloc, text.as_str(), calls)?;
        assert!(rt; parsed.into_result().is_ok(), "{expression}");
        let refused = matches!(parse_expression(alloc, text.as_str(), calls - 1), Err(Stop::TooDeep));
        assert!(rt; refused, "{expression}");
    }
    Ok(())
}
