//! Formulas that are read exactly.
use chumsky::Stop;
use formulas::nested::parse_nested_formula;
use formulas::parse_formula;
use formulas::primed::parse_primed_formula;
use formulas::ranked::parse_ranked_formula;
use std::alloc::{AllocError, Global};
use std::test::Fail;

#[test]
fn formulas_bind_as_their_operators_do(rt: HostRuntime) -> Result<(), Fail> {
    let alloc = rt.alloc();
    let accepted = [
        ("t", true),
        ("f", false),
        ("!t", false),
        ("!!t", true),
        ("t&f", false),
        ("t|f&f", true),
        ("f&t|t", true),
        ("f&f|t", true),
        ("!f&f", false),
        ("!f|t", true),
        ("t|t&!t", true),
        ("f|f|t&t", true),
    ];
    for (text, value) in accepted {
        let parsed = parse_formula(alloc, text)?;
        assert_eq!(rt; parsed.into_result(), Ok(value), "{text}");
    }
    for text in ["", "!", "t!", "tt", "t&", "&t", "t&&t", "t|", "|", "t &f", "(t)", "T"] {
        let parsed = parse_formula(alloc, text)?;
        assert!(rt; parsed.has_errors() && !parsed.has_output(), "{text}");
    }
    Ok(())
}

#[test]
fn formulas_with_brackets_bind_as_these_say(rt: HostRuntime) -> Result<(), Fail> {
    let alloc = rt.alloc();
    let accepted = [
        ("t", true),
        ("t|f&f", true),
        ("(t|f)&f", false),
        ("!(t|f)&t", false),
        ("!(t&f)|f", true),
        ("(f)", false),
        ("((t))", true),
        ("!(!(t))", true),
        ("(f|t)&(t|f)", true),
        ("t&(f|(t&!f))", true),
        ("(!t&f)|!(f|f)", true),
    ];
    for (text, value) in accepted {
        let parsed = parse_nested_formula(alloc, text, 4)?;
        assert_eq!(rt; parsed.into_result(), Ok(value), "{text}");
    }
    for text in ["", "(", ")", "()", "(t", "t)", "(t)(f)", "t(f)", "(t)t", "(t|)", "!()", "((t)", "(t))", "[t]"] {
        let parsed = parse_nested_formula(alloc, text, 9)?;
        assert!(rt; parsed.has_errors() && !parsed.has_output(), "{text}");
    }
    Ok(())
}

#[test]
fn formulas_with_more_brackets_than_the_limit_are_refused(rt: HostRuntime) -> Result<(), Fail> {
    let alloc = rt.alloc();
    let parsed = parse_nested_formula(alloc, "((t))", 3)?;
    assert_eq!(rt; parsed.into_result(), Ok(true));
    assert_eq!(rt; parse_nested_formula(alloc, "((t))", 2).err(), Some(Stop::TooDeep));
    assert_eq!(rt; parse_nested_formula(alloc, "t", 0).err(), Some(Stop::TooDeep));
    let parsed = parse_nested_formula(alloc, "t&!f&t|f|t&t&!!t", 1)?;
    assert_eq!(rt; parsed.into_result(), Ok(true));
    let parsed = parse_nested_formula(alloc, "(t)&(t)&(t|f)", 2)?;
    assert_eq!(rt; parsed.into_result(), Ok(true));
    assert_eq!(rt; parse_nested_formula(alloc, "t|((", 2).err(), Some(Stop::TooDeep));
    let parsed = parse_nested_formula(alloc, "(t)&(t", 2)?;
    assert_eq!(rt; parsed.into_output(), None);
    Ok(())
}

#[test]
fn a_prime_binds_before_an_and(rt: HostRuntime) -> Result<(), Fail> {
    let alloc = rt.alloc();
    let accepted = [
        ("t", true),
        ("t'", false),
        ("f''", false),
        ("t&f'", true),
        ("f&f'", false),
        ("t'&t", false),
        ("f'&t''&t", true),
    ];
    for (text, value) in accepted {
        let parsed = parse_primed_formula(alloc, text)?;
        assert_eq!(rt; parsed.into_output(), Some(value), "{text}");
    }
    for text in ["", "'", "'t", "t'f", "t&", "t&'", "&t", "!t", "t|f", "t '"] {
        let parsed = parse_primed_formula(alloc, text)?;
        assert_eq!(rt; parsed.into_output(), None, "{text}");
    }
    Ok(())
}

#[test]
fn of_two_connectives_the_stronger_binds_first(rt: HostRuntime) -> Result<(), Fail> {
    let alloc = rt.alloc();
    let accepted = [
        ("t", true, true, true),
        ("t&f", false, false, false),
        ("t|f&f", true, false, false),
        ("f&f|t", true, false, true),
        ("f&t|t&t", true, false, true),
        ("t|t&f|f", true, false, false),
    ];
    for (text, and_first, or_first, in_turn) in accepted {
        for (and, or, value) in [
            (2, 1, and_first),
            (65535, 0, and_first),
            (1, 2, or_first),
            (0, 65535, or_first),
            (0, 0, in_turn),
            (7, 7, in_turn),
        ] {
            let parsed = parse_ranked_formula(alloc, text, and, or)?;
            assert_eq!(rt; parsed.into_output(), Some(value), "{text}");
        }
    }
    for text in ["", "tt", "t&", "|t", "t&|f", "!t", "t&f|"] {
        let parsed = parse_ranked_formula(alloc, text, 2, 1)?;
        assert_eq!(rt; parsed.into_output(), None, "{text}");
    }
    Ok(())
}
