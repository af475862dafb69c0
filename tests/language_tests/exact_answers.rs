//! Functions whose contracts say exactly which texts they accept.
use chumsky::Stop;
use exact::access::{Content, Purpose, parse_access};
use exact::bits::parse_bits;
use exact::date::{Date, parse_date};
use exact::level::{Level, parse_level};
use exact::method::{Method, parse_method};
use exact::nested::parse_nested;
use exact::number::parse_number;
use exact::pairs::parse_pairs;
use exact::print_pairs::print_pairs;
use exact::quoted::{Token, parse_quoted_number};
use exact::rows::parse_rows;
use exact::switch::{Key, Setting, Switch, parse_switch};
use exact::trees::{Tree, parse_tree};
use std::alloc::{AllocError, Global};
use std::test::Fail;

#[test]
fn four_texts_are_levels_and_no_other_is(rt: HostRuntime) -> Result<(), Fail> {
    let alloc = rt.alloc();
    let accepted = [
        ("level=error", Level::Error),
        ("level=warn", Level::Warn),
        ("level=info", Level::Info),
        ("level=debug", Level::Debug),
    ];
    for (text, level) in accepted {
        let parsed = parse_level(alloc, text)?;
        assert_eq!(rt; parsed.into_result(), Ok(level), "{text}");
    }
    for text in ["", "level=", "level=wart", "level=info ", " level=info", "level=infodebug"] {
        let parsed = parse_level(alloc, text)?;
        assert!(rt; parsed.has_errors() && !parsed.has_output(), "{text}");
    }
    Ok(())
}

#[test]
fn eight_texts_are_methods_and_no_other_is(rt: HostRuntime) -> Result<(), Fail> {
    let alloc = rt.alloc();
    let accepted = [
        ("GET", Method::Get),
        ("HEAD", Method::Head),
        ("POST", Method::Post),
        ("PUT", Method::Put),
        ("DELETE", Method::Delete),
        ("CONNECT", Method::Connect),
        ("OPTIONS", Method::Options),
        ("TRACE", Method::Trace),
    ];
    for (text, method) in accepted {
        let parsed = parse_method(alloc, text)?;
        assert_eq!(rt; parsed.into_result(), Ok(method), "{text}");
    }
    for text in ["", "G", "get", "PU", "PUTS", "POSTS", "PATCH", "GET ", " GET", "GETHEAD", "TRACK"] {
        let parsed = parse_method(alloc, text)?;
        assert!(rt; parsed.has_errors() && !parsed.has_output(), "{text}");
    }
    Ok(())
}

#[test]
fn each_of_three_keys_is_on_or_off(rt: HostRuntime) -> Result<(), Fail> {
    let alloc = rt.alloc();
    let accepted = [
        ("volume=on", Key::Volume, Switch::On),
        ("volume=off", Key::Volume, Switch::Off),
        ("light=on", Key::Light, Switch::On),
        ("light=off", Key::Light, Switch::Off),
        ("alarm=on", Key::Alarm, Switch::On),
        ("alarm=off", Key::Alarm, Switch::Off),
    ];
    for (text, key, switch) in accepted {
        let parsed = parse_switch(alloc, text)?;
        assert_eq!(rt; parsed.into_result(), Ok(Setting { key, switch }), "{text}");
    }
    for text in ["", "volume", "volume=", "volume=o", "volumes=on", "light:on", "light=on ", "on=alarm", "alarm=offon"] {
        let parsed = parse_switch(alloc, text)?;
        assert!(rt; parsed.has_errors() && !parsed.has_output(), "{text}");
    }
    Ok(())
}

#[test]
fn a_purpose_and_a_content_are_read_in_either_order(rt: HostRuntime) -> Result<(), Fail> {
    let alloc = rt.alloc();
    let accepted = [
        ("rt", "tr", (Purpose::Read, Content::Text)),
        ("rb", "br", (Purpose::Read, Content::Bytes)),
        ("wt", "tw", (Purpose::Write, Content::Text)),
        ("wb", "bw", (Purpose::Write, Content::Bytes)),
    ];
    for (text, turned, access) in accepted {
        let parsed = parse_access(alloc, text)?;
        assert_eq!(rt; parsed.into_result(), Ok(access), "{text}");
        let parsed = parse_access(alloc, turned)?;
        assert_eq!(rt; parsed.into_result(), Ok(access), "{turned}");
    }
    for text in ["", "r", "b", "rw", "tb", "rr", "bb", "rbt", "rbw", "brb", "r b", "rb ", " rb", "RB", "ab"] {
        let parsed = parse_access(alloc, text)?;
        assert!(rt; parsed.has_errors() && !parsed.has_output(), "{text}");
    }
    Ok(())
}

#[test]
fn pairs_within_one_another_are_read_under_a_limit_that_suffices(rt: HostRuntime) -> Result<(), Fail> {
    let alloc = rt.alloc();
    for (text, limit) in [("[]", 2), ("[[]]", 3), ("[[[[]]]]", 5)] {
        let parsed = parse_nested(alloc, text, limit)?;
        assert_eq!(rt; parsed.into_result(), Ok(()), "{text}");
        let refused = matches!(parse_nested(alloc, text, limit - 1), Err(Stop::TooDeep));
        assert!(rt; refused, "{text}");
    }
    for text in ["", "[", "]", "[]]", "[[]", "[][]", "[x]"] {
        let parsed = parse_nested(alloc, text, 10)?;
        assert!(rt; parsed.has_errors() && !parsed.has_output(), "{text}");
    }
    Ok(())
}

#[test]
fn decimals_below_two_to_the_thirty_two_are_numbers(rt: HostRuntime) -> Result<(), Fail> {
    let alloc = rt.alloc();
    for (text, number) in [("0", 0), ("42", 42), ("4294967295", 4294967295)] {
        let parsed = parse_number(alloc, text)?;
        assert_eq!(rt; parsed.into_result(), Ok(number), "{text}");
    }
    for text in ["", "042", "4294967296", "4x", "-1", "99999999999999999999"] {
        let parsed = parse_number(alloc, text)?;
        assert!(rt; parsed.has_errors() && !parsed.has_output(), "{text}");
    }
    Ok(())
}

#[test]
fn a_number_is_read_within_a_token_in_quotes(rt: HostRuntime) -> Result<(), Fail> {
    let alloc = rt.alloc();
    for (text, number) in [("0", 0), ("42", 42), ("4294967295", 4294967295)] {
        let parsed = parse_quoted_number(alloc, &[Token::Quoted(text)])?;
        assert_eq!(rt; parsed.into_result(), Ok(number), "{text}");
        let parsed = parse_quoted_number(alloc, &[Token::Name(text)])?;
        assert!(rt; parsed.has_errors() && !parsed.has_output(), "{text}");
        let parsed = parse_quoted_number(alloc, &[Token::Quoted(text), Token::Quoted(text)])?;
        assert!(rt; parsed.has_errors() && !parsed.has_output(), "{text}");
    }
    for text in ["", "042", "4294967296", "4x", "-1", " 1", "1 "] {
        let parsed = parse_quoted_number(alloc, &[Token::Quoted(text)])?;
        assert!(rt; parsed.has_errors() && !parsed.has_output(), "{text}");
    }
    for tokens in [&[] as &[Token], &[Token::Equals]] {
        let parsed = parse_quoted_number(alloc, tokens)?;
        assert!(rt; parsed.has_errors() && !parsed.has_output());
    }
    Ok(())
}

#[test]
fn bits_are_read_and_no_other_text_is(rt: HostRuntime) -> Result<(), Fail> {
    let alloc = rt.alloc();
    for text in ["0", "1", "0110", "11111111"] {
        let parsed = parse_bits(alloc, text)?;
        let bits = parsed.into_result().unwrap_or(Vec::new(alloc));
        assert!(rt; bits.iter().copied().eq(text.chars()), "{text}");
    }
    for text in ["", "2", "012", "01 ", " 01", "0x1", "٠"] {
        let parsed = parse_bits(alloc, text)?;
        assert!(rt; parsed.has_errors() && !parsed.has_output(), "{text}");
    }
    Ok(())
}

#[test]
fn rows_have_a_bit_at_least_and_commas_between_them(rt: HostRuntime) -> Result<(), Fail> {
    let alloc = rt.alloc();
    let accepted: [(&str, &[&[char]]); 4] = [
        ("", &[]),
        ("0", &[&['0']]),
        ("01,1", &[&['0', '1'], &['1']]),
        ("1,10,0", &[&['1'], &['1', '0'], &['0']]),
    ];
    for (text, rows) in accepted {
        let read = parse_rows(alloc, text)?.into_result().expect(&rt, "no rows");
        assert_eq!(rt; read.len(), rows.len(), "{text}");
        for (row, wanted) in read.iter().zip(rows) {
            assert_eq!(rt; row.as_slice(), *wanted, "{text}");
        }
    }
    for text in [",", "0,", ",0", "0,,1", "2", "01;1", "0 ", "0,1,x"] {
        let parsed = parse_rows(alloc, text)?;
        assert!(rt; parsed.has_errors() && !parsed.has_output(), "{text}");
    }
    Ok(())
}

#[test]
fn dates_are_read_and_no_other_text_is(rt: HostRuntime) -> Result<(), Fail> {
    let alloc = rt.alloc();
    let accepted = [
        ("2026-11-27", 2026, 11, 27),
        ("0000-01-01", 0, 1, 1),
        ("9999-12-31", 9999, 12, 31),
        ("2026-02-31", 2026, 2, 31),
    ];
    for (text, year, month, day) in accepted {
        let parsed = parse_date(alloc, text)?;
        assert_eq!(rt; parsed.into_result(), Ok(Date { year, month, day }), "{text}");
    }
    for text in ["", "2026-13-01", "2026-00-01", "2026-1-01", "2026-01-32", "2026-01-00", "02026-01-01", "2026-01-011", "2026/01/01", "+026-01-01", "2026-01-01 "] {
        let parsed = parse_date(alloc, text)?;
        assert!(rt; parsed.has_errors() && !parsed.has_output(), "{text}");
    }
    Ok(())
}

#[test]
fn pairs_of_names_and_numbers_are_read_a_line_each(rt: HostRuntime) -> Result<(), Fail> {
    let alloc = rt.alloc();
    let accepted: [(&str, &[(&str, &str)]); 10] = [
        ("", &[]),
        ("size=10", &[("size", "10")]),
        ("size=10\n", &[("size", "10")]),
        ("  size =  10 ", &[("size", "10")]),
        ("size\t=\t10\t\n", &[("size", "10")]),
        ("a =1\n\tb= 2 \n c\t=\t 3", &[("a", "1"), ("b", "2"), ("c", "3")]),
        ("a=0 \n", &[("a", "0")]),
        ("a=1 \n  b=2", &[("a", "1"), ("b", "2")]),
        ("size=10\n_a1=0\nb=7", &[("size", "10"), ("_a1", "0"), ("b", "7")]),
        ("a=1\na=2\n", &[("a", "1"), ("a", "2")]),
    ];
    for (text, pairs) in accepted {
        let parsed = parse_pairs(alloc, text)?;
        let read = parsed.into_result().ok();
        assert!(rt; read.is_some_and(|read| read.as_slice() == pairs), "{text}");
    }
    for text in [
        "\n", "a", "a=", "=1", "a=01", "a=b", "1=a", "a=1\n\n", "\na=1", "a=1\n\nb=2", "a=-1", "ä=1", " ", "a=1\n ", "a b=1", "a=1 2", "a=1 b=2", "a = = 1", "a\n=1", "a=\n1", "a=1\r\n",
        "a\u{A0}=1",
    ] {
        let parsed = parse_pairs(alloc, text)?;
        assert!(rt; parsed.has_errors() && !parsed.has_output(), "{text}");
    }
    Ok(())
}

#[test]
fn pairs_are_printed_without_blanks(rt: HostRuntime) -> Result<(), Fail> {
    let alloc = rt.alloc();
    let printed: [(&[(&str, &str)], &str); 3] = [
        (&[], ""),
        (&[("size", "10")], "size=10\n"),
        (&[("a", "1"), ("_b2", "0"), ("a", "7")], "a=1\n_b2=0\na=7\n"),
    ];
    for (pairs, text) in printed {
        let written = print_pairs(alloc, pairs)?;
        assert_eq!(rt; written.as_str(), text);
        let read = parse_pairs(alloc, written.as_str())?.into_result();
        assert!(rt; read.is_ok_and(|read| read.as_slice() == pairs), "{text}");
    }
    Ok(())
}

/// How a tree is written.
fn written(alloc: Global, tree: &Tree) -> Result<String, AllocError> {
    match tree {
        Tree::Number(number) => format!(in alloc; "{number}"),
        Tree::List(trees) => {
            let mut text = String::new(alloc);
            for tree in trees {
                text.push_str(if text.is_empty() { "[" } else { "," })?;
                text.push_str(written(alloc, tree)?.as_str())?;
            }
            text.push_str(if trees.is_empty() { "[]" } else { "]" })?;
            Ok(text)
        }
    }
}

#[test]
fn lists_within_lists_are_read_and_no_other_text_is(rt: HostRuntime) -> Result<(), Fail> {
    let alloc = rt.alloc();
    for text in ["7", "0", "4294967295", "[]", "[1]", "[[]]", "[1,[2,30],[]]", "[[],[[]],[0,[10]]]", "[1,1,1,1,1,1,1,1]"] {
        let parsed = parse_tree(alloc, text, text.len() + 1)?;
        let tree = parsed.into_result().ok();
        assert!(rt; tree.is_some(), "{text}");
        if let Some(tree) = tree {
            assert_eq!(rt; written(alloc, &tree)?.as_str(), text);
        }
    }
    for text in ["", "x", "07", "4294967296", "[", "]", "[1", "1]", "[1,]", "[,1]", "[,]", "[1,,2]", "[1 ]", " 1", "1,2", "[1][2]", "[[1]", "[4294967296]", "[00]", "-1", "[٠]"] {
        let parsed = parse_tree(alloc, text, 100)?;
        assert!(rt; parsed.has_errors() && !parsed.has_output(), "{text}");
    }
    Ok(())
}

#[test]
fn a_list_within_lists_is_refused_that_is_deeper_than_the_limit(rt: HostRuntime) -> Result<(), Fail> {
    let alloc = rt.alloc();
    for (text, calls) in [("7", 1), ("[]", 2), ("[[]]", 3), ("[7,[7]]", 3), ("[[[[]]]]", 5)] {
        let parsed = parse_tree(alloc, text, calls)?;
        assert!(rt; parsed.into_result().is_ok(), "{text}");
        let refused = matches!(parse_tree(alloc, text, calls - 1), Err(Stop::TooDeep));
        assert!(rt; refused, "{text}");
    }
    Ok(())
}

/// The same number of calls is asked of a text with one tree in a list and of one with ten thousand.
#[test]
fn a_long_list_is_read_under_as_many_calls_as_its_levels_ask(rt: HostRuntime) -> Result<(), Fail> {
    let alloc = rt.alloc();
    for (tree, calls) in [("7", 2), ("[]", 3), ("[7,[]]", 4)] {
        let mut text = String::from_str(alloc, "[")?;
        for i in 0..10_000 {
            text.push_str(if i == 0 { "" } else { "," })?;
            text.push_str(tree)?;
        }
        text.push_str("]")?;
        let parsed = parse_tree(alloc, text.as_str(), calls)?;
        assert!(rt; parsed.into_result().is_ok(), "{tree}");
        let refused = matches!(parse_tree(alloc, text.as_str(), calls - 1), Err(Stop::TooDeep));
        assert!(rt; refused, "{tree}");
    }
    Ok(())
}
