//! Grammars by rules whose contracts say exactly which texts they accept.
use grammars::addresses::parse_address;
use grammars::brackets::parse_brackets;
use grammars::trees::{Tree, parse_tree};
use std::alloc::{AllocError, Global};
use std::test::Fail;

#[test]
fn brackets_tell_how_deep_they_go(rt: HostRuntime) -> Result<(), Fail> {
    let alloc = rt.alloc();
    let rows = [
        ("", Some(0)),
        ("()", Some(1)),
        ("(()())", Some(2)),
        ("()((()))()", Some(3)),
        ("(()", None),
        ("())", None),
        (")(", None),
        ("(x)", None),
    ];
    for (text, depth) in rows {
        let parsed = parse_brackets(alloc, text)?;
        assert_eq!(rt; parsed.has_errors(), depth.is_none(), "{text}");
        assert_eq!(rt; parsed.into_output(), depth, "{text}");
    }
    Ok(())
}

fn two(alloc: Global, first: Tree, second: Tree) -> Result<Vec<Tree>, AllocError> {
    let mut trees = Vec::new(alloc);
    trees.push(first)?;
    trees.push(second)?;
    Ok(trees)
}

#[test]
fn digits_in_lists_are_read(rt: HostRuntime) -> Result<(), Fail> {
    let alloc = rt.alloc();
    let empty = Tree::List(Vec::new(alloc));
    let inner = two(alloc, Tree::Digit('2'), empty)?;
    let outer = two(alloc, Tree::Digit('1'), Tree::List(inner))?;
    let parsed = parse_tree(alloc, "[1,[2,[]]]")?;
    assert_eq!(rt; parsed.into_result(), Ok(Tree::List(outer)));
    assert_eq!(rt; parse_tree(alloc, "7")?.into_result(), Ok(Tree::Digit('7')));
    for text in ["", "[", "]", "[1,]", "[,1]", "[1 ,2]", "12", "[1]2", "[[]", "a", ","] {
        let parsed = parse_tree(alloc, text)?;
        assert!(rt; parsed.has_errors() && !parsed.has_output(), "{text}");
    }
    Ok(())
}

#[test]
fn addresses_are_four_numbers_below_256(rt: HostRuntime) -> Result<(), Fail> {
    let alloc = rt.alloc();
    let rows = [
        ("0.0.0.0", Some(0)),
        ("127.0.0.1", Some(2_130_706_433)),
        ("192.168.10.25", Some(3_232_238_105)),
        ("255.255.255.255", Some(4_294_967_295)),
        ("256.0.0.1", None),
        ("1.2.3.256", None),
        ("1.2.3.99999999999", None),
        ("1.2.3.04", None),
        ("01.2.3.4", None),
        ("1.2.3", None),
        ("1.2.3.4.5", None),
        ("1.2.3.4.", None),
        ("1..2.3", None),
        (".1.2.3.4", None),
        ("1.2.3.4 ", None),
        ("1,2,3,4", None),
        ("+1.2.3.4", None),
        ("", None),
    ];
    for (text, address) in rows {
        let parsed = parse_address(alloc, text)?;
        assert_eq!(rt; parsed.has_errors(), address.is_none(), "{text}");
        assert_eq!(rt; parsed.into_output(), address, "{text}");
    }
    Ok(())
}
