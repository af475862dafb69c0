//! Nodes `separated_by`, over texts and bytes: each answers as the list of that name.
use answers::asserts::assert_answers;
use answers::extras::Own;
use chumsky::prelude::*;
use chumsky::recursive::{Leaves, RecursiveError, SepCfg, Values};
use std::alloc::{AllocError, AllocGlobal, Global};
use std::process::Abort;

/// The value of a list is the number of its items, and that of a pair is its first part's.
#[derive(Drop)]
struct Counts;

impl<T> Values<SimpleSpan, Rich<T>> for Counts {
    type Value = usize;

    fn pair(
        &self,
        _alloc: Global,
        _number: usize,
        first: usize,
        _second: usize,
    ) -> Result<usize, AllocError> {
        Ok(first)
    }

    fn option(&self, _alloc: Global, count: Option<usize>) -> Result<usize, AllocError> {
        Ok(count.unwrap_or(0))
    }

    fn unit(&self, _alloc: Global) -> Result<usize, AllocError> {
        Ok(0)
    }

    fn map(&self, _alloc: Global, _mapper: usize, count: usize) -> Result<usize, AllocError> {
        Ok(count)
    }

    fn list(&self, _alloc: Global, items: Vec<usize>) -> Result<usize, AllocError> {
        Ok(items.len())
    }

    fn try_map(
        &self,
        _alloc: Global,
        _mapper: usize,
        count: usize,
        _span: SimpleSpan,
    ) -> Result<Result<usize, Rich<T>>, AllocError> {
        Ok(Ok(count))
    }
}

/// Any number of items, and no separator but between them.
const ANY: SepCfg = SepCfg {
    at_least: 0,
    at_most: None,
    allow_leading: false,
    allow_trailing: false,
};

/// A separator may stand before the first item.
const LEADING: SepCfg = SepCfg {
    allow_leading: true,
    ..ANY
};

/// Two items at most, and a separator may stand after the last.
const TWO_TRAILING: SepCfg = SepCfg {
    at_most: Some(2),
    allow_trailing: true,
    ..ANY
};

/// What comes after a list.
#[derive(Clone, Copy)]
enum After {
    End,
    Separator,
}

/// The rule of a list: leaf 0, with leaf 1 between.
fn list(rules: &mut Rules, bounds: SepCfg, after: After) -> Result<Recursive, RecursiveError> {
    rules.recursive(|rules, _list| {
        let item = rules.leaf(0)?;
        let separator = rules.leaf(1)?;
        let items = rules.separated_by(item, separator, bounds)?;
        match after {
            After::End => Ok(items),
            After::Separator => rules.then(items, separator),
        }
    })
}

/// Asserts what a list answers over dashes, with commas between.
fn assert_dashes<R: Abort + AllocGlobal>(
    rt: &R,
    bounds: SepCfg,
    after: After,
    rows: &[(&str, &str)],
) {
    let mut rules = Rules::new(rt.alloc());
    let start = list(&mut rules, bounds, after).expect(rt, "refused");
    let leaves = [just::<_, &str, Own>('-').to(0), just(',').to(0)];
    let actions = Leaves {
        leaves: &leaves,
        values: Counts,
    };
    match close(&rules, start, &actions, 1) {
        Ok(grammar) => assert_answers(rt, &grammar, rows),
        Err(_) => assert!(rt; false),
    }
}

/// Asserts what a list answers over sevens, with zeros between.
fn assert_sevens<R: Abort + AllocGlobal>(
    rt: &R,
    bounds: SepCfg,
    after: After,
    rows: &[(&[u8], &str)],
) {
    let mut rules = Rules::new(rt.alloc());
    let start = list(&mut rules, bounds, after).expect(rt, "refused");
    let leaves = [just::<_, &[u8], Own>(7).to(0), just(0).to(0)];
    let actions = Leaves {
        leaves: &leaves,
        values: Counts,
    };
    match close(&rules, start, &actions, 1) {
        Ok(grammar) => assert_answers(rt, &grammar, rows),
        Err(_) => assert!(rt; false),
    }
}

#[test]
fn a_separator_that_no_item_follows_is_left(rt: HostRuntime) {
    let rows = [("-,-,-,", "ok 3"), (",", "ok 0")];
    assert_dashes(&rt, ANY, After::Separator, &rows);
    let rows: [(&[u8], &str); 2] = [(&[7, 0, 7, 0, 7, 0], "ok 3"), (&[0], "ok 0")];
    assert_sevens(&rt, ANY, After::Separator, &rows);
}

#[test]
fn a_separator_trails_at_the_cap(rt: HostRuntime) {
    let exactly_two = SepCfg {
        at_least: 2,
        ..TWO_TRAILING
    };
    let rows = [
        ("-,-,", "error 4..4 expected ',' found end"),
        ("-,-,,", "ok 2"),
    ];
    assert_dashes(&rt, exactly_two, After::Separator, &rows);
    let rows: [(&[u8], &str); 2] = [
        (&[7, 0, 7, 0], "error 4..4 expected 0 found end"),
        (&[7, 0, 7, 0, 0], "ok 2"),
    ];
    assert_sevens(&rt, exactly_two, After::Separator, &rows);
    let rows = [
        ("-,-", "ok 2"),
        ("-,-,", "ok 2"),
        ("-,-,-", "error 4..5 expected end of input found '-'"),
    ];
    assert_dashes(&rt, TWO_TRAILING, After::End, &rows);
    let rows: [(&[u8], &str); 3] = [
        (&[7, 0, 7], "ok 2"),
        (&[7, 0, 7, 0], "ok 2"),
        (&[7, 0, 7, 0, 7], "error 4..5 expected end of input found 7"),
    ];
    assert_sevens(&rt, TWO_TRAILING, After::End, &rows);
}

#[test]
fn a_leading_separator_stands_alone_where_no_item_is_asked_for(rt: HostRuntime) {
    let rows = [
        (",", "ok 0"),
        (",,", "error 1..2 expected '-', end of input found ','"),
    ];
    assert_dashes(&rt, LEADING, After::End, &rows);
    let rows: [(&[u8], &str); 2] = [
        (&[0], "ok 0"),
        (&[0, 0], "error 1..2 expected 7, end of input found 0"),
    ];
    assert_sevens(&rt, LEADING, After::End, &rows);
    let both = SepCfg {
        allow_trailing: true,
        ..LEADING
    };
    assert_dashes(&rt, both, After::End, &[(",", "ok 0")]);
    let rows: [(&[u8], &str); 1] = [(&[0], "ok 0")];
    assert_sevens(&rt, both, After::End, &rows);
    let one_at_least = SepCfg {
        at_least: 1,
        ..LEADING
    };
    let rows = [(",", "error 1..1 expected '-' found end")];
    assert_dashes(&rt, one_at_least, After::End, &rows);
    let rows: [(&[u8], &str); 1] = [(&[0], "error 1..1 expected 7 found end")];
    assert_sevens(&rt, one_at_least, After::End, &rows);
}

#[test]
fn a_list_whose_cap_is_0_takes_nothing(rt: HostRuntime) {
    let none = SepCfg {
        at_least: 0,
        at_most: Some(0),
        allow_leading: true,
        allow_trailing: true,
    };
    let rows = [
        ("", "ok 0"),
        (",", "error 0..1 expected end of input found ','"),
    ];
    assert_dashes(&rt, none, After::End, &rows);
    let rows: [(&[u8], &str); 2] = [
        (&[], "ok 0"),
        (&[0], "error 0..1 expected end of input found 0"),
    ];
    assert_sevens(&rt, none, After::End, &rows);
}
