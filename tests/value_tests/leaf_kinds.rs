//! Leaves of two to eight types, each one type by an `Either` of `Either`s, in a chain and in balance.
use chumsky::extra::RichText;
use chumsky::prelude::*;
use chumsky::recursive::{
    BuildError, Leaves, Moving, RecursiveError, SimpleValues, Simply,
};
use either::Either::{Left, Right};
use std::alloc::{AllocError, Global};
use std::process::Abort;

/// Values are sums of what leaves give.
#[derive(Drop)]
struct Sums;

impl SimpleValues<SimpleSpan, Rich<char>> for Sums {
    type Value = usize;

    fn unit(&self, _alloc: Global) -> Result<usize, AllocError> {
        Ok(0)
    }

    fn pair(
        &self,
        _alloc: Global,
        _number: usize,
        a: usize,
        b: usize,
    ) -> Result<usize, AllocError> {
        Ok(a.wrapping_add(b))
    }

    fn list(&self, _alloc: Global, items: Vec<usize>) -> Result<usize, AllocError> {
        let mut sum = 0usize;
        for item in items {
            sum = sum.wrapping_add(item);
        }
        Ok(sum)
    }
}

/// Any number of leaves, in any order.
fn any_leaves(rules: &mut Rules, leaves: usize) -> Result<Recursive, RecursiveError> {
    rules.recursive(|rules, _all| {
        let mut nodes = Vec::new(rules.allocator());
        for number in 0..leaves {
            let leaf = rules.leaf(number)?;
            if nodes.push(leaf).is_err() {
                return Err(BuildError::Memory);
            }
        }
        let one = rules.choice(nodes.as_slice())?;
        rules.repeated(one, 0, None)
    })
}

/// What the leaves of a text come to, if the text has nothing else. A leaf gives its number.
fn sum_of<'src, P>(alloc: Global, leaves: &[P], text: &'src str) -> Option<usize>
where
    P: IsParser<&'src str, usize, RichText>
        + Parser<'src, &'src str, usize, RichText>
        + Moving<'src, &'src str, usize, RichText>,
{
    let mut rules = Rules::new(alloc);
    let Ok(start) = any_leaves(&mut rules, leaves.len()) else {
        return None;
    };
    let actions = Leaves {
        leaves,
        values: Simply(Sums),
    };
    match close_founded(&rules, start, &actions, text.len()) {
        Ok(grammar) => match grammar.parse(alloc, text) {
            Ok(parsed) => parsed.into_output(),
            Err(_) => None,
        },
        Err(_) => None,
    }
}

#[test]
fn leaves_of_two_kinds_are_one_type(rt: HostRuntime) {
    let leaves = [Left(just('a').to(1usize)), Right(just("bb").to(2usize))];
    assert_eq!(rt; sum_of(rt.alloc(), &leaves, "abba"), Some(4));
    assert_eq!(rt; sum_of(rt.alloc(), &leaves, "ab"), None);
}

#[test]
fn leaves_of_four_kinds_are_one_type_in_a_chain(rt: HostRuntime) {
    let leaves = [
        Left(just('a').to(1usize)),
        Right(Left(just("bb").to(2usize))),
        Right(Right(Left(one_of("cd").to(3usize)))),
        Right(Right(Right(just('e').ignored().to(4usize)))),
    ];
    assert_eq!(rt; sum_of(rt.alloc(), &leaves, "abbcde"), Some(13));
    assert_eq!(rt; sum_of(rt.alloc(), &leaves, "abbcdef"), None);
}

#[test]
fn leaves_of_four_kinds_are_one_type_in_balance(rt: HostRuntime) {
    let leaves = [
        Left(Left(just('a').to(1usize))),
        Left(Right(just("bb").to(2usize))),
        Right(Left(one_of("cd").to(3usize))),
        Right(Right(just('e').ignored().to(4usize))),
    ];
    assert_eq!(rt; sum_of(rt.alloc(), &leaves, "abbcde"), Some(13));
    assert_eq!(rt; sum_of(rt.alloc(), &leaves, "abbcdef"), None);
}

#[test]
fn leaves_of_eight_kinds_are_one_type_in_a_chain(rt: HostRuntime) {
    let leaves = [
        Left(just('a').to(1usize)),
        Right(Left(just("bb").to(2usize))),
        Right(Right(Left(one_of("cd").to(3usize)))),
        Right(Right(Right(Left(just('e').ignored().to(4usize))))),
        Right(Right(Right(Right(Left(just('f').then(just('g')).to(5usize)))))),
        Right(Right(Right(Right(Right(Left(just('h').ignore_then(just('i')).to(6usize))))))),
        Right(Right(Right(Right(Right(Right(Left(just(['j', 'k']).to(7usize)))))))),
        Right(Right(Right(Right(Right(Right(Right(text::digits(10).to(8usize)))))))),
    ];
    assert_eq!(rt; sum_of(rt.alloc(), &leaves, "abbcefghijk12"), Some(36));
    assert_eq!(rt; sum_of(rt.alloc(), &leaves, "abbcefghijk12z"), None);
}

#[test]
fn leaves_of_eight_kinds_are_refused_where_one_in_the_chain_may_be_empty(rt: HostRuntime) {
    let leaves = [
        Left(just('a').to(1usize)),
        Right(Left(just("bb").to(2usize))),
        Right(Right(Left(one_of("cd").to(3usize)))),
        Right(Right(Right(Left(just('e').ignored().to(4usize))))),
        Right(Right(Right(Right(Left(just('f').then(just('g')).to(5usize)))))),
        Right(Right(Right(Right(Right(Left(just('h').ignore_then(just('i')).to(6usize))))))),
        Right(Right(Right(Right(Right(Right(Left(just(['j', 'k']).to(7usize)))))))),
        Right(Right(Right(Right(Right(Right(Right(just('l').or_not().to(8usize)))))))),
    ];
    assert_eq!(rt; sum_of(rt.alloc(), &leaves, "abb"), None);
}

#[test]
fn leaves_of_eight_kinds_are_one_type_in_balance(rt: HostRuntime) {
    let leaves = [
        Left(Left(Left(just('a').to(1usize)))),
        Left(Left(Right(just("bb").to(2usize)))),
        Left(Right(Left(one_of("cd").to(3usize)))),
        Left(Right(Right(just('e').ignored().to(4usize)))),
        Right(Left(Left(just('f').then(just('g')).to(5usize)))),
        Right(Left(Right(just('h').ignore_then(just('i')).to(6usize)))),
        Right(Right(Left(just(['j', 'k']).to(7usize)))),
        Right(Right(Right(text::digits(10).to(8usize)))),
    ];
    assert_eq!(rt; sum_of(rt.alloc(), &leaves, "abbcefghijk12"), Some(36));
    assert_eq!(rt; sum_of(rt.alloc(), &leaves, "abbcefghijk12z"), None);
}
