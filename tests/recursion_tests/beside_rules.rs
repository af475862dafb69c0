//! Grammars by functions beside the same grammars by rules, on every text of a few characters.
use super::calls::brackets;
use answers::answer::{answer, line_of};
use chumsky::Stop;
use chumsky::extra::RichText;
use chumsky::prelude::*;
use guide::{arithmetic, calculator, descent, recursion};
use std::alloc::{AllocError, Global};
use std::process::Abort;

/// What rules answer.
fn by_rules<O, E>(
    answer: Result<ParseResult<O, E>, recursion::Refused>,
) -> Result<ParseResult<O, E>, Stop> {
    match answer {
        Ok(parsed) => Ok(parsed),
        Err(recursion::Refused::Running(stop)) => Err(stop),
        Err(_) => Err(Stop::CountTooLarge),
    }
}

/// The text that a number stands for, in digits that are the characters.
fn text_of(alloc: Global, characters: &[char], number: usize) -> Result<String, AllocError> {
    let mut text = String::new(alloc);
    let mut left = number;
    while left > 0 {
        left = left - 1;
        text.push(characters[left % characters.len()])?;
        left = left / characters.len();
    }
    Ok(text)
}

/// All texts of brackets and one other character, of at most six: outputs, errors with their expectations, and refusals; and
/// `check` has the errors of `parse`.
#[test]
fn brackets_answer_as_rules_do(rt: HostRuntime) {
    for number in 0..1_093 {
        let text = text_of(rt.alloc(), &['[', ']', 'x'], number).expect(&rt, "out of memory");
        for limit in [1, 3, 10] {
            let rules = by_rules(recursion::depth_within(rt.alloc(), text.as_str(), limit));
            let of_rules = line_of(rt.alloc(), &rules).expect(&rt, "out of memory");
            let calls = descent::depth(rt.alloc(), text.as_str(), limit);
            let of_calls = line_of(rt.alloc(), &calls).expect(&rt, "out of memory");
            assert_eq!(rt; of_calls.as_str(), of_rules.as_str());
            let call = recursive::<_, _, _, RichText>(brackets, limit);
            let both = answer(&call, rt.alloc(), text.as_str()).expect(&rt, "out of memory");
            assert_eq!(rt; both.as_str(), of_rules.as_str());
        }
    }
}

/// All texts of sums of at most five characters, but those with a number of two digits, which the rules don't have: the same
/// numbers, or errors at the same place.
#[test]
fn sums_come_to_what_they_do_by_rules(rt: HostRuntime) {
    for number in 0..3_906 {
        let text = text_of(rt.alloc(), &['2', '+', '*', '(', ')'], number).expect(
            &rt,
            "out of memory",
        );
        if text.as_str().contains("22") {
            continue;
        }
        let rules = by_rules(arithmetic::value_of(rt.alloc(), text.as_str())).expect(&rt, "refused");
        let calls = calculator::value_of(rt.alloc(), text.as_str()).expect(&rt, "refused");
        assert_eq!(rt; calls.output(), rules.output());
        let place = rules.errors().as_slice().first().map(|error| *error.span());
        assert_eq!(rt; calls.errors().as_slice().first().map(|error| *error.span()), place);
        assert_eq!(rt; calls.errors().as_slice().len(), rules.errors().as_slice().len());
    }
}
