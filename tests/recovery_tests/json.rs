//! A reader of JSON that recovers: values that can't be read, and what stands between them.
use answers::asserts::assert_answers;
use chumsky::PResult;
use chumsky::combinator::{Part, part_of, run_part};
use chumsky::extra::RichText;
use chumsky::input::InputRef;
use chumsky::prelude::*;

/// A value, or what stands for one that can't be read.
#[derive(Debug, Drop)]
enum Json {
    Null,
    Bool(bool),
    Number(u32),
    Text(String),
    List(Vec<Json>),
    Object(Vec<(String, Json)>),
    Invalid,
}

/// A text between quotes, without escapes.
#[derive(Clone, Copy)]
struct Quotation;

impl<'src> IsParser<&'src str, String, RichText> for Quotation {}

impl<'src> Part<'src, &'src str, String, RichText> for Quotation {
    fn run(
        &self,
        wanted: bool,
        inp: &mut InputRef<'src, '_, &'src str, RichText>,
    ) -> PResult<Option<String>> {
        let text = none_of("\"").repeated().collect::<String>();
        run_part(&text.delimited_by(just('"'), just('"')), wanted, inp)
    }
}

/// A value in which no other stands.
#[derive(Clone, Copy)]
struct Scalar;

impl<'src> IsParser<&'src str, Json, RichText> for Scalar {}

impl<'src> Part<'src, &'src str, Json, RichText> for Scalar {
    fn run(
        &self,
        wanted: bool,
        inp: &mut InputRef<'src, '_, &'src str, RichText>,
    ) -> PResult<Option<Json>> {
        let number = text::int(10)
            .from_str::<u32>()
            .filter_map(|read| read.ok());
        let scalar = choice((
            just("null").map(|_| Json::Null),
            just("true").map(|_| Json::Bool(true)),
            just("false").map(|_| Json::Bool(false)),
            number.map(|number| Json::Number(number)),
            part_of(Quotation).map(|text: String| Json::Text(text)),
        ));
        run_part(&scalar, wanted, inp)
    }
}

/// A value. A list or an object that isn't right is taken whole.
fn whole_value<'src>(
    inp: &mut InputRef<'src, '_, &'src str, RichText>,
    wanted: bool,
    depth: usize,
) -> PResult<Option<Json>> {
    let list = recursive(whole_value, depth)
        .separated_by(just(','))
        .collect::<Vec<_>>()
        .delimited_by(just('['), just(']'))
        .map(|items: Vec<Json>| Json::List(items));
    let member = part_of(Quotation)
        .padded()
        .then_ignore(just(':'))
        .then(recursive(whole_value, depth));
    let object = member
        .separated_by(just(','))
        .collect::<Vec<_>>()
        .delimited_by(just('{'), just('}'))
        .map(|members: Vec<(String, Json)>| Json::Object(members));
    let in_braces = nested_delimiters('{', '}', [('[', ']')], |_: SimpleSpan| Json::Invalid);
    let in_brackets = nested_delimiters('[', ']', [('{', '}')], |_: SimpleSpan| Json::Invalid);
    let value = choice((part_of(Scalar), list, object))
        .labelled("a value")
        .recover_with(via_parser(in_braces))
        .recover_with(via_parser(in_brackets));
    run_part(&value.padded(), wanted, inp)
}

#[test]
fn what_is_in_brackets_is_taken_whole(rt: HostRuntime) {
    let value = recursive::<_, _, _, RichText>(whole_value, 9);
    let rows = [
        ("null", "ok Null"),
        (
            " { \"a\" : [ 1 , true ] , \"b\" : {} } ",
            "ok Object([(\"a\", List([Number(1), Bool(true)])), (\"b\", Object([]))])",
        ),
        // The list inside is wrong, and the one around it is right.
        (
            "[[1 2], 3]",
            "ok List([Invalid, Number(3)]); error 4..5 expected ',', ']' found '2'",
        ),
        (
            "{\"a\": {\"b\" 1}, \"c\": [x], \"d\": 2}",
            "ok Object([(\"a\", Invalid), (\"c\", Invalid), (\"d\", Number(2))]); \
             error 11..12 expected ':' found '1'; error 21..22 expected a value, ']' found 'x'",
        ),
        (
            "[{\"a\": [1, {2}]}]",
            "ok List([Object([(\"a\", List([Number(1), Invalid]))])]); \
             error 12..13 expected '\"', '}' found '2'",
        ),
        ("[1, 2", "error 5..5 expected digit, ',', ']' found end"),
        (
            "[(1]",
            "ok Invalid; error 1..2 expected a value, ']' found '('",
        ),
    ];
    assert_answers(&rt, &value, &rows);
}

/// A value. What is wrong is skipped: to the next comma between items, and to the bracket that closes after them.
fn value<'src>(
    inp: &mut InputRef<'src, '_, &'src str, RichText>,
    wanted: bool,
    depth: usize,
) -> PResult<Option<Json>> {
    let between = skip_then_retry_until(any().ignored(), one_of(",]").ignored());
    let closing = just(']')
        .ignored()
        .recover_with(via_parser(end()))
        .recover_with(skip_then_retry_until(any().ignored(), end()));
    let list = recursive(value, depth)
        .separated_by(just(',').padded().recover_with(between))
        .allow_trailing()
        .collect::<Vec<_>>()
        .delimited_by(just('['), closing)
        .map(|items: Vec<Json>| Json::List(items));
    let skipped = skip_then_retry_until(any().ignored(), one_of(",]").ignored());
    let value = part_of(Scalar).or(list).labelled("a value").recover_with(skipped);
    run_part(&value.padded(), wanted, inp)
}

#[test]
fn items_and_what_stands_between_them_recover(rt: HostRuntime) {
    let value = recursive::<_, _, _, RichText>(value, 9);
    let rows = [
        (
            "[1, [2, \"x\"], []]",
            "ok List([Number(1), List([Number(2), Text(\"x\")]), List([])])",
        ),
        // What stands before an item is skipped, and no item is left out.
        (
            "[1, ?2]",
            "ok List([Number(1), Number(2)]); error 4..5 expected a value found '?'",
        ),
        // What stands before a comma is skipped too.
        (
            "[1 ?, 2]",
            "ok List([Number(1), Number(2)]); error 3..4 expected ',' found '?'",
        ),
        // No item follows the comma, so the list ends there, and what closes it is looked for.
        (
            "[1, ?, 2]",
            "ok List([Number(1)]); error 4..5 expected ']' found '?'",
        ),
        (
            "[1 2]",
            "ok List([Number(1)]); error 3..4 expected ']' found '2'",
        ),
        (
            "[1, 2",
            "ok List([Number(1), Number(2)]); error 5..5 expected ']' found end",
        ),
        (
            "[[1, 2}, 3]",
            "ok List([List([Number(1), Number(2), Number(3)])]); \
             error 6..7 expected ',' found '}'; error 11..11 expected ']' found end",
        ),
        (
            "[[1, ?2 ?], 3]",
            "ok List([List([Number(1), Number(2)]), Number(3)]); \
             error 5..6 expected a value found '?'; error 8..9 expected ']' found '?'",
        ),
        // A list that has errors of its own is not what a value before it is skipped for: its first item is.
        (
            "[?[1, ?2 ?], 3]",
            "error 1..2 expected a value found '?'; error 6..7 expected a value found '?'; \
             error 9..10 expected ']' found '?'; error 11..12 expected end of input found ','",
        ),
    ];
    assert_answers(&rt, &value, &rows);
}
