//! Blocks within blocks, in which each list of statements recovers by itself.
use answers::asserts::assert_answers;
use chumsky::PResult;
use chumsky::combinator::run_part;
use chumsky::extra::RichText;
use chumsky::input::InputRef;
use chumsky::prelude::*;

/// A statement, or what stands for one that can't be read.
#[derive(Debug, Drop)]
pub enum Statement {
    Name(char),
    Block(Vec<Statement>),
    Bad,
}

/// Statements: a name and a `;`, or statements between braces. One that is wrong is skipped up to its `;`; a block that isn't
/// right is taken whole.
pub fn statements<'src>(
    inp: &mut InputRef<'src, '_, &'src str, RichText>,
    wanted: bool,
    depth: usize,
) -> PResult<Option<Vec<Statement>>> {
    let name = any()
        .filter(|c: &char| c.is_ascii_lowercase())
        .labelled("a name")
        .then_ignore(just(';'))
        .map(|name: char| Statement::Name(name));
    let block = recursive(statements, depth)
        .delimited_by(just('{'), just('}'))
        .map(|inside: Vec<Statement>| Statement::Block(inside));
    let to_its_end = skip_until(
        none_of("{};").ignored(),
        just(';').ignored(),
        || Statement::Bad,
    );
    let whole = nested_delimiters('{', '}', [], |_: SimpleSpan| Statement::Bad);
    let statement = name
        .or(block)
        .recover_with(to_its_end)
        .recover_with(via_parser(whole));
    run_part(&statement.repeated().collect::<Vec<_>>(), wanted, inp)
}

#[test]
fn each_list_of_statements_recovers_by_itself(rt: HostRuntime) {
    let program = recursive::<_, _, _, RichText>(statements, 4);
    let rows = [
        (
            "a;{b;{}}c;",
            "ok [Name('a'), Block([Name('b'), Block([])]), Name('c')]",
        ),
        (
            "a;1;{b;2;{3;c;}4;}d;",
            "ok [Name('a'), Bad, Block([Name('b'), Bad, Block([Bad, Name('c')]), Bad]), Name('d')]; \
             error 2..3 expected a name, '{' found '1'; error 7..8 expected a name, '{' found '2'; \
             error 10..11 expected a name, '{' found '3'; error 15..16 expected a name, '{' found '4'",
        ),
        (
            "{ab;{c;}}",
            "ok [Block([Bad, Block([Name('c')])])]; error 2..3 expected ';' found 'b'",
        ),
    ];
    assert_answers(&rt, &program, &rows);
}

#[test]
fn a_block_that_is_wrong_is_taken_whole(rt: HostRuntime) {
    let program = recursive::<_, _, _, RichText>(statements, 4);
    let rows = [
        (
            "{b;2}c;",
            "ok [Bad, Name('c')]; error 3..4 expected a name, '{', '}' found '2'",
        ),
        // What the block had to say of its own statements goes with it.
        (
            "{1;{b;2}3;{c;}4}c;",
            "ok [Bad, Name('c')]; error 14..15 expected a name, '{', '}' found '4'",
        ),
        (
            "{1;{b;2}c;}",
            "ok [Block([Bad, Bad, Name('c')])]; error 1..2 expected a name, '{' found '1'; \
             error 6..7 expected a name, '{', '}' found '2'",
        ),
        ("a;{b;", "error 5..5 expected a name, '{', '}' found end"),
        (
            "1;}b;",
            "error 0..1 expected a name, '{' found '1'; \
             error 2..3 expected a name, '{', end of input found '}'",
        ),
        ("{{{}}}", "ok [Block([Block([Block([])])])]"),
        ("{{{{}}}}", "refused TooDeep"),
    ];
    assert_answers(&rt, &program, &rows);
}
