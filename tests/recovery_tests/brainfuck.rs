//! A reader of Brainfuck that recovers.
use answers::asserts::assert_answers;
use chumsky::PResult;
use chumsky::combinator::run_part;
use chumsky::extra::RichText;
use chumsky::input::InputRef;
use chumsky::prelude::*;

/// An instruction, or what stands for a loop that can't be read.
#[derive(Clone, Debug, Drop)]
enum Instruction {
    Left,
    Right,
    More,
    Less,
    Read,
    Write,
    Loop(Vec<Instruction>),
    Broken,
}

/// Instructions, one after another. A loop that isn't right is taken whole.
fn whole_loops<'src>(
    inp: &mut InputRef<'src, '_, &'src str, RichText>,
    wanted: bool,
    depth: usize,
) -> PResult<Option<Vec<Instruction>>> {
    let inside = recursive(whole_loops, depth).delimited_by(just('['), just(']'));
    let instruction = choice((
        just('<').to(Instruction::Left),
        just('>').to(Instruction::Right),
        just('+').to(Instruction::More),
        just('-').to(Instruction::Less),
        just(',').to(Instruction::Read),
        just('.').to(Instruction::Write),
        inside.map(|inside: Vec<Instruction>| Instruction::Loop(inside)),
    ));
    let broken = nested_delimiters('[', ']', [], |_: SimpleSpan| Instruction::Broken);
    let instruction = instruction.recover_with(via_parser(broken));
    run_part(&instruction.repeated().collect::<Vec<_>>(), wanted, inp)
}

/// Instructions, one after another. What is none is skipped, inside a loop too.
fn each_instruction<'src>(
    inp: &mut InputRef<'src, '_, &'src str, RichText>,
    wanted: bool,
    depth: usize,
) -> PResult<Option<Vec<Instruction>>> {
    let inside = recursive(each_instruction, depth).delimited_by(just('['), just(']'));
    let instruction = choice((
        just('+').to(Instruction::More),
        just('-').to(Instruction::Less),
        inside.map(|inside: Vec<Instruction>| Instruction::Loop(inside)),
    ));
    let broken = nested_delimiters('[', ']', [], |_: SimpleSpan| Instruction::Broken);
    let skipped = skip_then_retry_until(any().ignored(), just(']').ignored());
    let instruction = instruction
        .recover_with(via_parser(broken))
        .recover_with(skipped);
    run_part(&instruction.repeated().collect::<Vec<_>>(), wanted, inp)
}

#[test]
fn a_loop_that_is_wrong_is_taken_whole(rt: HostRuntime) {
    let program = recursive::<_, _, _, RichText>(whole_loops, 9);
    let rows = [
        ("", "ok []"),
        ("+[-].", "ok [More, Loop([Less]), Write]"),
        (
            "<[>[,]]",
            "ok [Left, Loop([Right, Loop([Read])])]",
        ),
        (
            "+[->x<]+",
            "ok [More, Broken, More]; error 4..5 expected '<', '>', '+', '-', ',', '.', '[', ']' found 'x'",
        ),
        (
            "[a][b[c]]-",
            "ok [Broken, Broken, Less]; error 1..2 expected '<', '>', '+', '-', ',', '.', '[', ']' found 'a'; error 4..5 expected '<', '>', '+', '-', ',', '.', '[', ']' found 'b'",
        ),
        (
            "+[[a]-]",
            "ok [More, Loop([Broken, Less])]; error 3..4 expected '<', '>', '+', '-', ',', '.', '[', ']' found 'a'",
        ),
        (
            "[[a]b]",
            "ok [Broken]; error 4..5 expected '<', '>', '+', '-', ',', '.', '[', ']' found 'b'",
        ),
        (
            "+x",
            "error 1..2 expected '<', '>', '+', '-', ',', '.', '[', end of input found 'x'",
        ),
        (
            "[-",
            "error 2..2 expected '<', '>', '+', '-', ',', '.', '[', ']' found end",
        ),
        (
            "-]",
            "error 1..2 expected '<', '>', '+', '-', ',', '.', '[', end of input found ']'",
        ),
    ];
    assert_answers(&rt, &program, &rows);
}

#[test]
fn what_is_no_instruction_is_skipped(rt: HostRuntime) {
    let program = recursive::<_, _, _, RichText>(each_instruction, 9);
    let rows = [
        ("+[-]", "ok [More, Loop([Less])]"),
        (
            "+x-",
            "ok [More, Less]; error 1..2 expected '+', '-', '[' found 'x'",
        ),
        (
            "+[-x+]y-",
            "ok [More, Loop([Less, More]), Less]; error 3..4 expected '+', '-', '[' found 'x'; error 6..7 expected '+', '-', '[' found 'y'",
        ),
        (
            "[-x]+",
            "ok [Broken, More]; error 2..3 expected '+', '-', '[', ']' found 'x'",
        ),
        (
            "[+",
            "ok [More]; error 2..2 expected '+', '-', '[', ']' found end",
        ),
        // The loop after the `x` has an error of its own, so it is not what the run goes on with.
        (
            "[x[y-]]",
            "error 1..2 expected '+', '-', '[' found 'x'; error 6..7 expected '+', '-', '[', end of input found ']'",
        ),
    ];
    assert_answers(&rt, &program, &rows);
}
