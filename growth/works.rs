//! The works, each with what it should answer.
use chk_run::run::run as run_chk;
use chumsky::Stop;
use chumsky::extra::{EmptyText, RichText};
use chumsky::pratt::{infix, prefix, right};
use chumsky::prelude::*;
use chumsky::recursive::{Leaves, RecursiveError, SimpleValues, Simply};
use chumsky::report::Report;
use console::run::run;
use examples::statements::parse_statements;
use programs::show::Show;
use std::alloc::{AllocError, Global};

/// What is run.
#[derive(Clone, Copy)]
pub enum Work {
    /// `show log` on lines that are wrong.
    WrongLines,
    /// A report of an error at the end of a line.
    LongLine,
    /// `chk parse settings` on lists within one another.
    DeepSettings,
    /// `chk parse settings` on lists that each hold a name before the next.
    LongSettings,
    /// Brackets within one another, after each of which an `x` may stand, by a rule that reads a pair once.
    Factored,
    /// The error of a set of tokens that are not ASCII.
    WideSet,
    /// The error of a choice among such tokens.
    WideChoice,
    /// A number after minuses.
    DeepPrefixes,
    /// Powers of powers, each the right operand of the one before.
    DeepPowers,
    /// Statements that are wrong, each of which is recovered from.
    WrongStatements,
}

/// How many times as long ten times as much may take where time grows as the size, or as its logarithm times it.
const LINEAR: u128 = 30;

/// And where it grows as the square, as it does with the alternatives of a choice.
const SQUARE: u128 = 300;

/// Each work, its name, how many lines, characters, lists, tokens, operators or statements the smaller of its inputs has, and how
/// many times as long the larger may take.
pub const WORKS: [(Work, &str, usize, u128); 10] = [
    (Work::WrongLines, "wrong_lines", 2_000, LINEAR),
    (Work::LongLine, "long_line", 100_000, LINEAR),
    (Work::DeepSettings, "deep_settings", 500, LINEAR),
    (Work::LongSettings, "long_settings", 500, LINEAR),
    (Work::Factored, "factored", 2_000, LINEAR),
    (Work::WideSet, "wide_set", 1_000, LINEAR),
    (Work::WideChoice, "wide_choice", 1_000, SQUARE),
    (Work::DeepPrefixes, "deep_prefixes", 100_000, LINEAR),
    (Work::DeepPowers, "deep_powers", 100_000, LINEAR),
    (Work::WrongStatements, "wrong_statements", 10_000, LINEAR),
];

/// Runs a work of a size. Says whether it answers as it should.
pub fn run_work(alloc: Global, work: Work, size: usize) -> Result<bool, AllocError> {
    match work {
        Work::WrongLines => wrong_lines(alloc, size),
        Work::LongLine => long_line(alloc, size),
        Work::DeepSettings => nested_settings(alloc, "[", size),
        Work::LongSettings => nested_settings(alloc, "[x,", size),
        Work::Factored => factored(alloc, size),
        Work::WideSet => wide_set(alloc, size),
        Work::WideChoice => wide_choice(alloc, size),
        Work::DeepPrefixes => deep_prefixes(alloc, size),
        Work::DeepPowers => deep_powers(alloc, size),
        Work::WrongStatements => wrong_statements(alloc, size),
    }
}

/// The words of a line.
fn words_of(alloc: Global, line: &str) -> Result<Vec<String>, AllocError> {
    let mut words = Vec::new(alloc);
    for word in line.split(' ') {
        words.push(String::from_str(alloc, word)?)?;
    }
    Ok(words)
}

fn wrong_lines(alloc: Global, lines: usize) -> Result<bool, AllocError> {
    let text = "x\n".repeat(alloc, lines)?;
    let words = words_of(alloc, "log")?;
    let mut input = text.as_bytes();
    let (mut out, mut err) = (Vec::new(alloc), Vec::new(alloc));
    let status = run(
        &Show,
        alloc,
        words.as_slice(),
        &mut input,
        &mut out,
        &mut err,
    );
    Ok(status == 1 && err.len() > lines * 40)
}

fn long_line(alloc: Global, characters: usize) -> Result<bool, AllocError> {
    let text = "x".repeat(alloc, characters)?;
    let text = text.as_str();
    let parser = just::<_, &str, RichText>('x').repeated().then(just('y'));
    let Ok(parsed) = parser.parse(alloc, text) else {
        return Ok(false);
    };
    let mut said = 0;
    for error in parsed.errors() {
        let report = format!(in alloc;
            "{}",
            Report {
                name: "input",
                text,
                error
            }
        )?;
        said += report.len();
    }
    Ok(said > 160 && said < 1_000)
}

fn nested_settings(alloc: Global, opening: &str, lists: usize) -> Result<bool, AllocError> {
    let opened = opening.repeat(alloc, lists)?;
    let closed = "]".repeat(alloc, lists)?;
    let text = format!(in alloc; "a={opened}{closed}\n")?;
    let words = words_of(alloc, "parse settings")?;
    let mut input = text.as_bytes();
    let (mut out, mut err) = (Vec::new(alloc), Vec::new(alloc));
    let ended = run_chk(alloc, words.as_slice(), &mut input, &mut out, &mut err);
    Ok(ended.status == 0 && out.len() > lists)
}

/// Values are numbers of pairs: of two parts their sum, and a mapper counts one more.
#[derive(Drop)]
struct Pairs;

impl SimpleValues<SimpleSpan, EmptyErr> for Pairs {
    type Value = usize;

    fn unit(&self, _alloc: Global) -> Result<usize, AllocError> {
        Ok(0)
    }

    fn pair(
        &self,
        _alloc: Global,
        _number: usize,
        a: usize,
        b: usize,
    ) -> Result<usize, AllocError> {
        Ok(a.wrapping_add(b))
    }

    fn list(&self, _alloc: Global, _items: Vec<usize>) -> Result<usize, AllocError> {
        Ok(0)
    }

    fn map(&self, _alloc: Global, _mapper: usize, inside: usize) -> Result<usize, AllocError> {
        Ok(inside.wrapping_add(1))
    }
}

/// `E = ( E ) x? | a`, whose beginning two alternatives, one with the `x` and one without, would have in common. By `x?` it is
/// read once.
fn pair_rule(rules: &mut Rules) -> Result<Recursive, RecursiveError> {
    rules.recursive(|rules, pair| {
        let inside = rules.rule(pair)?;
        let closing = rules.leaf(1)?;
        let mark = rules.leaf(2)?;
        let marked = rules.or_not(mark)?;
        let closed = rules.then(closing, marked)?;
        let rest = rules.then(inside, closed)?;
        let opening = rules.leaf(0)?;
        let whole = rules.then(opening, rest)?;
        let counted = rules.map(whole, 0)?;
        let atom = rules.leaf(3)?;
        rules.choice(&[counted, atom])
    })
}

fn factored(alloc: Global, pairs: usize) -> Result<bool, AllocError> {
    let opened = "(".repeat(alloc, pairs)?;
    let closed = ")x".repeat(alloc, pairs)?;
    let text = format!(in alloc; "{opened}a{closed}")?;
    let mut rules = Rules::new(alloc);
    let Ok(start) = pair_rule(&mut rules) else {
        return Ok(false);
    };
    let leaves = [
        just::<_, &str, EmptyText>("(").to(0usize),
        just(")").to(0),
        just("x").to(0),
        just("a").to(0),
    ];
    let actions = Leaves {
        leaves: &leaves,
        values: Simply(Pairs),
    };
    match close_founded(&rules, start, &actions, text.len()) {
        Ok(grammar) => Ok(gives(grammar.parse(alloc, text.as_str()), pairs)),
        Err(_) => Ok(false),
    }
}

/// So many characters, of which none is ASCII.
fn characters(alloc: Global, count: usize) -> Result<Vec<char>, AllocError> {
    let mut all = Vec::new(alloc);
    for number in 0..count {
        let number = u32::try_from(number).unwrap_or(0);
        all.push(char::from_u32(0x1_0000 + number).unwrap_or('x'))?;
    }
    Ok(all)
}

/// Whether the errors of a text are one that expects so many.
fn expects(parsed: Result<ParseResult<(), Rich<char>>, Stop>, count: usize) -> bool {
    match parsed {
        Ok(parsed) => {
            let expected = parsed.errors().map(|error| error.expected().len());
            expected.max() == Some(count)
        }
        Err(_) => false,
    }
}

fn wide_set(alloc: Global, tokens: usize) -> Result<bool, AllocError> {
    let set = characters(alloc, tokens)?;
    let parser = one_of::<_, &str, RichText>(set.as_slice());
    Ok(expects(parser.check(alloc, "a"), tokens))
}

fn wide_choice(alloc: Global, tokens: usize) -> Result<bool, AllocError> {
    let mut leaves = Vec::new(alloc);
    for token in characters(alloc, tokens)? {
        leaves.push(just::<_, &str, RichText>(token))?;
    }
    Ok(expects(choice(leaves).check(alloc, "a"), tokens))
}

/// Whether a text has this output and no error.
fn gives(parsed: Result<ParseResult<usize, EmptyErr>, Stop>, wanted: usize) -> bool {
    match parsed {
        Ok(parsed) => !parsed.has_errors() && parsed.output() == Some(&wanted),
        Err(_) => false,
    }
}

fn deep_prefixes(alloc: Global, operators: usize) -> Result<bool, AllocError> {
    let minuses = "-".repeat(alloc, operators)?;
    let text = format!(in alloc; "{minuses}1")?;
    let minus = prefix(1, just('-'), |_: char, count: usize| count.wrapping_add(1));
    let number = just::<_, &str, EmptyText>('1').to(0usize);
    let parsed = number.pratt((minus,)).parse(alloc, text.as_str());
    Ok(gives(parsed, operators))
}

fn deep_powers(alloc: Global, operators: usize) -> Result<bool, AllocError> {
    let powers = "1^".repeat(alloc, operators)?;
    let text = format!(in alloc; "{powers}1")?;
    let power = infix(right(1), just('^'), |_: usize, _: char, count: usize| count.wrapping_add(1));
    let number = just::<_, &str, EmptyText>('1').to(0usize);
    let parsed = number.pratt((power,)).parse(alloc, text.as_str());
    Ok(gives(parsed, operators))
}

fn wrong_statements(alloc: Global, statements: usize) -> Result<bool, AllocError> {
    let text = "let x 1;\n".repeat(alloc, statements)?;
    let Ok(parsed) = parse_statements(alloc, text.as_str()) else {
        return Ok(false);
    };
    let empty = parsed.output().is_some_and(|read| read.is_empty());
    Ok(empty && parsed.errors().count() == statements)
}
