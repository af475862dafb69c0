//! What recovering parsers answer.
mod blocks;
mod brainfuck;
mod grammars;
mod json;
mod labels;
mod moves;
mod nested;
mod statements;
mod strategies;
mod wide;
