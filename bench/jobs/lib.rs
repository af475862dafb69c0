//! Jobs whose speed is measured from outside: each takes bytes, runs one parser over them, and folds what comes out to a
//! number. `bench/` has the same jobs by hand, and `scripts/bench` runs both.
#![tactic(auto)]

#[cfg(test)]
mod answers;
mod dates;
mod descent;
mod descent_rich;
mod descent_trees;
mod grammars;
mod headers;
mod lists;
mod messages;
mod run;
mod settings;
mod sums;
mod texts;
mod trees;
mod words;
