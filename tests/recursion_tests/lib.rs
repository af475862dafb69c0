//! Functions that call themselves: what they answer, also beside the same grammars by rules, and how deep they go.

#[cfg(test)]
mod beside_rules;
#[cfg(test)]
mod calculator;
#[cfg(test)]
mod calls;
