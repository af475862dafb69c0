//! What closures and programs answer: closures that are lent the input, and what `guide`, `callers` and `examples` hold.

#[cfg(test)]
mod builders;
#[cfg(test)]
mod callers;
#[cfg(test)]
mod calls;
#[cfg(test)]
mod chk;
#[cfg(test)]
mod custom;
#[cfg(test)]
mod from_examples;
#[cfg(test)]
mod from_guide;
#[cfg(test)]
mod grammars;
#[cfg(test)]
mod guide_tokens;
#[cfg(test)]
mod ini;
#[cfg(test)]
mod input_ref;
#[cfg(test)]
mod json;
#[cfg(test)]
mod logs;
#[cfg(test)]
mod odd;
