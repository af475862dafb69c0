//! What parsers answer that depend on a context, a state of their own or another input, and what slices and spans they give.

#[cfg(test)]
mod configured;
#[cfg(test)]
mod contexts;
#[cfg(test)]
mod covered;
#[cfg(test)]
mod grammars;
#[cfg(test)]
mod mapped;
#[cfg(test)]
mod nested;
#[cfg(test)]
mod spanned_tokens;
#[cfg(test)]
mod states;
