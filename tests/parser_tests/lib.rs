//! What parsers and their combinators answer, lists and closures apart, on texts and slices whose answers are known from
//! outside.

#[cfg(test)]
mod by_reference;
#[cfg(test)]
mod choices;
#[cfg(test)]
mod errors;
#[cfg(test)]
mod first;
#[cfg(test)]
mod groups;
#[cfg(test)]
mod judges;
#[cfg(test)]
mod judging;
#[cfg(test)]
mod map_with;
#[cfg(test)]
mod members;
#[cfg(test)]
mod rounds;
#[cfg(test)]
mod select;
#[cfg(test)]
mod sequences;
#[cfg(test)]
mod sets;
#[cfg(test)]
mod sets_of_tokens;
#[cfg(test)]
mod slices;
