//! What parsers stand on: results, values, rules as data and whether they are well-founded, reports of errors; how often values
//! are cloned or made, and that what is let go is dropped; that nothing is refused for no reason; which parsers move.

#[cfg(test)]
mod clones;
#[cfg(test)]
mod closing;
#[cfg(test)]
mod copies;
#[cfg(test)]
mod counted;
#[cfg(test)]
mod debug;
#[cfg(test)]
mod founded;
#[cfg(test)]
mod judged;
#[cfg(test)]
mod leaf_kinds;
#[cfg(test)]
mod moves;
#[cfg(test)]
mod node_values;
#[cfg(test)]
mod refusals;
#[cfg(test)]
mod report;
#[cfg(test)]
mod results;
#[cfg(test)]
mod rules;
#[cfg(test)]
mod values;
