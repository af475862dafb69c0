//! What lists, what is made of their items, and nodes of grammars answer on texts whose answers are known from outside.

#[cfg(test)]
mod collecting;
#[cfg(test)]
mod containers;
#[cfg(test)]
mod edges;
#[cfg(test)]
mod flattened;
#[cfg(test)]
mod folds;
#[cfg(test)]
mod folds_with;
#[cfg(test)]
mod mapped;
#[cfg(test)]
mod list_nodes;
#[cfg(test)]
mod nodes;
#[cfg(test)]
mod parse_iter;
#[cfg(test)]
mod repeated;
#[cfg(test)]
mod separated_by;
