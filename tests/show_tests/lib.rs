//! What the programs `show`, `calc`, `format_json`, `format_lisp` and `format_program` print, word for word, and their statuses.

#[cfg(test)]
mod ini;
#[cfg(test)]
mod log;
#[cfg(test)]
mod programs;
#[cfg(test)]
mod shown;
