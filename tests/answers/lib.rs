//! What a parser answers of an input, as one line of text, and asserts of it; and extras of one's own. The tests of parsers
//! stand on it.

pub mod answer;
pub mod asserts;
pub mod extras;
pub mod leaves;
pub mod says;
