//! Languages of real size, run on texts: sums with their overflows, JSON, which is held against the toolchain's `serde_json`,
//! formulas, and s-expressions. A second language of s-expressions has its grammar here, and isn't proved.

#[cfg(test)]
mod arithmetic_answers;
#[cfg(test)]
mod csv_printed;
#[cfg(test)]
mod exact_answers;
#[cfg(test)]
mod exact_csv;
mod exact_json;
#[cfg(test)]
mod exact_expressions;
#[cfg(test)]
mod exact_numbers;
#[cfg(test)]
mod exact_strings;
#[cfg(test)]
mod exact_sums;
#[cfg(test)]
mod exact_timestamps;
#[cfg(test)]
mod exact_versions;
#[cfg(test)]
mod expressions;
#[cfg(test)]
mod formulas;
#[cfg(test)]
mod json_answers;
#[cfg(test)]
mod json_oracle;
#[cfg(test)]
mod json_printed;
#[cfg(test)]
mod printed;
#[cfg(test)]
mod rules_answers;
#[cfg(test)]
mod s_expression;
#[cfg(test)]
mod s_expression_answers;
