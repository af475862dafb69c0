//! A front end in two stages.

#[cfg(test)]
mod programs;
