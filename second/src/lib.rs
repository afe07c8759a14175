//! A plain second implementation of the stack-inspection analysis, for comparison.

pub mod build;
pub mod compare;
pub mod fixed;
pub mod fresh;
pub mod graph;
pub mod machine;
pub mod named;
pub mod requests;
pub mod rows;
pub mod sets;
pub mod shapes;
pub mod solve;
pub mod tally;
pub mod text;

#[cfg(test)]
mod tests;
