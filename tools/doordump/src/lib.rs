//! Images and refusals in words, for the tools that print them.
pub mod dump;
pub mod line;
pub mod refusals;
pub mod statement;
pub mod text;
