//! The independent second program: documents 01 and 02 once more, in the plainest way that can be read beside the paper.

pub mod compare;
pub mod corpus;
pub mod definitions;
pub mod fault;
pub mod generator;
pub mod lexer;
pub mod limits;
#[cfg(feature = "linked")]
pub mod linked;
pub mod lookup;
pub mod meaning;
pub mod parser;
pub mod pieces;
pub mod policy;
pub mod questions;
pub mod random;
pub mod resolve;
pub mod roll;
pub mod sound;
pub mod statistics;
pub mod table;
