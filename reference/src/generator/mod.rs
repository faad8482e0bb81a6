//! Seeded cases: policies, damaged texts, both sides of each maximum, tables, questions and tries at names; and those listed
//! by hand.

pub mod asked;
pub mod blocks;
pub mod cases;
pub mod damage;
pub mod layout;
pub mod maxima;
pub mod policies;
pub mod questions;
pub mod relabels;
pub mod scans;
pub mod tables;
pub mod tries;
