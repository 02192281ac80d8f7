//! The second program: document 01, and the requests of document 02 that have landed, once
//! more, in plain Rust, from their words alone; known lean and firm footing, which no document
//! asks for, from the header's. It shares no code and no table with the library, takes wide
//! numbers and does no more than the pages say, so that a difference between the two is worth a
//! look. Beside it are its own checks, and seeded chance for them and for the programs over it.

pub mod bounds;
pub mod chance;
pub mod checks;
pub mod display;
pub mod firm;
pub mod lean;
pub mod listed;
pub mod p4;
pub mod parts;
pub mod pick;
pub mod point;
pub mod ready;
pub mod session;
pub mod solid;
pub mod touch;
pub mod walk;
