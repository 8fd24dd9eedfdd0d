//! What the tests and the benchmarks share: a second implementation of the team's own, written from documents 01 and 02 alone,
//! random lists, damage to them, and pictures.

pub mod arpa;
pub mod arrays;
pub mod damage;
pub mod drawing;
pub mod guard;
pub mod lists;
pub mod random;
pub mod reference;
pub mod states;
