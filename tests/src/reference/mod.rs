//! The second implementation. It shares no code with the calls under test, but each function has the shape of its call.

pub mod arpa;
pub mod array;
pub mod batch;
pub mod build;
pub mod filling;
pub mod fragments;
pub mod largest_move;
pub mod list;
pub mod rule;
pub mod score;
pub mod sentences;
pub mod totals;
pub mod unload;
