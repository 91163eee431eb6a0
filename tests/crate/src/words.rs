//! Tests of sets and JudyL arrays: trees across each change of kind, and several arrays in one
//! arena, compared call by call with the plain store of judy_reference.

mod arrays;
mod asked;
mod held;
mod hostile;
mod queries;
mod region;
mod tests;
mod trees;
mod two_sets;
