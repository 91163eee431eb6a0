//! Tests of JudySL arrays, of byte keys and of words: rows by hand, and several arrays in one
//! arena, compared call by call with the plain store.

mod arrays;
mod bytes;
mod held;
mod packing;
mod strings;
mod walk;
