//! Tests of insertions when memory runs out. Each insertion that takes blocks runs in an arena that
//! has only the first of them free.

mod branches;
mod byte_keys;
mod full;
mod grown;
mod leaves;
mod maps;
mod sets;
mod strings;
mod trees;
mod words;
