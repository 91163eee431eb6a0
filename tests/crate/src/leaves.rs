//! Tests of leaves, branches, sets of bytes and the arena: every count of keys and children up and
//! down. Each call is compared with a slow query or a plain table.

mod blocks;
mod branches;
mod byte_sets;
mod held;
mod kinds;
mod references;
mod walk;
mod wanted;
