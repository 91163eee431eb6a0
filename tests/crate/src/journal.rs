//! Tests of a journal: its text, the names of its files, and what an operator reads of a fault.

mod commits;
mod directories;
mod faults;
mod notes;
mod rooms;
