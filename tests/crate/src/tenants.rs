//! Tests of the service of many tenants: a walk of mixed calls, compared with the plain store of
//! each tenant, and worked rows. Tables, directories and the arrays of each kind are tested by hand.

mod changes;
mod dice;
mod directories;
mod freezes;
mod house;
mod kinds;
mod lines;
mod orders;
mod replays;
mod rows;
mod spelled;
mod tables;
mod walk;
