//! Many connections in memory, whose turns come in a scripted order.

mod barred;
mod clocks;
mod faults;
mod journals;
mod kicks;
mod limited;
mod questions;
mod reloads;
mod rounds;
mod shares;
mod stage;
mod talks;
mod theatre;
