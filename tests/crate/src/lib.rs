//! The tests that only run. Nothing of them is proved: `tests/run_crate` compiles them with the
//! checks of `rt try`, and runs each. A module has the tests of some crates.

#[cfg(test)]
mod calls;
#[cfg(test)]
mod checks;
#[cfg(test)]
mod journal;
#[cfg(test)]
mod leaves;
#[cfg(test)]
mod lines;
#[cfg(test)]
mod many;
#[cfg(test)]
mod programs;
#[cfg(test)]
mod refusals;
#[cfg(test)]
mod streams;
#[cfg(test)]
mod strings;
#[cfg(test)]
mod tenants;
#[cfg(test)]
mod words;
