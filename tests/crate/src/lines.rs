//! Tests of lines and connections: requests and replies, and scripts that are served for two
//! tenants. Their arrays are the plain store of judy_reference.

mod asks;
mod grammar;
mod house;
mod names;
mod owned;
mod replies;
mod requests;
mod store;
mod strict;
mod tests;
