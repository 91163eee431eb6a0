//! Tests of judy_stream: its sources and sinks over readers and writers, and in memory.

mod handles;
mod memory;
