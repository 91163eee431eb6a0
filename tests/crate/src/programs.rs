//! Tests of both programs over memory, of the socket, and of command lines.

mod built;
mod command_lines;
mod hosted;
mod refused;
mod replays;
mod rows;
mod sockets;
mod tables;
