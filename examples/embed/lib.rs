//! A driver of the core without sockets of its own, and a script that runs it.

mod driver;
#[cfg(test)]
mod script;

pub use driver::{Input, Outside, drive};
