//! Tests of the daemon by turns: daemon and client are in one process, and talk over port 20111 of 127.0.0.1. They
//! stand apart from the daemon, so that it is not proved a second time for them.

#[cfg(test)]
mod client;
#[cfg(test)]
mod datagrams;
#[cfg(test)]
mod deadlines;
#[cfg(test)]
mod door;
#[cfg(test)]
mod faults;
#[cfg(test)]
mod forwards;
#[cfg(test)]
mod keeping;
#[cfg(test)]
mod leaving;
#[cfg(test)]
mod listeners;
#[cfg(test)]
mod lists;
#[cfg(test)]
mod messages;
#[cfg(test)]
mod pauses;
#[cfg(test)]
mod readers;
#[cfg(test)]
mod records;
#[cfg(test)]
mod refused;
#[cfg(test)]
mod tables;
#[cfg(test)]
mod trust;
#[cfg(test)]
mod turns;
#[cfg(test)]
mod users;
