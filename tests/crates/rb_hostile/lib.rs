//! Tests of hostile use: calls that are cut short, records without an end, forged replies, clocks that go back, replies
//! that break off, and memory that is refused. They stand apart, so that no library is proved a second time for them.

#[cfg(test)]
mod clocks;
#[cfg(test)]
mod cores;
#[cfg(test)]
mod endless;
#[cfg(test)]
mod forged;
#[cfg(test)]
mod memory;
#[cfg(test)]
mod replies;
#[cfg(test)]
mod truncated;
#[cfg(test)]
mod writes;
