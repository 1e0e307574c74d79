//! Tests of asking: the calls of rb_show, and a daemon that is asked by turns. They stand apart, so that neither is proved
//! a second time for them.

#[cfg(test)]
mod asks;
#[cfg(test)]
mod client;
#[cfg(test)]
mod courses;
#[cfg(test)]
mod lists;
#[cfg(test)]
mod networks;
#[cfg(test)]
mod pings;
#[cfg(test)]
mod places;
#[cfg(test)]
mod turns;
#[cfg(test)]
mod words;
