//! Tests of the public calls of the libraries, apart from them, so that no library is proved a second time for its tests.

#[cfg(test)]
mod address;
#[cfg(test)]
mod arguments;
#[cfg(test)]
mod check;
#[cfg(test)]
mod events;
#[cfg(test)]
mod evidence;
#[cfg(test)]
mod feed;
#[cfg(test)]
mod files;
#[cfg(test)]
mod forward;
#[cfg(test)]
mod keep;
#[cfg(test)]
mod lines;
#[cfg(test)]
mod log;
#[cfg(test)]
mod policy;
#[cfg(test)]
mod proto;
#[cfg(test)]
mod registry;
#[cfg(test)]
mod rpc;
#[cfg(test)]
mod stats;
#[cfg(test)]
mod uaddr;
#[cfg(test)]
mod xdr;
