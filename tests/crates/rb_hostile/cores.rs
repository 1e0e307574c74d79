//! What the tests begin with: a core, and bytes that are written as words.

use rb_address::{Host, Peer, Source, Trust, Who};
use rb_core::{CoreFault, Limits, Listener, Metered};
use rb_proto::{Announced, Reserved, Terms};
use std::alloc::{AllocError, Global};

/// Who calls: nothing is known but what it says.
pub(crate) fn loopback() -> Who {
    Who {
        source: Source::Inet(Peer::new(Host::V4([127, 0, 0, 1]), 900)),
        asked: Host::V4([0; 4]),
        trust: Trust::Claims,
    }
}

/// It listens on IPv4 alone.
pub(crate) fn listener() -> Listener {
    Listener {
        announced: Announced {
            inet: Some([192, 0, 2, 1]),
            inet6: None,
        },
        port: 111,
        local: None,
        terms: Terms::OPEN,
        reserved: Reserved::new(),
    }
}

/// Room for four connections and four forwarded calls, and for this many rows.
pub(crate) fn limits_of(rows: usize) -> Limits {
    Limits {
        conns: 4,
        rows,
        forwards: 4,
    }
}

/// Its first forwarded call has the xid 1000, and its first moment is 0.
pub(crate) fn core_of(alloc: Global, rows: usize) -> Result<Metered, CoreFault> {
    Metered::new(alloc, limits_of(rows), listener(), 1000, 0)
}

pub(crate) fn bytes_of(alloc: Global, words: &[u32]) -> Result<Vec<u8>, AllocError> {
    let mut bytes = Vec::new(alloc);
    for word in words {
        bytes.extend_from_slice(&word.to_be_bytes())?;
    }
    Ok(bytes)
}

/// A SET of version 2 by nobody: the program, version 1, of a protocol, at port 2049.
pub(crate) fn set_call(xid: u32, prog: u32, prot: u32) -> [u32; 14] {
    [xid, 0, 2, 100_000, 2, 1, 0, 0, 0, 0, prog, 1, prot, 2049]
}
