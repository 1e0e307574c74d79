//! Calls and replies as they are on the wire, as words of four bytes (RFC 5531 section 9, RFC 1833 sections 3.1,
//! 3.2).
use std::alloc::{AllocError, Global};

/// The header of a last fragment of 40 bytes: a call without arguments.
pub(crate) const MARK_40: u32 = 0x8000_0028;

/// The header of a last fragment of 24 bytes: a reply without results.
pub(crate) const MARK_24: u32 = 0x8000_0018;

pub(crate) fn bytes_of(alloc: Global, words: &[u32]) -> Result<Vec<u8>, AllocError> {
    let mut bytes = Vec::new(alloc);
    for word in words {
        bytes.extend_from_slice(&word.to_be_bytes())?;
    }
    Ok(bytes)
}

/// The words of a call of the procedure 0 of version 2, with no credential.
pub(crate) fn null_call(xid: u32) -> [u32; 10] {
    [xid, 0, 2, 100_000, 2, 0, 0, 0, 0, 0]
}

/// The words of a reply that succeeded, without results.
pub(crate) fn null_reply(xid: u32) -> [u32; 6] {
    [xid, 1, 0, 0, 0, 0]
}

pub(crate) fn null_record(alloc: Global, xid: u32) -> Result<Vec<u8>, AllocError> {
    let mut words = Vec::new(alloc);
    words.push(MARK_40)?;
    words.extend_from_slice(&null_call(xid))?;
    bytes_of(alloc, &words)
}

pub(crate) fn null_reply_record(alloc: Global, xid: u32) -> Result<Vec<u8>, AllocError> {
    let mut words = Vec::new(alloc);
    words.push(MARK_24)?;
    words.extend_from_slice(&null_reply(xid))?;
    bytes_of(alloc, &words)
}
