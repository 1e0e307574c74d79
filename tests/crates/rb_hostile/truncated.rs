//! Calls that are cut short, as datagrams and as records. By the places of the fields: a call that ends within its head is no
//! call, one that ends within its arguments is GARBAGE_ARGS.

use crate::cores::{bytes_of, core_of, loopback};
use rb_core::{CoreFault, Metered, Response};
use std::alloc::{AllocError, Global};
use std::test::Fail;

/// Procedures, by version and number, that take the same arguments.
struct Procedures {
    numbers: &'static [(u32, u32)],
    arguments: &'static [u32],
}

/// Those that take none, and two that are not there.
const VOID: Procedures = Procedures {
    numbers: &[(2, 0), (2, 4), (3, 4), (3, 6), (4, 12), (5, 0), (2, 6)],
    arguments: &[],
};

/// SET, UNSET and GETPORT of version 2.
const OF_A_MAPPING: Procedures = Procedures {
    numbers: &[(2, 1), (2, 2), (2, 3)],
    arguments: &[200_001, 1, 6, 2049],
};

/// SET of version 4, on tcp at 0.0.0.0.8.1.
const SET: Procedures = Procedures {
    numbers: &[(4, 1)],
    arguments: &[
        200_001, 1, 3, 0x74637000, 11, 0x302e302e, 0x302e302e, 0x382e3100, 0,
    ],
};

/// UNSET and GETADDRLIST of version 4, with empty texts.
const OF_EMPTY_TEXTS: Procedures = Procedures {
    numbers: &[(4, 2), (4, 11)],
    arguments: &[200_001, 1, 0, 0, 0],
};

/// GETADDR of versions 3 and 4, and GETVERSADDR.
const OF_A_NETID: Procedures = Procedures {
    numbers: &[(3, 3), (4, 3), (4, 9)],
    arguments: &[200_001, 1, 3, 0x74637000, 0, 0],
};

/// CALLIT of versions 2 and 3, BCAST and INDIRECT.
const OF_A_REMOTE_CALL: Procedures = Procedures {
    numbers: &[(2, 5), (3, 5), (4, 5), (4, 10)],
    arguments: &[200_001, 1, 0, 0],
};

/// UADDR2TADDR of 127.0.0.1.0.111.
const UADDR2TADDR: Procedures = Procedures {
    numbers: &[(3, 7)],
    arguments: &[15, 0x3132372e, 0x302e302e, 0x312e302e, 0x31313100],
};

/// UADDR2TADDR of 01.2.3.4.5.6, which is no address.
const OTHER_UADDR2TADDR: Procedures = Procedures {
    numbers: &[(3, 7)],
    arguments: &[12, 0x30312e32, 0x2e332e34, 0x2e352e36],
};

/// TADDR2UADDR of the first one's transport form.
const TADDR2UADDR: Procedures = Procedures {
    numbers: &[(3, 8)],
    arguments: &[16, 16, 0x0200006f, 0x7f000001, 0, 0],
};

/// The head of a call by AUTH_NONE, of 40 bytes.
fn head_by_nobody(vers: u32, proc: u32) -> [u32; 10] {
    [3, 0, 2, 100_000, vers, proc, 0, 0, 0, 0]
}

/// The head of a call by AUTH_SYS, of 60 bytes.
fn head_by_uid(vers: u32, proc: u32, uid: u32) -> [u32; 15] {
    [3, 0, 2, 100_000, vers, proc, 1, 20, 0, 0, uid, 0, 0, 0, 0]
}

/// The record of the reply to xid 3 that its arguments can't be read.
const GARBAGE: [u32; 7] = [0x80000018, 3, 1, 0, 0, 0, 4];

/// The header of a last fragment of this length.
fn header_of(data: &[u8]) -> [u8; 4] {
    (1 << 31 | u32::try_from(data.len()).unwrap_or(0)).to_be_bytes()
}

/// The datagram gets this reply, or is no call if that is empty.
fn datagram_is_told(core: &mut Metered, data: &[u8], reply: &[u8]) -> bool {
    let outcome = core.datagram(0, loopback(), data);
    if reply.is_empty() {
        outcome == Response::NoCall
    } else {
        outcome == Response::Reply && core.udp_reply() == reply
    }
}

/// The record closes its connection.
fn record_closes(core: &mut Metered, id: u64, data: &[u8]) -> Result<bool, CoreFault> {
    let (header, _) = core.bytes(0, id, &header_of(data))?;
    if header.lost {
        return Ok(true);
    }
    let (record, _) = core.bytes(0, id, data)?;
    Ok(record.lost)
}

/// The record gets this one for its reply, or closes its connection if that is empty.
fn record_is_told(core: &mut Metered, data: &[u8], reply: &[u8]) -> Result<bool, CoreFault> {
    let id = core.open(0, loopback())?;
    let closes = record_closes(core, id, data)?;
    let is_told = if closes {
        reply.is_empty()
    } else {
        core.pending(id)? == reply
    };
    core.closed(id)?;
    Ok(is_told)
}

/// Each front of the call is no call if it is shorter than the head, and otherwise gets this record for its reply, or
/// as a datagram what follows the record's header.
fn fronts_are_told(
    core: &mut Metered,
    call: &[u8],
    head: usize,
    reply: &[u8],
) -> Result<bool, CoreFault> {
    for len in 0..call.len() {
        let front = &call[..len];
        let told: &[u8] = if len < head { &[] } else { reply };
        let unmarked = told.get(4..).unwrap_or(&[]);
        if !datagram_is_told(core, front, unmarked) || !record_is_told(core, front, told)? {
            return Ok(false);
        }
    }
    Ok(true)
}

/// The bytes of a call with a head of these words.
fn call_of(alloc: Global, head: &[u32], arguments: &[u32]) -> Result<Vec<u8>, AllocError> {
    let mut call = bytes_of(alloc, head)?;
    call.extend_from_slice(&bytes_of(alloc, arguments)?)?;
    Ok(call)
}

/// Each of the procedures, called by AUTH_NONE.
fn calls_by_nobody(
    alloc: Global,
    core: &mut Metered,
    procedures: &Procedures,
) -> Result<bool, Fail> {
    let reply = bytes_of(alloc, &GARBAGE)?;
    for numbers in procedures.numbers {
        let (vers, proc) = *numbers;
        let call = call_of(alloc, &head_by_nobody(vers, proc), procedures.arguments)?;
        if !fronts_are_told(core, &call, 40, &reply)? {
            return Ok(false);
        }
    }
    Ok(true)
}

#[test]
fn truncated_calls(rt: HostRuntime) -> Result<(), Fail> {
    let mut core = core_of(rt.alloc(), 300)?;
    assert!(rt; calls_by_nobody(rt.alloc(), &mut core, &VOID)?);
    assert!(rt; calls_by_nobody(rt.alloc(), &mut core, &OF_A_MAPPING)?);
    assert!(rt; calls_by_nobody(rt.alloc(), &mut core, &SET)?);
    assert!(rt; calls_by_nobody(rt.alloc(), &mut core, &OF_EMPTY_TEXTS)?);
    assert!(rt; calls_by_nobody(rt.alloc(), &mut core, &OF_A_NETID)?);
    assert!(rt; calls_by_nobody(rt.alloc(), &mut core, &OF_A_REMOTE_CALL)?);
    assert!(rt; calls_by_nobody(rt.alloc(), &mut core, &UADDR2TADDR)?);
    assert!(rt; calls_by_nobody(rt.alloc(), &mut core, &OTHER_UADDR2TADDR)?);
    assert!(rt; calls_by_nobody(rt.alloc(), &mut core, &TADDR2UADDR)?);
    Ok(())
}

/// Each of the procedures, called by AUTH_SYS.
fn calls_by_uid(alloc: Global, core: &mut Metered, procedures: &Procedures) -> Result<bool, Fail> {
    let reply = bytes_of(alloc, &GARBAGE)?;
    for numbers in procedures.numbers {
        let (vers, proc) = *numbers;
        let call = call_of(alloc, &head_by_uid(vers, proc, 500), procedures.arguments)?;
        if !fronts_are_told(core, &call, 60, &reply)? {
            return Ok(false);
        }
    }
    Ok(true)
}

#[test]
fn truncated_calls_by_uid(rt: HostRuntime) -> Result<(), Fail> {
    let mut core = core_of(rt.alloc(), 300)?;
    assert!(rt; calls_by_uid(rt.alloc(), &mut core, &VOID)?);
    assert!(rt; calls_by_uid(rt.alloc(), &mut core, &OF_A_MAPPING)?);
    assert!(rt; calls_by_uid(rt.alloc(), &mut core, &SET)?);
    assert!(rt; calls_by_uid(rt.alloc(), &mut core, &OF_EMPTY_TEXTS)?);
    Ok(())
}

/// Of another RPC version, of another program, and of a flavor that is refused: each is no call before it ends.
#[test]
fn truncated_calls_of_others(rt: HostRuntime) -> Result<(), Fail> {
    let other_version = bytes_of(rt.alloc(), &[5, 0, 3])?;
    let other_program = bytes_of(rt.alloc(), &[25, 0, 2, 200_001, 2, 1, 0, 0, 0, 0])?;
    let other_flavor = bytes_of(rt.alloc(), &[10, 0, 2, 200_009, 2, 1, 6, 0, 0, 0])?;
    let mut core = core_of(rt.alloc(), 300)?;
    assert_eq!(rt;
        fronts_are_told(&mut core, &other_version, 12, &[]),
        Ok(true)
    );
    assert_eq!(rt;
        fronts_are_told(&mut core, &other_program, 40, &[]),
        Ok(true)
    );
    assert_eq!(rt;
        fronts_are_told(&mut core, &other_flavor, 40, &[]),
        Ok(true)
    );
    Ok(())
}

/// A NULL call whose credential says that it has this many bytes of body, with 400 of them and the verifier.
fn call_of_credential(alloc: Global, len: u32) -> Result<Vec<u8>, AllocError> {
    let mut call = bytes_of(alloc, &[9, 0, 2, 100_000, 2, 0, 0, len])?;
    call.extend_from_slice(&[7; 400])?;
    call.extend_from_slice(&[0; 8])?;
    Ok(call)
}

/// A credential of 400 bytes ends at 432, and its verifier at 440. One of 401 is AUTH_BADCRED from its length on.
#[test]
fn truncated_calls_of_long_credentials(rt: HostRuntime) -> Result<(), Fail> {
    let longest = call_of_credential(rt.alloc(), 400)?;
    let longer = call_of_credential(rt.alloc(), 401)?;
    let refusal = bytes_of(rt.alloc(), &[0x80000014, 9, 1, 1, 1, 1])?;
    let mut core = core_of(rt.alloc(), 300)?;
    assert_eq!(rt; fronts_are_told(&mut core, &longest, 440, &[]), Ok(true));
    assert_eq!(rt; fronts_are_told(&mut core, &longer, 32, &refusal), Ok(true));
    Ok(())
}

/// A CALLIT whose arguments say that they have this many bytes, with 8,801 of them and three zeros.
fn callit_of(alloc: Global, len: u32) -> Result<Vec<u8>, AllocError> {
    let mut call = call_of(alloc, &head_by_nobody(2, 5), &[200_001, 1, 0, len])?;
    call.extend_from_slice(&[7; 8801])?;
    call.extend_from_slice(&[0; 3])?;
    Ok(call)
}

/// Arguments of 8,800 bytes are whole with the last of them, and those of 8,801 are too many.
#[test]
fn truncated_calls_of_greatest_arguments(rt: HostRuntime) -> Result<(), Fail> {
    let reply = bytes_of(rt.alloc(), &GARBAGE)?;
    let greatest = callit_of(rt.alloc(), 8800)?;
    let whole = greatest.get(..8856).ok_or("short")?;
    let greater = callit_of(rt.alloc(), 8801)?;
    let mut core = core_of(rt.alloc(), 300)?;
    assert_eq!(rt; fronts_are_told(&mut core, whole, 40, &reply), Ok(true));
    assert_eq!(rt; fronts_are_told(&mut core, &greater, 40, &reply), Ok(true));
    Ok(())
}
