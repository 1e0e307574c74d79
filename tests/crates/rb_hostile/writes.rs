//! What is given on connections, however it is written: as a script gives it, with writes of no byte between, and in single
//! bytes.

use crate::cores::{bytes_of, core_of, loopback, set_call};
use rb_core::{Metered, NoMemory};
use rb_lines::{ReadFault, read_events};
use rb_replay::{Event, Output, replay};
use std::alloc::{AllocError, Global};
use std::test::Fail;

/// How what is pending is written.
#[derive(Clone, Copy, Debug, PartialEq, Eq)]
enum Way {
    /// As many bytes at a time as the script says, and then all that are pending.
    AsItIs,
    /// The same, and after each event no byte on each connection.
    WithEmptyWrites,
    /// Each of those bytes by itself.
    InSingleBytes,
}

/// The numbers of connections that scripts have.
const CONNECTIONS: [u64; 2] = [1, 2];

/// More than the fragments of a script's replies.
const FRAGMENTS: u32 = 20;

/// Gives this many bytes at once, of what is pending on the connection, and joins them to those before.
fn write_at_once(
    core: &mut Metered,
    id: u64,
    count: usize,
    joined: &mut Vec<u8>,
) -> Result<(), AllocError> {
    let given = match core.pending(id) {
        Ok(pending) => {
            let front = &pending[..pending.len().min(count)];
            joined.extend_from_slice(front)?;
            front.len()
        }
        Err(_) => return Ok(()),
    };
    let _ = core.gave(0, id, given);
    Ok(())
}

/// Gives this many bytes, at once or one by one.
fn give(
    core: &mut Metered,
    id: u64,
    count: usize,
    way: Way,
    joined: &mut Vec<u8>,
) -> Result<(), AllocError> {
    if way != Way::InSingleBytes {
        return write_at_once(core, id, count, joined);
    }
    for _i in 0..count {
        write_at_once(core, id, 1, joined)?;
    }
    Ok(())
}

/// Gives all that the connection owes, fragment by fragment.
fn give_all(core: &mut Metered, id: u64, way: Way, joined: &mut Vec<u8>) -> Result<(), AllocError> {
    for _i in 0..FRAGMENTS {
        let count = core.pending(id).map_or(0, |pending| pending.len());
        give(core, id, count, way, joined)?;
    }
    Ok(())
}

/// Lets one event happen. What is given is joined.
fn happen(
    alloc: Global,
    core: &mut Metered,
    event: &[Event],
    way: Way,
    joined: &mut Vec<u8>,
) -> Result<(), Fail> {
    if let [Event::Gave(_, id, count)] = event {
        give(core, *id, usize::try_from(*count)?, way, joined)?;
    } else {
        replay(alloc, core, event, &mut Vec::new(alloc))?;
    }
    if way == Way::WithEmptyWrites {
        write_at_once(core, 1, 0, joined)?;
        write_at_once(core, 2, 0, joined)?;
    }
    Ok(())
}

/// All that the events give, and then all that the connections owe.
fn given(alloc: Global, core: &mut Metered, events: &[Event], way: Way) -> Result<Vec<u8>, Fail> {
    let mut joined = Vec::new(alloc);
    for event in events.chunks(1) {
        happen(alloc, core, event, way, &mut joined)?;
    }
    give_all(core, 1, way, &mut joined)?;
    give_all(core, 2, way, &mut joined)?;
    Ok(joined)
}

/// A new core with this limit of rows gives these bytes, in each of the three ways.
fn is_given(alloc: Global, rows: usize, events: &[Event], wanted: &[u8]) -> Result<bool, Fail> {
    for way in [Way::AsItIs, Way::WithEmptyWrites, Way::InSingleBytes] {
        let mut core = core_of(alloc, rows)?;
        let given = given(alloc, &mut core, events, way)?;
        if given.as_slice() != wanted {
            return Ok(false);
        }
    }
    Ok(true)
}

/// The record of a NULL call of version 2.
fn null_record(xid: u32) -> [u32; 11] {
    [0x80000028, xid, 0, 2, 100_000, 2, 0, 0, 0, 0, 0]
}

/// After an opening, the bytes of the first connection.
fn arrival(alloc: Global, bytes: Vec<u8>) -> Result<Vec<Event>, AllocError> {
    let mut events = Vec::new(alloc);
    events.push(Event::Open(0, loopback()))?;
    events.push(Event::Bytes(0, 1, bytes))?;
    Ok(events)
}

/// Each byte of the call in a fragment of its own, an empty fragment after each, and an empty last one.
#[test]
fn writes_in_three_ways_of_fragments(rt: HostRuntime) -> Result<(), Fail> {
    let alloc = rt.alloc();
    let call = bytes_of(alloc, &null_record(1)[1..])?;
    let mut record = Vec::new(alloc);
    for byte in &call {
        record.extend_from_slice(&[0, 0, 0, 1, *byte, 0, 0, 0, 0])?;
    }
    record.truncate(356);
    record.extend_from_slice(&[0x80, 0, 0, 0])?;
    let reply = bytes_of(alloc, &[0x80000018, 1, 1, 0, 0, 0, 0])?;
    assert!(rt; is_given(alloc, 300, &arrival(alloc, record)?, &reply)?);
    Ok(())
}

/// Two calls: the second is taken once the first has its reply.
#[test]
fn writes_in_three_ways_of_two_calls(rt: HostRuntime) -> Result<(), Fail> {
    let alloc = rt.alloc();
    let mut both = bytes_of(alloc, &null_record(1))?;
    both.extend_from_slice(&bytes_of(alloc, &null_record(2))?)?;
    let mut events = arrival(alloc, both)?;
    events.push(Event::Gave(0, 1, 28))?;
    events.push(Event::Bytes(0, 1, bytes_of(alloc, &null_record(2))?))?;
    let replies = bytes_of(
        alloc,
        &[0x80000018, 1, 1, 0, 0, 0, 0, 0x80000018, 2, 1, 0, 0, 0, 0],
    )?;
    assert!(rt; is_given(alloc, 300, &events, &replies)?);
    Ok(())
}

/// The record of a DUMP of this version.
fn dump_record(xid: u32, vers: u32) -> [u32; 11] {
    [0x80000028, xid, 0, 2, 100_000, vers, 4, 0, 0, 0, 0]
}

/// An UNSET of version 2 by nobody: the program, version 1.
fn unset_call(xid: u32, prog: u32) -> [u32; 14] {
    [xid, 0, 2, 100_000, 2, 2, 0, 0, 0, 0, prog, 1, 0, 0]
}

fn push_call(events: &mut Vec<Event>, alloc: Global, call: &[u32]) -> Result<(), AllocError> {
    events.push(Event::Datagram(0, loopback(), bytes_of(alloc, call)?))?;
    Ok(())
}

/// Connection 1 asks for a list, and after the UNSET of a row connection 2. The SET of another closes the first.
fn evicting(alloc: Global) -> Result<Vec<Event>, AllocError> {
    let mut events = Vec::new(alloc);
    push_call(&mut events, alloc, &set_call(1, 200_001, 6))?;
    push_call(&mut events, alloc, &set_call(2, 200_002, 6))?;
    events.push(Event::Open(0, loopback()))?;
    events.push(Event::Open(0, loopback()))?;
    events.push(Event::Bytes(0, 1, bytes_of(alloc, &dump_record(3, 2))?))?;
    push_call(&mut events, alloc, &unset_call(4, 200_001))?;
    events.push(Event::Bytes(0, 2, bytes_of(alloc, &dump_record(5, 2))?))?;
    push_call(&mut events, alloc, &set_call(6, 200_003, 6))?;
    push_call(&mut events, alloc, &unset_call(7, 200_002))?;
    events.push(Event::Closed(1))?;
    Ok(events)
}

/// The list of connection 2: the own rows, and the row that is removed after its call.
const KEPT_LIST: [u32; 43] = [
    0x800000a8, 5, 1, 0, 0, 0, 0, 1, 100_000, 4, 6, 111, 1, 100_000, 3, 6, 111, 1, 100_000, 2, 6,
    111, 1, 100_000, 4, 17, 111, 1, 100_000, 3, 17, 111, 1, 100_000, 2, 17, 111, 1, 200_002, 1, 6,
    2049, 0,
];

#[test]
fn writes_in_three_ways_of_a_kept_list(rt: HostRuntime) -> Result<(), Fail> {
    let list = bytes_of(rt.alloc(), &KEPT_LIST)?;
    assert!(rt; is_given(rt.alloc(), 8, &evicting(rt.alloc())?, &list)?);
    Ok(())
}

/// How many rows are set for the long list: programs from 200001 on.
const ROWS: u32 = 167;

/// This many SETs by uid 0, and a DUMP of version 3 on connection 1.
fn long_dump(alloc: Global) -> Result<Vec<Event>, AllocError> {
    let mut events = Vec::new(alloc);
    for prog in 200_001..200_001 + ROWS {
        let set = [
            7, 0, 2, 100_000, 2, 1, 1, 20, 0, 0, 0, 0, 0, 0, 0, prog, 1, 6, 2049,
        ];
        push_call(&mut events, alloc, &set)?;
    }
    events.push(Event::Open(0, loopback()))?;
    events.push(Event::Bytes(0, 1, bytes_of(alloc, &dump_record(1, 3))?))?;
    Ok(events)
}

/// The item of a list of version 3: `tcp` and `udp` have four bytes with their residual one, the address 0.0.0.0.0.111 13
/// and the owner `superuser` 9.
fn own_row(vers: u32, netid: u32) -> [u32; 14] {
    [
        1, 100_000, vers, 3, netid, 13, 0x302e302e, 0x302e302e, 0x302e3131, 0x31000000, 9,
        0x73757065, 0x72757365, 0x72000000,
    ]
}

/// The data of the list, as its fields lie.
fn long_list(alloc: Global) -> Result<Vec<u8>, AllocError> {
    let mut list = bytes_of(alloc, &[1, 1, 0, 0, 0, 0])?;
    for netid in [0x74637000, 0x75647000] {
        for vers in [4, 3, 2] {
            list.extend_from_slice(&bytes_of(alloc, &own_row(vers, netid))?)?;
        }
    }
    for prog in 200_001..200_001 + ROWS {
        let row = [
            1, prog, 1, 3, 0x74637000, 11, 0x302e302e, 0x302e302e, 0x382e3100, 9, 0x73757065,
            0x72757365, 0x72000000,
        ];
        list.extend_from_slice(&bytes_of(alloc, &row)?)?;
    }
    list.extend_from_slice(&[0; 4])?;
    Ok(list)
}

/// Eight fragments of 1,024 bytes, and a last one of 856.
fn marked(alloc: Global, list: &[u8]) -> Result<Vec<u8>, AllocError> {
    let mut record = Vec::new(alloc);
    for (place, fragment) in list.chunks(1024).enumerate() {
        let header: u32 = if place < 8 { 1024 } else { 0x80000358 };
        record.extend_from_slice(&header.to_be_bytes())?;
        record.extend_from_slice(fragment)?;
    }
    Ok(record)
}

#[test]
fn writes_in_three_ways_of_a_long_list(rt: HostRuntime) -> Result<(), Fail> {
    let list = long_list(rt.alloc())?;
    assert_eq!(rt; list.len(), 9048);
    let record = marked(rt.alloc(), &list)?;
    assert!(rt; is_given(rt.alloc(), 300, &long_dump(rt.alloc())?, &record)?);
    Ok(())
}

/// An INDIRECT on connection 1 passes, and another ends with its connection: connection 2 gets nothing.
const PASSING: &[u8] =
    b"datagram 0 127.0.0.1:900 000000010000000000000002000186a000000002000000010000000000000000000000000000000000030d41000000010000001100000801
open 1000 127.0.0.1:900
bytes 1000 1 800000380000000f0000000000000002000186a0000000040000000a0000000000000000000000000000000000030d41000000010000000000000000
sent 1
forward 5999 127.0.0.1:2049 000003e80000000100000000000000000000000000000000
gave 6000 1 52
bytes 6000 1 800000380000000f0000000000000002000186a0000000040000000a0000000000000000000000000000000000030d41000000010000000000000000
sent 2
closed 1
open 6000 127.0.0.1:900
forward 6001 127.0.0.1:2049 000003e90000000100000000000000000000000000000000
";

#[test]
fn writes_in_three_ways_of_forwarded_calls(rt: HostRuntime) -> Result<(), Fail> {
    let passed = [
        0x80000030, 15, 1, 0, 0, 0, 0, 13, 0x3139322e, 0x302e322e, 0x312e382e, 0x31000000, 0,
    ];
    let reply = bytes_of(rt.alloc(), &passed)?;
    assert!(rt; is_given(rt.alloc(), 300, &read_events(rt.alloc(), PASSING)?, &reply)?);
    Ok(())
}
