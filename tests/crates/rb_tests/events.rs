use crate::address::claims;
use crate::proto::listener;
use rb_address::Who;
use rb_core::{
    CoreFault, Exchanged, Expired, Limits, Metered, NoMemory, Response, Standing, Taken, Told,
};
use rb_replay::{Event, Output, replay};
use std::alloc::{AllocError, Global};
use std::process::Abort;
use std::test::Fail;

fn loopback() -> Who {
    claims([127, 0, 0, 1], 900)
}

const LIMITS: Limits = Limits {
    conns: 4,
    rows: 300,
    forwards: 4,
};

// A NULL call of version 2, of xid 1.
const NULL: [u32; 10] = [1, 0, 2, 100_000, 2, 0, 0, 0, 0, 0];

// The reply to that call.
const NULL_REPLY: &[u8] = b"\0\0\0\x01\0\0\0\x01\0\0\0\0\0\0\0\0\0\0\0\0\0\0\0\0";

// A whole record with that call.
const NULL_RECORD: [u32; 11] = [0x8000_0028, 1, 0, 2, 100_000, 2, 0, 0, 0, 0, 0];

// The first bytes of a record with that call and 100,000 bytes after it.
const OVERLONG: [u32; 11] = [0x8001_86c8, 1, 0, 2, 100_000, 2, 0, 0, 0, 0, 0];

fn new_core(alloc: Global) -> Result<Metered, CoreFault> {
    Metered::new(alloc, LIMITS, listener(), 1000, 0)
}

fn words(alloc: Global, numbers: &[u32]) -> Result<Vec<u8>, AllocError> {
    let mut bytes = Vec::new(alloc);
    for n in numbers {
        bytes.extend_from_slice(&n.to_be_bytes())?;
    }
    Ok(bytes)
}

// The outputs of the events.
fn outputs(alloc: Global, core: &mut Metered, events: &[Event]) -> Result<Vec<Output>, NoMemory> {
    let mut outputs = Vec::new(alloc);
    replay(alloc, core, events, &mut outputs)?;
    Ok(outputs)
}

// The call is answered, and the 24 bytes of its reply are held.
fn null_is_answered(rt: &impl Abort, core: &mut Metered, call: &[u8]) {
    assert_eq!(rt; core.held(), 1302);
    assert_eq!(rt; core.datagram(0, loopback(), call), Response::Reply);
    assert_eq!(rt; core.udp_reply(), NULL_REPLY);
    assert_eq!(rt; core.held(), 1326);
    assert!(rt; core.held() <= core.bytes_bound());
}

// HELD-3 HELD-5
#[test]
fn new_core_has_memory(rt: HostRuntime) -> Result<(), Fail> {
    let call = words(rt.alloc(), &NULL)?;
    let mut core = new_core(rt.alloc())?;
    null_is_answered(&rt, &mut core, &call);
    Ok(())
}

#[test]
fn limits_and_numbers(rt: HostRuntime) {
    for (conns, rows, forwards) in [(0, 8, 0), (257, 8, 0), (1, 7, 0), (1, 4097, 0), (1, 8, 65)] {
        let limits = Limits {
            conns,
            rows,
            forwards,
        };
        let made = Metered::new(rt.alloc(), limits, listener(), 1000, 0);
        assert!(rt; matches!(made, Err(CoreFault::BadLimits)));
    }
}

fn set_and_nothing(alloc: Global) -> Result<Vec<Event>, AllocError> {
    let set = [3, 0, 2, 100_000, 2, 1, 0, 0, 0, 0, 200_001, 1, 6, 2049];
    let mut events = Vec::new(alloc);
    events.push(Event::Datagram(0, loopback(), words(alloc, &set)?))?;
    events.push(Event::Datagram(0, loopback(), Vec::new(alloc)))?;
    Ok(events)
}

#[test]
fn replay_has_memory(rt: HostRuntime) -> Result<(), Fail> {
    let events = set_and_nothing(rt.alloc())?;
    let mut core = new_core(rt.alloc())?;
    let given = outputs(rt.alloc(), &mut core, &events)?;
    assert!(rt; matches!(given.as_slice(), [Output::Replied(_), Output::Silent]));
    Ok(())
}

/// A connection is opened, calls, is answered and is closed: each call of a connection once.
fn one_connection(alloc: Global) -> Result<Vec<Event>, AllocError> {
    let mut events = Vec::new(alloc);
    events.push(Event::Open(0, loopback()))?;
    events.push(Event::Bytes(0, 1, words(alloc, &NULL_RECORD)?))?;
    events.push(Event::Gave(0, 1, 3))?;
    events.push(Event::Pending(1))?;
    events.push(Event::NextLost)?;
    events.push(Event::Closed(1))?;
    Ok(events)
}

/// The reply to that call, marked, after its first 3 bytes.
const REST: [u8; 25] = [
    24, 0, 0, 0, 1, 0, 0, 0, 1, 0, 0, 0, 0, 0, 0, 0, 0, 0, 0, 0, 0, 0, 0, 0, 0,
];

fn rest_is_pending(outputs: &[Output]) -> bool {
    matches!(outputs.get(3), Some(Output::Pending(rest)) if rest.as_slice() == REST.as_slice())
}

fn connection_is_served(rt: &impl Abort, alloc: Global, core: &mut Metered) -> Result<(), Fail> {
    let events = one_connection(alloc)?;
    let given = outputs(alloc, core, &events)?;
    assert!(rt; given.len() == 6 && rest_is_pending(&given));
    assert!(rt; matches!(given.last(), Some(Output::Done)));
    assert_eq!(rt; core.held(), 1302);
    Ok(())
}

// HELD-4
#[test]
fn connections_have_memory(rt: HostRuntime) -> Result<(), Fail> {
    let mut core = new_core(rt.alloc())?;
    connection_is_served(&rt, rt.alloc(), &mut core)
}

fn null_call(alloc: Global) -> Result<Vec<Event>, AllocError> {
    let mut events = Vec::new(alloc);
    events.push(Event::Datagram(0, loopback(), words(alloc, &NULL)?))?;
    Ok(events)
}

fn is_null_reply(outputs: &[Output]) -> bool {
    matches!(outputs, [Output::Replied(reply)] if reply.as_slice() == NULL_REPLY)
}

// HELD-5
/// A NULL call and its reply, of which 24 bytes are held.
#[test]
fn null_reply_is_held(rt: HostRuntime) -> Result<(), Fail> {
    let events = null_call(rt.alloc())?;
    let mut core = new_core(rt.alloc())?;
    assert_eq!(rt; core.held(), 1302);
    let given = outputs(rt.alloc(), &mut core, &events)?;
    assert!(rt; is_null_reply(&given));
    assert_eq!(rt; core.held(), 1326);
    Ok(())
}

fn opening(alloc: Global) -> Result<Vec<Event>, AllocError> {
    let mut events = Vec::new(alloc);
    events.push(Event::Open(0, loopback()))?;
    Ok(events)
}

fn arrival(alloc: Global, piece: &[u8]) -> Result<Vec<Event>, AllocError> {
    let mut bytes = Vec::new(alloc);
    bytes.extend_from_slice(piece)?;
    let mut events = Vec::new(alloc);
    events.push(Event::Bytes(0, 1, bytes))?;
    Ok(events)
}

fn took(outputs: &[Output], count: usize) -> bool {
    matches!(outputs, [Output::Took(n)] if *n == count)
}

// A piece of 1,000 bytes arrives 99 times, each time whole, and never more than 10,246 bytes are held.
fn stays_small(alloc: Global, core: &mut Metered, piece: &[Event]) -> Result<bool, NoMemory> {
    for _i in 0..99 {
        let given = outputs(alloc, core, piece)?;
        if !took(&given, 1000) || core.held() > 10246 {
            return Ok(false);
        }
    }
    Ok(true)
}

fn connection_opens(rt: &impl Abort, alloc: Global, core: &mut Metered) -> Result<(), Fail> {
    let open = opening(alloc)?;
    let given = outputs(alloc, core, &open)?;
    assert!(rt; matches!(given.as_slice(), [Output::Opened(1)]) && core.held() == 1430);
    Ok(())
}

// The first 44 bytes of the record.
fn record_begins(rt: &impl Abort, alloc: Global, core: &mut Metered) -> Result<(), Fail> {
    let first = arrival(alloc, &words(alloc, &OVERLONG)?)?;
    let given = outputs(alloc, core, &first)?;
    assert!(rt; took(&given, 44) && core.held() == 1430);
    Ok(())
}

// The 100,000 bytes after them.
fn record_ends(rt: &impl Abort, alloc: Global, core: &mut Metered) -> Result<(), Fail> {
    let next = arrival(alloc, &[0xff; 1000])?;
    assert!(rt; stays_small(alloc, core, &next)?);
    let given = outputs(alloc, core, &next)?;
    assert!(rt; took(&given, 1000) && core.held() == 1482);
    assert!(rt; core.held() <= core.bytes_bound());
    Ok(())
}

// FEED-3 TAKE-4 HELD-4
/// What is held while a record of 100,044 bytes comes in, in 101 pieces.
#[test]
fn overlong_record_is_kept_in_part(rt: HostRuntime) -> Result<(), Fail> {
    let mut core = new_core(rt.alloc())?;
    assert_eq!(rt; core.held(), 1302);
    connection_opens(&rt, rt.alloc(), &mut core)?;
    record_begins(&rt, rt.alloc(), &mut core)?;
    record_ends(&rt, rt.alloc(), &mut core)
}

/// The whole reply to a NULL call of xid 1 on a connection.
const NULL_MARKED: [u8; 28] = [
    0x80, 0, 0, 24, 0, 0, 0, 1, 0, 0, 0, 1, 0, 0, 0, 0, 0, 0, 0, 0, 0, 0, 0, 0, 0, 0, 0, 0,
];

// The whole record is taken, this many bytes of its reply are given at once, and the connection stands so then.
fn gives_at_once(
    core: &mut Metered,
    record: &[u8],
    room: &mut [u8],
    given: usize,
    standing: Standing,
) -> bool {
    let taken = Taken {
        count: 44,
        lost: false,
    };
    let exchanged = Exchanged {
        taken,
        given,
        standing,
    };
    core.exchange(0, 1, record, room) == Ok(exchanged)
}

// If there is room for the longest fragment, the reply is given at once, and is pending no more.
fn gives_with_room(core: &mut Metered, record: &[u8]) -> bool {
    let mut room = [0; 1028];
    gives_at_once(core, record, &mut room, 28, Standing::Idle)
        && room.starts_with(&NULL_MARKED)
        && core.pending(1) == Ok(&[])
}

// If there is a byte less, the reply is pending.
fn waits_without_room(core: &mut Metered, record: &[u8]) -> bool {
    let mut room = [0; 1027];
    gives_at_once(core, record, &mut room, 0, Standing::Owing)
        && core.pending(1) == Ok(NULL_MARKED.as_slice())
}

// EXCHANGE-2
#[test]
fn replies_are_given_at_once(rt: HostRuntime) -> Result<(), Fail> {
    let record = words(rt.alloc(), &NULL_RECORD)?;
    let mut core = new_core(rt.alloc())?;
    connection_opens(&rt, rt.alloc(), &mut core)?;
    assert!(rt; gives_with_room(&mut core, &record));
    assert!(rt; waits_without_room(&mut core, &record));
    Ok(())
}

// Each byte of the record is taken by itself, in at most 328 steps.
fn bytes_are_cheap(core: &mut Metered, front: &[u8]) -> Result<bool, CoreFault> {
    for byte in front {
        let (Taken { count, lost }, _) = core.bytes(0, 1, &[*byte])?;
        if count != 1 || lost || core.steps() > 328 {
            return Ok(false);
        }
    }
    Ok(true)
}

// CALLIT with 8,800 bytes of arguments, in one fragment.
fn greatest_callit(alloc: Global) -> Result<Vec<u8>, AllocError> {
    let head = [
        0x8000_2298,
        18,
        0,
        2,
        100_000,
        2,
        5,
        0,
        0,
        0,
        0,
        200_001,
        1,
        0,
        8800,
    ];
    let mut record = words(alloc, &head)?;
    record.extend_from_slice(&[7; 8800])?;
    Ok(record)
}

// STEPS-3
/// At limits of 4 connections a byte that ends no record takes at most 8 steps, 64 for each connection, and 64.
#[test]
fn single_bytes_are_cheap(rt: HostRuntime) -> Result<(), Fail> {
    let limits = Limits {
        conns: 4,
        rows: 8,
        forwards: 1,
    };
    let record = greatest_callit(rt.alloc())?;
    let (_, front) = record.split_last().ok_or("empty")?;
    let mut core = Metered::new(rt.alloc(), limits, listener(), 1000, 0)?;
    assert_eq!(rt; core.open(0, loopback()), Ok(1));
    assert_eq!(rt; bytes_are_cheap(&mut core, front), Ok(true));
    Ok(())
}

// The bytes are taken, the connection stands so then, and this is the next deadline.
fn bytes_leave(
    core: &mut Metered,
    now: u64,
    piece: &[u8],
    standing: Standing,
    deadline: Option<u64>,
) -> bool {
    matches!(core.bytes(now, 1, piece), Ok((_, stands)) if stands == standing)
        && core.next_deadline() == deadline
}

// The same if this many bytes were given.
fn giving_leaves(
    core: &mut Metered,
    now: u64,
    count: usize,
    standing: Standing,
    deadline: Option<u64>,
) -> bool {
    core.gave(now, 1, count) == Ok(standing) && core.next_deadline() == deadline
}

// From the opening at the moment 0: a record in two pieces, and its reply in two.
fn a_call_goes_on(core: &mut Metered, first: &[u8], second: &[u8]) -> bool {
    core.next_deadline() == Some(300_000)
        && bytes_leave(core, 10, first, Standing::Reading, Some(30_010))
        && bytes_leave(core, 20, second, Standing::Owing, Some(30_020))
        && giving_leaves(core, 30, 3, Standing::Owing, Some(30_030))
        && giving_leaves(core, 40, 25, Standing::Idle, Some(300_040))
}

// STANDING-1 DEADLINE-3
/// Where a connection stands after each call on it, and the next deadline then: a call and its reply, and a record that is
/// no call.
#[test]
fn standings_and_next_deadlines(rt: HostRuntime) -> Result<(), Fail> {
    let first = words(rt.alloc(), &[0x8000_0028, 1, 0, 2, 100_000, 2])?;
    let second = words(rt.alloc(), &[0; 5])?;
    let no_call = words(rt.alloc(), &[0x8000_0004, 1])?;
    let mut core = new_core(rt.alloc())?;
    assert_eq!(rt; core.next_deadline(), None);
    connection_opens(&rt, rt.alloc(), &mut core)?;
    assert!(rt; a_call_goes_on(&mut core, &first, &second));
    assert!(rt; bytes_leave(&mut core, 50, &no_call, Standing::Lost, None));
    assert_eq!(rt; core.gave(60, 1, 1), Err(CoreFault::Gone));
    Ok(())
}

// A SET of version 2, of program 200001 version 1 over UDP at port 2049.
const SET: [u32; 14] = [2, 0, 2, 100_000, 2, 1, 0, 0, 0, 0, 200_001, 1, 17, 2049];

// A whole record with an INDIRECT of version 4 to procedure 0 of that program, without arguments.
const INDIRECT_RECORD: [u32; 15] = [
    0x8000_0038,
    15,
    0,
    2,
    100_000,
    4,
    10,
    0,
    0,
    0,
    0,
    200_001,
    1,
    0,
    0,
];

// The bytes come, the connection stands so then, and the call that was forwarded at the moment 10 is due next.
fn waits_for_target(core: &mut Metered, now: u64, record: &[u8], standing: Standing) -> bool {
    bytes_leave(core, now, record, standing, Some(5_010))
}

// STANDING-2
/// A call that is forwarded is told after its bytes, and not again; at its deadline the connection goes on.
#[test]
fn forwarded_calls_are_told_once(rt: HostRuntime) -> Result<(), Fail> {
    let set = words(rt.alloc(), &SET)?;
    let record = words(rt.alloc(), &INDIRECT_RECORD)?;
    let mut core = new_core(rt.alloc())?;
    connection_opens(&rt, rt.alloc(), &mut core)?;
    assert_eq!(rt; core.datagram(0, loopback(), &set), Response::Reply);
    assert!(rt; waits_for_target(&mut core, 10, &record, Standing::Sends));
    assert!(rt; core.unsent().is_some());
    assert!(rt; waits_for_target(&mut core, 20, &record, Standing::Awaiting));
    let ended = Expired::Ended(Told::TcpReady(1));
    assert_eq!(rt; core.expire(5_010), ended);
    Ok(())
}
