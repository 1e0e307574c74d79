//! Memory that is refused: each call that takes some reports the lack of it, and what was done stands. As the gate runs
//! them nothing is refused, and the calls succeed. `tests/run-tests.sh rb_hostile -- --fail-alloc N` refuses the
//! allocation of number N in each test, and then these fail only if an answer is wrong.

use crate::cores::{bytes_of, core_of, loopback, set_call};
use rb_address::{Host, Peer};
use rb_core::{CoreFault, Metered, NoMemory};
use rb_lines::{ReadFault, read_events};
use rb_replay::{Event, Output, replay};
use rb_show::{Ask, Form, InfoFault, Question, Shown, show_reply, write_marked_call};
use std::alloc::{AllocError, Global};
use std::process::Abort;

/// The reply to a SET of xid 1 that added a row.
const SET_REPLY: &[u8] = b"\0\0\0\x01\0\0\0\x01\0\0\0\0\0\0\0\0\0\0\0\0\0\0\0\0\0\0\0\x01";

/// The reply to an INDIRECT of xid 2 that failed.
const FAILED: &[u8] = b"\0\0\0\x02\0\0\0\x01\0\0\0\0\0\0\0\0\0\0\0\0\0\0\0\x05";

/// A row is set, and a call is forwarded to it, lent, and ends at its deadline; a connection is opened, and owes nothing.
fn all_events(alloc: Global) -> Result<Vec<Event>, AllocError> {
    let set = bytes_of(alloc, &set_call(1, 200_001, 17))?;
    let indirect = [2, 0, 2, 100_000, 4, 10, 0, 0, 0, 0, 200_001, 1, 0, 0];
    let mut events = Vec::new(alloc);
    events.push(Event::Datagram(0, loopback(), set))?;
    events.push(Event::Datagram(0, loopback(), bytes_of(alloc, &indirect)?))?;
    events.push(Event::Unsent)?;
    let peer = Peer::new(Host::V4([127, 0, 0, 1]), 900);
    events.push(Event::Forward(0, peer, Vec::new(alloc)))?;
    events.push(Event::Expire(5000))?;
    events.push(Event::Open(5000, loopback()))?;
    events.push(Event::Pending(1))?;
    Ok(events)
}

/// These are the outputs of all of them.
fn are_all(outputs: &[Output]) -> bool {
    let [set, forwarded, unsent, ignored, failed, opened, rest] = outputs else {
        return false;
    };
    matches!(set, Output::Replied(reply) if reply.as_slice() == SET_REPLY)
        && matches!(forwarded, Output::Forwarded)
        && matches!(unsent, Output::Unsent(Some(unsent)) if unsent.call.len() == 40)
        && matches!(ignored, Output::Ignored)
        && matches!(failed, Output::RepliedTo(_, reply) if reply.as_slice() == FAILED)
        && matches!(opened, Output::Opened(1))
        && matches!(rest, Output::Pending(rest) if rest.is_empty())
}

/// Runs the events, and after lack of memory those that are left.
fn run_on(alloc: Global, core: &mut Metered, events: &[Event]) -> Result<Vec<Output>, NoMemory> {
    let mut outputs = Vec::new(alloc);
    if replay(alloc, core, events, &mut outputs).is_err() {
        let left = events.get(outputs.len()..).unwrap_or(&[]);
        replay(alloc, core, left, &mut outputs)?;
    }
    Ok(outputs)
}

/// The outputs are those of the whole run, also if memory was lacking.
fn run_is_whole(rt: &impl Abort, alloc: Global, core: &mut Metered, events: &[Event]) {
    let outputs = run_on(alloc, core, events);
    assert!(rt; outputs.is_ok_and(|outputs| are_all(&outputs)));
}

#[test]
fn refused_memory(rt: HostRuntime) {
    let Ok(events) = all_events(rt.alloc()) else {
        return;
    };
    match core_of(rt.alloc(), 8) {
        Ok(mut core) => run_is_whole(&rt, rt.alloc(), &mut core, &events),
        Err(fault) => assert_eq!(rt; fault, CoreFault::NoMemory),
    }
}

#[test]
fn refused_memory_of_event_lines(rt: HostRuntime) {
    let lines =
        b"open 0 127.0.0.1:900\nbytes 0 1 00\ndatagram 0 127.0.0.1:900 0000\nlost\nunsent\n";
    let is_right = match read_events(rt.alloc(), lines) {
        Ok(events) => matches!(
            events.as_slice(),
            [
                Event::Open(..),
                Event::Bytes(..),
                Event::Datagram(..),
                Event::NextLost,
                Event::Unsent
            ]
        ),
        Err(fault) => fault == ReadFault::NoMemory,
    };
    assert!(rt; is_right);
}

/// DUMP of version 2, shown as a table.
const ASK: Ask = Ask {
    question: Question::Pmap,
    uid: None,
};

/// Its call of xid 1, marked.
const CALL: &[u8] =
    b"\x80\0\0\x28\0\0\0\x01\0\0\0\0\0\0\0\x02\0\x01\x86\xa0\0\0\0\x02\0\0\0\x04\0\0\0\0\0\0\0\0\0\0\0\0\0\0\0\0";

#[test]
fn refused_memory_of_a_call(rt: HostRuntime) {
    let mut room = [0; 44];
    let is_right = match write_marked_call(rt.alloc(), &ASK, 1, &mut room.as_mut_slice()) {
        Ok(()) => room.as_slice() == CALL,
        Err(fault) => fault == InfoFault::Memory && room == [0; 44],
    };
    assert!(rt; is_right);
}

/// The marked reply with two rows: 200001 version 1 on tcp and on udp, at port 2049.
const REPLY: &[u8] =
    b"\x80\0\0\x44\0\0\0\x01\0\0\0\x01\0\0\0\0\0\0\0\0\0\0\0\0\0\0\0\0\0\0\0\x01\0\x03\x0d\x41\0\0\0\x01\0\0\0\x06\0\0\x08\x01\0\0\0\x01\0\x03\x0d\x41\0\0\0\x01\0\0\0\x11\0\0\x08\x01\0\0\0\0";

/// What is shown of it: three lines, of 30 bytes each.
const TABLE: &[u8] =
    b"   program   vers proto  port\n    200001      1 tcp    2049\n    200001      1 udp    2049\n";

#[test]
fn refused_memory_of_a_reply(rt: HostRuntime) {
    let mut room = [0; 90];
    let mut writer = room.as_mut_slice();
    let result = show_reply(rt.alloc(), &ASK, Form::Plain, 1, REPLY, &mut writer);
    let len = 90usize.saturating_sub(writer.len());
    let is_right = match result {
        Ok(shown) => shown == Shown::Rows(2) && len == 90,
        Err(fault) => fault == InfoFault::Memory && len % 30 == 0,
    };
    assert!(rt; is_right && room.get(..len) == TABLE.get(..len));
}
