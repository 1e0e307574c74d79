//! Calls over UDP.
use crate::client::Caller;
use crate::messages::{bytes_of, null_call, null_reply};
use crate::turns::{Host, PORT, Stopped, address, plain};
use rb_address::Host as Address;
use std::net::{Ipv4Addr, SocketAddr};
use std::test::Fail;

/// A datagram with the words of the call is answered with those of the reply.
pub(crate) fn answers(
    rt: &HostRuntime,
    host: &mut Host<'_>,
    caller: &mut Caller,
    call: &[u32],
    reply: &[u32],
) -> Option<bool> {
    let call = bytes_of(rt.alloc(), call).ok()?;
    let reply = bytes_of(rt.alloc(), reply).ok()?;
    let is_sent = caller.send(&call);
    caller.receive(host);
    Some(is_sent && caller.got_just(&reply) && host.is_well())
}

// ANSWER-1
/// What comes back first is the reply to the call after it.
#[test]
fn datagram_that_is_no_call(rt: HostRuntime) -> Result<(), Fail> {
    let mut caller = Caller::new(&rt, 0).ok_or("no socket")?;
    let clock = Stopped::new(&rt);
    let mut host = Host::new(&clock, 1).ok_or("no daemon")?;
    assert!(rt; caller.send(&[0; 11]));
    let is_next = answers(&rt, &mut host, &mut caller, &null_call(5), &null_reply(5));
    assert_eq!(rt; is_next, Some(true));
    Ok(())
}

/// The program 200001 version 1 on TCP is set at port 2049, is there, and is not set again.
fn keeps_rows(rt: &HostRuntime, host: &mut Host<'_>) -> Option<bool> {
    let mut caller = Caller::new(rt, 0)?;
    let set = [3, 0, 2, 100_000, 2, 1, 0, 0, 0, 0, 200_001, 1, 6, 2049];
    let get_port = [4, 0, 2, 100_000, 2, 3, 0, 0, 0, 0, 200_001, 1, 6, 0];
    let is_set = answers(rt, host, &mut caller, &set, &[3, 1, 0, 0, 0, 0, 1])?;
    let is_there = answers(rt, host, &mut caller, &get_port, &[4, 1, 0, 0, 0, 0, 2049])?;
    let is_kept = answers(rt, host, &mut caller, &set, &[3, 1, 0, 0, 0, 0, 0])?;
    Some(is_set && is_there && is_kept)
}

// ANSWER-1
#[test]
fn datagrams_are_answered(rt: HostRuntime) -> Result<(), Fail> {
    let clock = Stopped::new(&rt);
    let mut host = Host::new(&clock, 1).ok_or("no daemon")?;
    assert_eq!(rt; keeps_rows(&rt, &mut host), Some(true));
    Ok(())
}

/// More datagrams than two turns serve of one socket: each is answered, in the order in which they came, from the address
/// that was asked, and no turn waits while some are left.
fn answers_many(
    rt: &HostRuntime,
    host: &mut Host<'_>,
    clock: &Stopped,
    asked: SocketAddr,
) -> Option<bool> {
    let mut caller = Caller::new(rt, 0)?;
    for xid in 0..70 {
        if !caller.send_to(&bytes_of(rt.alloc(), &null_call(xid)).ok()?, asked) {
            return None;
        }
    }
    let before = clock.slept();
    for _ in 0..3 {
        host.turn();
    }
    let waits = clock.slept() > before;
    for xid in 0..70 {
        let reply = bytes_of(rt.alloc(), &null_reply(xid)).ok()?;
        if !caller.receive_next() || !caller.got_just(&reply) || !caller.came_from(asked) {
            return None;
        }
    }
    Some(!waits && host.is_well())
}

// WAIT-2 TOKEN-1
#[test]
fn many_datagrams(rt: HostRuntime) -> Result<(), Fail> {
    let clock = Stopped::new(&rt);
    let mut host = Host::new(&clock, 1).ok_or("no daemon")?;
    assert_eq!(rt; answers_many(&rt, &mut host, &clock, address()), Some(true));
    Ok(())
}

// TURN-4
#[test]
fn many_datagrams_to_the_second_address(rt: HostRuntime) -> Result<(), Fail> {
    let clock = Stopped::new(&rt);
    let hosts = [Address::V4([127, 0, 0, 1]), Address::V4([127, 0, 0, 2])];
    let mut host = Host::with(&clock, &plain(&hosts, 1)).map_err(|_| "no daemon")?;
    let asked = SocketAddr::from((Ipv4Addr::new(127, 0, 0, 2), PORT));
    assert_eq!(rt; answers_many(&rt, &mut host, &clock, asked), Some(true));
    Ok(())
}

/// The longest datagram of IPv4: bytes after the arguments are ignored.
const LONGEST: usize = 65_507;

fn answers_the_longest(rt: &HostRuntime, host: &mut Host<'_>) -> Option<bool> {
    let mut call = bytes_of(rt.alloc(), &null_call(6)).ok()?;
    call.resize(LONGEST, 0).ok()?;
    let mut caller = Caller::new(rt, 0)?;
    let is_sent = caller.send(&call);
    caller.receive(host);
    let is_answered = caller.got_just(&bytes_of(rt.alloc(), &null_reply(6)).ok()?);
    Some(is_sent && is_answered && host.is_well())
}

#[test]
fn longest_datagram_is_answered(rt: HostRuntime) -> Result<(), Fail> {
    let clock = Stopped::new(&rt);
    let mut host = Host::new(&clock, 1).ok_or("no daemon")?;
    assert_eq!(rt; answers_the_longest(&rt, &mut host), Some(true));
    Ok(())
}
