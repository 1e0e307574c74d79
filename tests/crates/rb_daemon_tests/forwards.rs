//! Calls that are forwarded to a socket of the test.
use crate::client::{Caller, Client};
use crate::datagrams::answers;
use crate::messages::{MARK_24, bytes_of, null_call, null_reply};
use crate::turns::{Host, PORT, Stopped, address, plain};
use rb_address::Host as Address;
use std::net::{Ipv4Addr, SocketAddr};
use std::test::Fail;

/// Where the target of forwarded calls listens: 20,119 is 78 times 256, and 151.
const TARGET: u16 = 20_119;

/// The words of the address 127.0.0.1.78.151 as a string, and of no results after it. It is told with the host that
/// was asked.
const AT_TARGET: [u32; 6] = [16, 0x3132_372e, 0x302e_302e, 0x312e_3738, 0x2e31_3531, 0];

/// The same of 127.0.0.2.
const AT_SECOND: [u32; 6] = [16, 0x3132_372e, 0x302e_302e, 0x322e_3738, 0x2e31_3531, 0];

/// The program 200001 version 1 listens at the target.
pub(crate) fn sets_target(
    rt: &HostRuntime,
    host: &mut Host<'_>,
    caller: &mut Caller,
) -> Option<bool> {
    let set = [1, 0, 2, 100_000, 2, 1, 0, 0, 0, 0, 200_001, 1, 17, 20_119];
    answers(rt, host, caller, &set, &[1, 1, 0, 0, 0, 0, 1])
}

/// An INDIRECT of that program's procedure 0, over UDP.
pub(crate) const INDIRECT: [u32; 14] = [15, 0, 2, 100_000, 4, 10, 0, 0, 0, 0, 200_001, 1, 0, 0];

/// The target answers the call of 40 bytes with a reply without results.
fn target_answers(rt: &HostRuntime, host: &mut Host<'_>, target: &mut Caller) -> Option<bool> {
    target.receive(host);
    let xid = target.first_word_of(40)?;
    Some(target.answer(&bytes_of(rt.alloc(), &null_reply(xid)).ok()?))
}

/// An INDIRECT reaches its target, and what the target answers reaches the caller, from the address that was asked, as
/// the reply to each other call.
fn forwards_a_call(
    rt: &HostRuntime,
    host: &mut Host<'_>,
    asked: SocketAddr,
    told: [u32; 6],
) -> Option<bool> {
    let mut caller = Caller::new(rt, 0)?;
    let mut target = Caller::new(rt, TARGET)?;
    let is_set = sets_target(rt, host, &mut caller)?;
    let is_sent = caller.send_to(&bytes_of(rt.alloc(), &INDIRECT).ok()?, asked);
    let is_answered = target_answers(rt, host, &mut target)?;
    caller.receive(host);
    let is_passed = caller.got_just(&bytes_of(rt.alloc(), &passed_reply(told)).ok()?);
    let is_right = is_passed && caller.came_from(asked);
    let is_asked = caller.send_to(&bytes_of(rt.alloc(), &null_call(17)).ok()?, asked);
    caller.receive(host);
    let is_null = caller.got_just(&bytes_of(rt.alloc(), &null_reply(17)).ok()?);
    let is_there = is_asked && is_null && caller.came_from(asked);
    Some(is_set && is_sent && is_answered && is_right && is_there && host.is_well())
}

fn passed_reply(told: [u32; 6]) -> [u32; 12] {
    let [xid, mtype, stat, flavor, len, status] = null_reply(15);
    let [size, a, b, c, d, results] = told;
    [
        xid, mtype, stat, flavor, len, status, size, a, b, c, d, results,
    ]
}

// SEND-1 SEND-2
#[test]
fn indirect_is_passed_back(rt: HostRuntime) -> Result<(), Fail> {
    let clock = Stopped::new(&rt);
    let mut host = Host::new(&clock, 1).ok_or("no daemon")?;
    assert_eq!(rt;
        forwards_a_call(&rt, &mut host, address(), AT_TARGET),
        Some(true)
    );
    Ok(())
}

// WAYBACK-1 ANSWER-1
#[test]
fn replies_come_from_the_asked_address(rt: HostRuntime) -> Result<(), Fail> {
    let clock = Stopped::new(&rt);
    let hosts = [Address::V4([127, 0, 0, 1]), Address::V4([127, 0, 0, 2])];
    let mut host = Host::with(&clock, &plain(&hosts, 1)).map_err(|_| "no daemon")?;
    let asked = SocketAddr::from((Ipv4Addr::new(127, 0, 0, 2), PORT));
    assert_eq!(rt;
        forwards_a_call(&rt, &mut host, asked, AT_SECOND),
        Some(true)
    );
    Ok(())
}

/// An INDIRECT in a record of 56 bytes, and a NULL call in one of 40.
pub(crate) const TWO_CALLS: [u32; 26] = [
    0x8000_0038,
    15,
    0,
    2,
    100_000,
    4,
    10,
    0,
    0,
    0,
    0,
    200_001,
    1,
    0,
    0,
    0x8000_0028,
    16,
    0,
    2,
    100_000,
    4,
    0,
    0,
    0,
    0,
    0,
];

/// So does an INDIRECT over TCP, whose connection waits meanwhile, and goes on with the call that came after it. A
/// client that ends what it sends after them gets the same, and is closed after it.
/// What comes is the answer of the target in a record of 48 bytes, and after it the NULL reply.
fn forwards_over_tcp(rt: &HostRuntime, host: &mut Host<'_>, ends: bool) -> Option<bool> {
    let mut words = Vec::new(rt.alloc());
    words.push(0x8000_0030).ok()?;
    words.extend_from_slice(&passed_reply(AT_TARGET)).ok()?;
    words.push(MARK_24).ok()?;
    words.extend_from_slice(&null_reply(16)).ok()?;
    let replies = bytes_of(rt.alloc(), &words).ok()?;
    let mut caller = Caller::new(rt, 0)?;
    let mut target = Caller::new(rt, TARGET)?;
    let mut client = Client::new(rt)?;
    let is_set = sets_target(rt, host, &mut caller)?;
    let is_sent = client.send(&bytes_of(rt.alloc(), &TWO_CALLS).ok()?) && (!ends || client.end());
    let is_answered = target_answers(rt, host, &mut target)?;
    client.receive(host, if ends { 81 } else { 80 });
    let is_right = client.got_just(&replies) && (!ends || client.is_closed());
    Some(is_set && is_sent && is_answered && is_right && host.is_well())
}

// EVENT-2 SEND-2
#[test]
fn connection_waits_for_indirect(rt: HostRuntime) -> Result<(), Fail> {
    let clock = Stopped::new(&rt);
    let mut host = Host::new(&clock, 1).ok_or("no daemon")?;
    assert_eq!(rt; forwards_over_tcp(&rt, &mut host, false), Some(true));
    Ok(())
}

// READ-1
#[test]
fn client_ends_behind_indirect(rt: HostRuntime) -> Result<(), Fail> {
    let clock = Stopped::new(&rt);
    let mut host = Host::new(&clock, 1).ok_or("no daemon")?;
    assert_eq!(rt; forwards_over_tcp(&rt, &mut host, true), Some(true));
    Ok(())
}

/// For this many milliseconds a forwarded call waits for its target.
const FORWARDED: u64 = 5_000;

/// Three INDIRECTs wait for a target that does not answer: of a datagram to the second address, and of two connections. The
/// client of one has ended what it sends. All end at one moment, and not a millisecond before.
fn ends_all(
    rt: &HostRuntime,
    host: &mut Host<'_>,
    clock: &Stopped,
    asked: SocketAddr,
) -> Option<bool> {
    let call = bytes_of(rt.alloc(), TWO_CALLS.get(..15)?).ok()?;
    let mut caller = Caller::new(rt, 0)?;
    let mut target = Caller::new(rt, TARGET)?;
    let mut ended = Client::new(rt)?;
    let mut open = Client::new(rt)?;
    let is_set = sets_target(rt, host, &mut caller)?;
    let are_sent = caller.send_to(&bytes_of(rt.alloc(), &INDIRECT).ok()?, asked)
        && ended.send(&call)
        && ended.end()
        && open.send(&call);
    for _ in 0..3 {
        target.receive(host);
        target.first_word_of(40)?;
    }
    clock.advance(FORWARDED - 1);
    let do_wait = caller.receive_nothing(host)
        && ended.receive_nothing(host)
        && open.receive_nothing(host);
    clock.advance(1);
    let are_told = are_told_failures(rt, host, &mut caller, &mut ended, &mut open)?;
    Some(is_set && are_sent && do_wait && are_told && caller.came_from(asked) && host.is_well())
}

/// Each gets SYSTEM_ERR, and the connection whose client has ended what it sends is closed after it.
fn are_told_failures(
    rt: &HostRuntime,
    host: &mut Host<'_>,
    caller: &mut Caller,
    ended: &mut Client,
    open: &mut Client,
) -> Option<bool> {
    let reply = bytes_of(rt.alloc(), &[MARK_24, 15, 1, 0, 0, 0, 5]).ok()?;
    caller.receive(host);
    ended.receive(host, 29);
    open.receive(host, 28);
    let is_ended = ended.got_just(&reply) && ended.is_closed();
    let is_open = open.got_just(&reply) && !open.is_closed();
    Some(caller.got_just(reply.get(4..)?) && is_ended && is_open)
}

// SEND-2
#[test]
fn forwarded_calls_end_together(rt: HostRuntime) -> Result<(), Fail> {
    let clock = Stopped::at(&rt, 1_000_500, 5_500);
    let hosts = [Address::V4([127, 0, 0, 1]), Address::V4([127, 0, 0, 2])];
    let mut host = Host::with(&clock, &plain(&hosts, 2)).map_err(|_| "no daemon")?;
    let asked = SocketAddr::from((Ipv4Addr::new(127, 0, 0, 2), PORT));
    assert_eq!(rt; ends_all(&rt, &mut host, &clock, asked), Some(true));
    Ok(())
}

/// The greatest arguments and results of a forwarded call, in bytes, and in words.
const GREATEST: u32 = 8_800;

const GREATEST_WORDS: u32 = GREATEST / 4;

/// These words, and after them the greatest opaque data, of zeros.
fn with_greatest(rt: &HostRuntime, words: &[u32]) -> Option<Vec<u8>> {
    let mut all = Vec::new(rt.alloc());
    all.extend_from_slice(words).ok()?;
    for _ in 0..GREATEST_WORDS {
        all.push(0).ok()?;
    }
    bytes_of(rt.alloc(), &all).ok()
}

/// The target gets the arguments as they came, and what it answers is passed back.
fn forwards_the_greatest(rt: &HostRuntime, host: &mut Host<'_>) -> Option<bool> {
    let mut caller = Caller::new(rt, 0)?;
    let mut target = Caller::new(rt, TARGET)?;
    let [call @ .., _] = INDIRECT;
    let mut call_words = Vec::new(rt.alloc());
    call_words.extend_from_slice(&call).ok()?;
    call_words.push(GREATEST).ok()?;
    let is_set = sets_target(rt, host, &mut caller)?;
    let is_sent = caller.send(&with_greatest(rt, &call_words)?);
    target.receive(host);
    let xid = target.first_word_of(40 + GREATEST as usize)?;
    let is_answered = target.answer(&with_greatest(rt, &null_reply(xid))?);
    caller.receive(host);
    let [head @ .., _] = passed_reply(AT_TARGET);
    let mut reply_words = Vec::new(rt.alloc());
    reply_words.extend_from_slice(&head).ok()?;
    reply_words.push(GREATEST).ok()?;
    let is_passed = caller.got_just(&with_greatest(rt, &reply_words)?);
    Some(is_set && is_sent && is_answered && is_passed && host.is_well())
}

// SEND-2
#[test]
fn greatest_forwarded_call_is_passed_back(rt: HostRuntime) -> Result<(), Fail> {
    let clock = Stopped::new(&rt);
    let mut host = Host::new(&clock, 1).ok_or("no daemon")?;
    assert_eq!(rt; forwards_the_greatest(&rt, &mut host), Some(true));
    Ok(())
}
