//! Clients that do nothing for too long.
use crate::client::{Caller, Client};
use crate::datagrams::answers;
use crate::forwards::{INDIRECT, sets_target};
use crate::messages::{bytes_of, null_record, null_reply_record};
use crate::records::answers_a_call;
use crate::turns::{Host, Stopped};
use std::test::Fail;

/// From an opening to the next record, in milliseconds.
const IDLE: u64 = 300_000;

/// From the first byte of a record to its end, in milliseconds.
const READING: u64 = 30_000;

/// Until the reply to a forwarded call, in milliseconds.
const FORWARDED: u64 = 5_000;

/// The daemon closes the connection when this much time is over, and not a millisecond before.
fn is_closed_after(client: &mut Client, host: &mut Host<'_>, clock: &Stopped, millis: u64) -> bool {
    let before = client.got().len();
    clock.advance(millis.saturating_sub(1));
    let stays = client.receive_nothing(host);
    clock.advance(1);
    client.receive(host, before + 1);
    stays && client.is_closed() && client.got().len() == before && host.is_well()
}

/// If no other connection may be open, the next one is served.
fn closes_idle(rt: &HostRuntime, host: &mut Host<'_>, clock: &Stopped) -> Option<bool> {
    let mut client = Client::new(rt)?;
    let is_open = client.receive_nothing(host);
    let is_closed = is_closed_after(&mut client, host, clock, IDLE);
    Some(is_open && is_closed && answers_a_call(rt, host, 21)?)
}

// DUE-1 CLOSE-2 WAIT-4 DUE-4
#[test]
fn idle_connection_is_closed(rt: HostRuntime) -> Result<(), Fail> {
    let clock = Stopped::new(&rt);
    let mut host = Host::new(&clock, 1).ok_or("no daemon")?;
    assert_eq!(rt; closes_idle(&rt, &mut host, &clock), Some(true));
    Ok(())
}

/// The time counts from the last byte of a reply, by clocks that stand at no whole second.
fn closes_after_a_reply(rt: &HostRuntime, host: &mut Host<'_>, clock: &Stopped) -> Option<bool> {
    let mut client = Client::new(rt)?;
    let is_open = client.receive_nothing(host);
    clock.advance(IDLE - 1);
    let is_sent = client.send(&null_record(rt.alloc(), 26).ok()?);
    client.receive(host, 28);
    let is_served = is_sent && client.got_just(&null_reply_record(rt.alloc(), 26).ok()?);
    let is_closed = is_closed_after(&mut client, host, clock, IDLE);
    Some(is_open && is_served && is_closed)
}

// DUE-1
#[test]
fn connection_is_closed_after_its_last_reply(rt: HostRuntime) -> Result<(), Fail> {
    let clock = Stopped::at(&rt, 1_000_250, 5_999);
    let mut host = Host::new(&clock, 1).ok_or("no daemon")?;
    assert_eq!(rt; closes_after_a_reply(&rt, &mut host, &clock), Some(true));
    Ok(())
}

/// A CALLIT of a program that is not there, in a record of 56 bytes. It stays without an answer.
const CALLIT: [u32; 15] = [
    0x8000_0038,
    27,
    0,
    2,
    100_000,
    2,
    5,
    0,
    0,
    0,
    0,
    200_001,
    1,
    0,
    0,
];

/// The time counts from a call that stays without an answer, and from the first byte of the next one.
fn closes_after_silence(rt: &HostRuntime, host: &mut Host<'_>, clock: &Stopped) -> Option<bool> {
    let call = bytes_of(rt.alloc(), &CALLIT).ok()?;
    let mut client = Client::new(rt)?;
    let is_open = client.receive_nothing(host);
    clock.advance(READING);
    let is_silent = client.send(&call) && client.receive_nothing(host);
    clock.advance(IDLE - 1);
    let is_begun = client.send(call.get(..20)?) && client.receive_nothing(host);
    let is_closed = is_closed_after(&mut client, host, clock, READING);
    Some(is_open && is_silent && is_begun && is_closed)
}

// DUE-1
#[test]
fn half_of_a_second_call_is_closed(rt: HostRuntime) -> Result<(), Fail> {
    let clock = Stopped::at(&rt, 1_000_999, 5_001);
    let mut host = Host::new(&clock, 1).ok_or("no daemon")?;
    assert_eq!(rt; closes_after_silence(&rt, &mut host, &clock), Some(true));
    Ok(())
}

/// The time counts from the first byte of the record, whatever else comes of it.
fn closes_half_sent(rt: &HostRuntime, host: &mut Host<'_>, clock: &Stopped) -> Option<bool> {
    let call = null_record(rt.alloc(), 22).ok()?;
    let (first, rest) = call.split_at_checked(20)?;
    let (second, _) = rest.split_at_checked(20)?;
    let mut client = Client::new(rt)?;
    let is_open = client.receive_nothing(host);
    let is_begun = client.send(first) && client.receive_nothing(host);
    clock.advance(READING / 2);
    let goes_on = client.send(second) && client.receive_nothing(host);
    let is_closed = is_closed_after(&mut client, host, clock, READING / 2);
    let is_over = is_open && is_begun && goes_on && is_closed;
    Some(is_over && answers_a_call(rt, host, 23)?)
}

// DUE-4
#[test]
fn half_sent_record_is_closed(rt: HostRuntime) -> Result<(), Fail> {
    let clock = Stopped::new(&rt);
    let mut host = Host::new(&clock, 1).ok_or("no daemon")?;
    assert_eq!(rt; closes_half_sent(&rt, &mut host, &clock), Some(true));
    Ok(())
}

/// An INDIRECT that its target does not answer is answered with SYSTEM_ERR.
fn ends_without_target(rt: &HostRuntime, host: &mut Host<'_>, clock: &Stopped) -> Option<bool> {
    let mut caller = Caller::new(rt, 0)?;
    let is_set = sets_target(rt, host, &mut caller)?;
    let is_sent = caller.send(&bytes_of(rt.alloc(), &INDIRECT).ok()?);
    host.turn();
    clock.advance(FORWARDED);
    caller.receive(host);
    let reply = bytes_of(rt.alloc(), &[15, 1, 0, 0, 0, 5]).ok()?;
    Some(is_set && is_sent && caller.got_just(&reply) && host.is_well())
}

// DUE-4
#[test]
fn indirect_ends_at_its_deadline(rt: HostRuntime) -> Result<(), Fail> {
    let clock = Stopped::new(&rt);
    let mut host = Host::new(&clock, 1).ok_or("no daemon")?;
    assert_eq!(rt; ends_without_target(&rt, &mut host, &clock), Some(true));
    Ok(())
}

/// The wall clock is set forward by a day, and the connection stays; then it is set back by two, and the deadline
/// comes when its time has passed.
fn keeps_time(rt: &HostRuntime, host: &mut Host<'_>, clock: &Stopped) -> Option<bool> {
    let mut client = Client::new(rt)?;
    let is_open = client.receive_nothing(host);
    clock.set_wall(87_400_000);
    let stays = client.receive_nothing(host);
    clock.set_wall(0);
    let is_closed = is_closed_after(&mut client, host, clock, IDLE);
    Some(is_open && stays && is_closed)
}

// MOMENT-1 MOMENT-2
#[test]
fn clock_is_set_while_a_client_is_idle(rt: HostRuntime) -> Result<(), Fail> {
    let clock = Stopped::new(&rt);
    let mut host = Host::new(&clock, 1).ok_or("no daemon")?;
    assert_eq!(rt; keeps_time(&rt, &mut host, &clock), Some(true));
    Ok(())
}

/// GETTIME follows a clock that is set forward while no connection is open, and does not go back. Of a second that has
/// begun it tells the beginning.
fn tells_the_time(rt: &HostRuntime, host: &mut Host<'_>, clock: &Stopped) -> Option<bool> {
    let mut caller = Caller::new(rt, 0)?;
    let get_time = [25, 0, 2, 100_000, 3, 6, 0, 0, 0, 0];
    let is_first = answers(rt, host, &mut caller, &get_time, &[25, 1, 0, 0, 0, 0, 1000])?;
    clock.set_wall(5_000_999);
    let is_later = answers(rt, host, &mut caller, &get_time, &[25, 1, 0, 0, 0, 0, 5000])?;
    clock.set_wall(0);
    clock.advance(1);
    let is_on = answers(rt, host, &mut caller, &get_time, &[25, 1, 0, 0, 0, 0, 5001])?;
    Some(is_first && is_later && is_on)
}

// MOMENT-2
#[test]
fn gettime_is_the_greater_of_both_clocks(rt: HostRuntime) -> Result<(), Fail> {
    let clock = Stopped::new(&rt);
    let mut host = Host::new(&clock, 1).ok_or("no daemon")?;
    assert_eq!(rt; tells_the_time(&rt, &mut host, &clock), Some(true));
    Ok(())
}
