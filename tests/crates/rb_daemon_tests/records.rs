//! Calls over TCP.
use crate::client::Client;
use crate::messages::{null_record, null_reply_record};
use crate::turns::{Host, Stopped};
use std::test::Fail;

/// The NULL call of a new connection is answered with the 28 bytes of its reply.
pub(crate) fn answers_a_call(rt: &HostRuntime, host: &mut Host<'_>, xid: u32) -> Option<bool> {
    let call = null_record(rt.alloc(), xid).ok()?;
    let reply = null_reply_record(rt.alloc(), xid).ok()?;
    Some(answers(&mut Client::new(rt)?, host, &call, &reply))
}

/// The bytes are answered with the reply, of 28 bytes, and nothing else.
fn answers(client: &mut Client, host: &mut Host<'_>, bytes: &[u8], reply: &[u8]) -> bool {
    let is_sent = client.send(bytes);
    client.receive(host, 28);
    is_sent && client.got_just(reply) && !client.is_closed() && host.is_well()
}

// ANSWER-2
#[test]
fn daemon_turns_serve(rt: HostRuntime) -> Result<(), Fail> {
    let clock = Stopped::new(&rt);
    let mut host = Host::new(&clock, 4).ok_or("no daemon")?;
    assert_eq!(rt; answers_a_call(&rt, &mut host, 7), Some(true));
    Ok(())
}

fn answers_a_call_in_pieces(rt: &HostRuntime, host: &mut Host<'_>) -> Option<bool> {
    let call = null_record(rt.alloc(), 8).ok()?;
    let reply = null_reply_record(rt.alloc(), 8).ok()?;
    let mut client = Client::new(rt)?;
    let (first, rest) = call.split_at_checked(13)?;
    let is_half_sent = client.send(first) && client.receive_nothing(host);
    Some(is_half_sent && answers(&mut client, host, rest, &reply))
}

#[test]
fn record_in_two_pieces(rt: HostRuntime) -> Result<(), Fail> {
    let clock = Stopped::new(&rt);
    let mut host = Host::new(&clock, 4).ok_or("no daemon")?;
    assert_eq!(rt; answers_a_call_in_pieces(&rt, &mut host), Some(true));
    Ok(())
}

/// The records of the calls 1 to 40 are answered with those of their replies.
fn answers_forty_calls(rt: &HostRuntime, host: &mut Host<'_>) -> Option<bool> {
    let mut calls = Vec::new(rt.alloc());
    let mut replies = Vec::new(rt.alloc());
    for xid in 1..41 {
        calls
            .extend_from_slice(&null_record(rt.alloc(), xid).ok()?)
            .ok()?;
        replies
            .extend_from_slice(&null_reply_record(rt.alloc(), xid).ok()?)
            .ok()?;
    }
    let mut client = Client::new(rt)?;
    let is_sent = client.send(&calls);
    client.receive(host, replies.len());
    Some(is_sent && client.got_just(&replies) && host.is_well())
}

// OUTBOX-1 INBOX-1
#[test]
fn forty_records_in_one(rt: HostRuntime) -> Result<(), Fail> {
    let clock = Stopped::new(&rt);
    let mut host = Host::new(&clock, 4).ok_or("no daemon")?;
    assert_eq!(rt; answers_forty_calls(&rt, &mut host), Some(true));
    Ok(())
}

/// A record of one zero byte is no call: the connection is closed, and the next is served.
fn closes_no_call(rt: &HostRuntime, host: &mut Host<'_>) -> Option<bool> {
    let mut client = Client::new(rt)?;
    let is_sent = client.send(&[0x80, 0, 0, 1, 0]);
    client.receive(host, 1);
    let is_closed = is_sent && client.is_closed() && client.got().is_empty();
    Some(is_closed && answers_a_call(rt, host, 9)?)
}

// CLOSE-1
#[test]
fn record_that_is_no_call(rt: HostRuntime) -> Result<(), Fail> {
    let clock = Stopped::new(&rt);
    let mut host = Host::new(&clock, 1).ok_or("no daemon")?;
    assert_eq!(rt; closes_no_call(&rt, &mut host), Some(true));
    Ok(())
}

/// A call, and after it in the same piece a record that is no call: the reply comes before the connection is closed.
fn answers_before_the_end(rt: &HostRuntime, host: &mut Host<'_>) -> Option<bool> {
    let mut records = null_record(rt.alloc(), 10).ok()?;
    records.extend_from_slice(&[0x80, 0, 0, 1, 0]).ok()?;
    let reply = null_reply_record(rt.alloc(), 10).ok()?;
    let mut client = Client::new(rt)?;
    let is_sent = client.send(&records);
    client.receive(host, 29);
    Some(is_sent && client.got_just(&reply) && client.is_closed() && host.is_well())
}

#[test]
fn reply_comes_before_the_end(rt: HostRuntime) -> Result<(), Fail> {
    let clock = Stopped::new(&rt);
    let mut host = Host::new(&clock, 1).ok_or("no daemon")?;
    assert_eq!(rt; answers_before_the_end(&rt, &mut host), Some(true));
    Ok(())
}
