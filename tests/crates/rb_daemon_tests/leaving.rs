//! Clients that go away, in the middle of a record or of a reply, by a close and by a reset, and clients that end what
//! they send while a reply is owed. The daemon has room for one connection, and serves the next.
use crate::client::Client;
use crate::lists::sets_rows;
use crate::messages::{MARK_40, bytes_of, null_record};
use crate::records::answers_a_call;
use crate::turns::{Host, Stopped};
use std::alloc::Global;
use std::test::Fail;

/// How many rows are set: with the six own ones as many as there may be.
pub(crate) const ROWS: u32 = 294;

/// How many lists are asked for: more than the sockets keep.
const LISTS: u32 = 400;

/// The length of a list of version 4 as a record. Its head has 24 bytes; an own row, of the address 0.0.0.0.78.143,
/// 56; a row that is set by nobody at 0.0.0.0.8.1 48; the end 4: 14,476 in all, in 15 fragments.
pub(crate) const LIST: usize = 24 + 6 * 56 + 294 * 48 + 4 + 15 * 4;

/// Records that list all rows, which is answered with some hundred bytes each.
pub(crate) fn dumps(alloc: Global, count: u32) -> Option<Vec<u8>> {
    let mut words = Vec::new(alloc);
    for xid in 0..count {
        let call = [MARK_40, xid, 0, 2, 100_000, 4, 4, 0, 0, 0, 0];
        words.extend_from_slice(&call).ok()?;
    }
    bytes_of(alloc, &words).ok()
}

/// A close in the middle of a record. `pauses` is whether turns pass before that is sent and after the close.
fn leaves_in_a_record(rt: &HostRuntime, host: &mut Host<'_>, pauses: bool) -> Option<bool> {
    let call = null_record(rt.alloc(), 2).ok()?;
    let (half, _) = call.split_at_checked(20)?;
    let mut client = Client::new(rt)?;
    if pauses {
        host.turn();
    }
    let is_sent = client.send(half) && client.receive_nothing(host);
    drop(client);
    if pauses {
        host.turn();
    }
    Some(is_sent)
}

// READ-2 CLOSE-1
#[test]
fn client_leaves_in_a_call(rt: HostRuntime) -> Result<(), Fail> {
    let clock = Stopped::new(&rt);
    let mut host = Host::new(&clock, 1).ok_or("no daemon")?;
    assert_eq!(rt; leaves_in_a_record(&rt, &mut host, true), Some(true));
    assert_eq!(rt; answers_a_call(&rt, &mut host, 3), Some(true));
    Ok(())
}

#[test]
fn clients_that_leave_in_a_record(rt: HostRuntime) -> Result<(), Fail> {
    let clock = Stopped::new(&rt);
    let mut host = Host::new(&clock, 1).ok_or("no daemon")?;
    assert_eq!(rt; leaves_in_a_record(&rt, &mut host, false), Some(true));
    assert_eq!(rt; answers_a_call(&rt, &mut host, 1), Some(true));
    Ok(())
}

/// A reset there: the system sends one if a socket is closed with bytes that were not read, as the reply to the
/// first call.
fn is_reset_in_a_record(rt: &HostRuntime, host: &mut Host<'_>) -> Option<bool> {
    let mut calls = null_record(rt.alloc(), 3).ok()?;
    calls.extend_from_slice(&[0x80, 0, 0, 40, 0, 0]).ok()?;
    let mut client = Client::new(rt)?;
    let is_sent = client.send(&calls);
    host.turn();
    host.turn();
    Some(is_sent)
}

#[test]
fn clients_that_leave_in_a_record_by_a_reset(rt: HostRuntime) -> Result<(), Fail> {
    let clock = Stopped::new(&rt);
    let mut host = Host::new(&clock, 1).ok_or("no daemon")?;
    assert_eq!(rt; is_reset_in_a_record(&rt, &mut host), Some(true));
    assert_eq!(rt; answers_a_call(&rt, &mut host, 1), Some(true));
    Ok(())
}

/// A client asks for lists, and goes away after a turn: by a close if it read all that came, by a reset if it
/// read none.
fn leaves_in_a_reply(
    rt: &HostRuntime,
    host: &mut Host<'_>,
    lists: u32,
    reads: bool,
) -> Option<bool> {
    let mut client = Client::new(rt)?;
    host.turn();
    let is_sent = client.send(&dumps(rt.alloc(), lists)?);
    host.turn();
    let is_read = !reads || client.discard() > 0;
    Some(is_sent && is_read && !client.is_closed())
}

// WRITE-1 CLOSE-1
#[test]
fn client_leaves_in_a_reply(rt: HostRuntime) -> Result<(), Fail> {
    let clock = Stopped::new(&rt);
    let mut host = Host::new(&clock, 1).ok_or("no daemon")?;
    assert_eq!(rt; leaves_in_a_reply(&rt, &mut host, 200, false), Some(true));
    host.turn();
    assert_eq!(rt; answers_a_call(&rt, &mut host, 4), Some(true));
    Ok(())
}

/// The lists are more than are given in a turn.
#[test]
fn clients_that_leave_in_a_reply(rt: HostRuntime) -> Result<(), Fail> {
    let clock = Stopped::new(&rt);
    let mut host = Host::new(&clock, 1).ok_or("no daemon")?;
    assert_eq!(rt; sets_rows(&rt, &mut host, ROWS), Some(true));
    assert_eq!(rt; leaves_in_a_reply(&rt, &mut host, LISTS, true), Some(true));
    assert_eq!(rt; answers_a_call(&rt, &mut host, 1), Some(true));
    Ok(())
}

#[test]
fn clients_that_leave_in_a_reply_by_a_reset(rt: HostRuntime) -> Result<(), Fail> {
    let clock = Stopped::new(&rt);
    let mut host = Host::new(&clock, 1).ok_or("no daemon")?;
    assert_eq!(rt; sets_rows(&rt, &mut host, ROWS), Some(true));
    assert_eq!(rt; leaves_in_a_reply(&rt, &mut host, LISTS, false), Some(true));
    assert_eq!(rt; answers_a_call(&rt, &mut host, 1), Some(true));
    Ok(())
}

/// A client ends what it sends, and gets all lists that it asked for; then the daemon closes the connection.
fn gets_what_is_owed(rt: &HostRuntime, host: &mut Host<'_>) -> Option<bool> {
    let mut client = Client::new(rt)?;
    let is_sent = client.send(&dumps(rt.alloc(), LISTS)?) && client.end();
    let count = client.read_through(host, usize::MAX);
    let is_whole = count == LISTS as usize * LIST && client.is_closed();
    Some(is_sent && is_whole && host.is_well())
}

#[test]
fn clients_that_leave_but_read(rt: HostRuntime) -> Result<(), Fail> {
    let clock = Stopped::new(&rt);
    let mut host = Host::new(&clock, 1).ok_or("no daemon")?;
    assert_eq!(rt; sets_rows(&rt, &mut host, ROWS), Some(true));
    assert_eq!(rt; gets_what_is_owed(&rt, &mut host), Some(true));
    assert_eq!(rt; answers_a_call(&rt, &mut host, 1), Some(true));
    Ok(())
}

// ACCEPT-1 ACCEPT-3
/// Two connections may be open, and ten clients come and are gone before a turn; one that stays is served.
#[test]
fn gone_clients_take_no_places(rt: HostRuntime) -> Result<(), Fail> {
    let clock = Stopped::new(&rt);
    let mut host = Host::new(&clock, 2).ok_or("no daemon")?;
    for _ in 0..10 {
        assert!(rt; Client::new(&rt).is_some());
    }
    assert_eq!(rt; answers_a_call(&rt, &mut host, 5), Some(true));
    Ok(())
}
