//! Changes that come together, and the file of kept rows: it is looked at once for each write that adds lines.
use crate::client::{Caller, Client};
use crate::messages::bytes_of;
use crate::turns::{HERE, Host, Stopped, address, address6, everywhere, plain};
use rb_daemon::Settings;
use std::alloc::AllocError;
use std::fs;
use std::io::Read;
use std::test::Fail;

/// The file, in the folder that the test runs in.
pub(crate) const ROWS: &str = "rb_daemon_tests.rows";

/// The header of a last fragment of 56 bytes, a SET of version 2, and of 28, the reply to it.
const MARKS: [u32; 2] = [0x8000_0038, 0x8000_001c];

/// The reply to the call of this number, with this number.
const fn reply(xid: u32, number: u32) -> [u32; 7] {
    [xid, 1, 0, 0, 0, 0, number]
}

/// The call of this number of version 2 by which the program of this number is set on TCP, at port 2049.
const fn set(xid: u32, prog: u32) -> [u32; 14] {
    [xid, 0, 2, 100_000, 2, 1, 0, 0, 0, 0, prog, 1, 6, 2049]
}

/// The call of this number that asks for the port of that program (RFC 1833 section 3.2).
const fn get_port(xid: u32, prog: u32) -> [u32; 14] {
    [xid, 0, 2, 100_000, 2, 3, 0, 0, 0, 0, prog, 1, 6, 0]
}

fn kept(settings: Settings<'static>) -> Settings<'static> {
    Settings {
        keep: Some(ROWS),
        ..settings
    }
}

/// These calls one after another, as records, if the marks of their length are before them.
fn records(rt: &HostRuntime, mark: u32, all: &[&[u32]]) -> Result<Vec<u8>, AllocError> {
    let mut words = Vec::new(rt.alloc());
    for one in all {
        words.push(mark)?;
        words.extend_from_slice(one)?;
    }
    bytes_of(rt.alloc(), &words)
}

/// How many lines the file has.
fn count_lines(rt: &HostRuntime) -> Option<usize> {
    let mut text = Vec::new(rt.alloc());
    fs::open(rt, ROWS).ok()?.read_to_end(&mut text).ok()?;
    Some(text.iter().filter(|byte| **byte == b'\n').count())
}

/// Whether the next datagram that came is this reply.
fn got_next(rt: &HostRuntime, caller: &mut Caller, reply: &[u32]) -> Option<bool> {
    let reply = bytes_of(rt.alloc(), reply).ok()?;
    Some(caller.receive_next() && caller.got_just(&reply))
}

/// Sets a first row, for which the file is made: from then on lines are added to it.
fn sets_the_first(rt: &HostRuntime, host: &mut Host<'_>) -> Option<bool> {
    let mut caller = Caller::new(rt, 0)?;
    let is_sent = caller.send(&bytes_of(rt.alloc(), &set(1, 200_001)).ok()?);
    caller.receive(host);
    let is_set = caller.got_just(&bytes_of(rt.alloc(), &reply(1, 1)).ok()?);
    Some(is_sent && is_set && count_lines(rt)? == 1 && host.rows_looks() == 0)
}

/// Two datagrams, two records on a connection, one on another and one on the local socket come before a turn.
fn keeps_at_once(rt: &HostRuntime, host: &mut Host<'_>) -> Option<bool> {
    let mut caller = Caller::new(rt, 0)?;
    let mut clients = [Client::new(rt)?, Client::new(rt)?, Client::local(rt)?];
    host.turn();
    let calls = [
        records(rt, MARKS[0], &[&set(11, 200_011), &set(12, 200_012)]).ok()?,
        records(rt, MARKS[0], &[&set(13, 200_013)]).ok()?,
        records(rt, MARKS[0], &[&set(14, 200_014)]).ok()?,
    ];
    let replies = [
        records(rt, MARKS[1], &[&reply(11, 1), &reply(12, 1)]).ok()?,
        records(rt, MARKS[1], &[&reply(13, 1)]).ok()?,
        records(rt, MARKS[1], &[&reply(14, 1)]).ok()?,
    ];
    let mut are_right = caller.send(&bytes_of(rt.alloc(), &set(15, 200_015)).ok()?);
    are_right &= caller.send(&bytes_of(rt.alloc(), &set(16, 200_016)).ok()?);
    for (client, calls) in clients.iter_mut().zip(&calls) {
        are_right &= client.send(calls);
    }
    host.turn();
    are_right &= host.rows_looks() == 1 && count_lines(rt)? == 7;
    for (client, replies) in clients.iter_mut().zip(&replies) {
        client.read();
        are_right &= client.got_just(replies);
    }
    are_right &= got_next(rt, &mut caller, &reply(15, 1))?;
    are_right &= got_next(rt, &mut caller, &reply(16, 1))?;
    Some(are_right && host.is_well())
}

// KEEP-18
#[test]
fn changes_of_a_turn_are_one_write(rt: HostRuntime) -> Result<(), Fail> {
    let clock = Stopped::new(&rt);
    let mut host = Host::with(&clock, &kept(everywhere(&HERE, 4))).map_err(|_| "no daemon")?;
    assert_eq!(rt; sets_the_first(&rt, &mut host), Some(true));
    assert_eq!(rt; keeps_at_once(&rt, &mut host), Some(true));
    fs::remove_file(&rt, ROWS)?;
    Ok(())
}

/// A SET, a look-up of its port, a list, which is too long to wait, and a SET again, by datagrams, and a look-up on a connection,
/// come before a turn: each is answered in it, in their order, by what the calls before it did.
fn answers_in_order(rt: &HostRuntime, host: &mut Host<'_>) -> Option<bool> {
    let mut caller = Caller::new(rt, 0)?;
    let mut client = Client::new(rt)?;
    host.turn();
    let list = [23, 0, 2, 100_000, 2, 4, 0, 0, 0, 0];
    let mut are_right = true;
    for call in [&set(21, 200_021), &get_port(22, 200_021)] {
        are_right &= caller.send(&bytes_of(rt.alloc(), call).ok()?);
    }
    are_right &= caller.send(&bytes_of(rt.alloc(), &list).ok()?);
    are_right &= caller.send(&bytes_of(rt.alloc(), &set(24, 200_024)).ok()?);
    are_right &= client.send(&records(rt, MARKS[0], &[&get_port(25, 200_024)]).ok()?);
    host.turn();
    are_right &= got_next(rt, &mut caller, &reply(21, 1))?;
    are_right &= got_next(rt, &mut caller, &reply(22, 2049))?;
    are_right &= caller.receive_next() && caller.first_word() == 23;
    are_right &= got_next(rt, &mut caller, &reply(24, 1))?;
    client.read();
    are_right &= client.got_just(&records(rt, MARKS[1], &[&reply(25, 2049)]).ok()?);
    Some(are_right && host.rows_looks() == 2 && host.is_well())
}

// KEEP-16 KEEP-20
#[test]
fn replies_wait_in_their_order(rt: HostRuntime) -> Result<(), Fail> {
    let clock = Stopped::new(&rt);
    let mut host = Host::with(&clock, &kept(plain(&HERE, 4))).map_err(|_| "no daemon")?;
    assert_eq!(rt; sets_the_first(&rt, &mut host), Some(true));
    assert_eq!(rt; answers_in_order(&rt, &mut host), Some(true));
    fs::remove_file(&rt, ROWS)?;
    Ok(())
}

/// In one turn come 32 datagrams to each of two addresses, and then 8 more on a connection: there is room for the lines of 64,
/// so these are written at once, and so are the others.
fn keeps_many(rt: &HostRuntime, host: &mut Host<'_>) -> Option<bool> {
    let mut callers = [
        Caller::for_host(rt, address())?,
        Caller::for_host(rt, address6())?,
    ];
    let mut client = Client::new(rt)?;
    host.turn();
    let mut are_right = true;
    let mut words = Vec::new(rt.alloc());
    let mut replies = Vec::new(rt.alloc());
    for i in 0..72 {
        let call = set(i, 200_100 + i);
        if i < 64 {
            let bytes = bytes_of(rt.alloc(), &call).ok()?;
            let (caller, to) = if i < 32 {
                (&callers[0], address())
            } else {
                (&callers[1], address6())
            };
            are_right &= caller.send_to(&bytes, to);
        } else {
            words.push(MARKS[0]).ok()?;
            words.extend_from_slice(&call).ok()?;
            replies.push(MARKS[1]).ok()?;
            replies.extend_from_slice(&reply(i, 1)).ok()?;
        }
    }
    are_right &= client.send(&bytes_of(rt.alloc(), &words).ok()?);
    host.turn();
    are_right &= host.rows_looks() == 2 && count_lines(rt)? == 73;
    for i in 0..64 {
        let caller = if i < 32 {
            &mut callers[0]
        } else {
            &mut callers[1]
        };
        are_right &= got_next(rt, caller, &reply(i, 1))?;
    }
    client.read();
    are_right &= client.got_just(&bytes_of(rt.alloc(), &replies).ok()?);
    Some(are_right && host.is_well())
}

// KEEP-18 KEEP-19
#[test]
fn more_changes_than_have_room_are_two_writes(rt: HostRuntime) -> Result<(), Fail> {
    let clock = Stopped::new(&rt);
    let mut host = Host::with(&clock, &kept(everywhere(&HERE, 4))).map_err(|_| "no daemon")?;
    assert_eq!(rt; sets_the_first(&rt, &mut host), Some(true));
    assert_eq!(rt; keeps_many(&rt, &mut host), Some(true));
    fs::remove_file(&rt, ROWS)?;
    Ok(())
}

/// A client sends 40 SETs in a row, more than a turn hands in: each is answered, in their order, and what changed in a turn is
/// one write.
fn keeps_a_row_of_calls(rt: &HostRuntime, host: &mut Host<'_>) -> Option<bool> {
    let mut client = Client::new(rt)?;
    host.turn();
    let mut words = Vec::new(rt.alloc());
    let mut replies = Vec::new(rt.alloc());
    for i in 0..40 {
        words.push(MARKS[0]).ok()?;
        words.extend_from_slice(&set(i, 200_100 + i)).ok()?;
        replies.push(MARKS[1]).ok()?;
        replies.extend_from_slice(&reply(i, 1)).ok()?;
    }
    let mut are_right = client.send(&bytes_of(rt.alloc(), &words).ok()?);
    let replies = bytes_of(rt.alloc(), &replies).ok()?;
    let turns = client.receive(host, replies.len());
    are_right &= client.got_just(&replies) && count_lines(rt)? == 41;
    Some(are_right && host.rows_looks() <= turns && host.is_well())
}

// KEEP-18 TURN-4
#[test]
fn calls_in_a_row_are_a_write_in_each_turn(rt: HostRuntime) -> Result<(), Fail> {
    let clock = Stopped::new(&rt);
    let mut host = Host::with(&clock, &kept(plain(&HERE, 4))).map_err(|_| "no daemon")?;
    assert_eq!(rt; sets_the_first(&rt, &mut host), Some(true));
    assert_eq!(rt; keeps_a_row_of_calls(&rt, &mut host), Some(true));
    fs::remove_file(&rt, ROWS)?;
    Ok(())
}
