//! The process stands still, and clients have sent on meanwhile. How long a turn waits.
use crate::client::{Caller, Client};
use crate::listeners::new_host;
use crate::messages::{bytes_of, null_record, null_reply_record};
use crate::turns::{Host, Stopped, WAIT};
use std::test::Fail;

/// More connections than one wait shows.
const CLIENTS: usize = 150;

/// Longer than a record may take, in milliseconds.
const PAUSE: u64 = 36_000;

/// Clients that have sent half of a call each, which the daemon has read.
fn half_sent(rt: &HostRuntime, host: &mut Host<'_>, half: &[u8]) -> Option<Vec<Client>> {
    let mut clients = Vec::new(rt.alloc());
    for _ in 0..CLIENTS {
        clients.push(Client::new(rt)?).ok()?;
        host.turn();
    }
    for client in &mut clients {
        if !client.send(half) {
            return None;
        }
    }
    for _ in 0..10 {
        host.turn();
    }
    Some(clients)
}

/// How many of the clients that send the rest in the pause have an answer after it.
fn count_answered(rt: &HostRuntime, host: &mut Host<'_>, clock: &Stopped) -> Option<usize> {
    let call = null_record(rt.alloc(), 1).ok()?;
    let reply = null_reply_record(rt.alloc(), 1).ok()?;
    let (half, rest) = call.split_at_checked(20)?;
    let mut clients = half_sent(rt, host, half)?;
    for client in &mut clients {
        client.send(rest);
    }
    clock.advance(PAUSE);
    let mut count = 0usize;
    for client in &mut clients {
        client.receive(host, 28);
        if client.got_just(&reply) && !client.is_closed() {
            count = count.saturating_add(1);
        }
    }
    Some(count)
}

// DUE-2 DUE-3 WAIT-3
#[test]
fn calls_are_read_after_a_pause(rt: HostRuntime) -> Result<(), Fail> {
    let clock = Stopped::new(&rt);
    let mut host = Host::new(&clock, CLIENTS).ok_or("no daemon")?;
    assert_eq!(rt; count_answered(&rt, &mut host, &clock), Some(CLIENTS));
    assert!(rt; host.is_well());
    Ok(())
}

/// By its clock no time passes in a wait that shows nothing, as in one that a signal ends, so the daemon sleeps for it;
/// and not for one that shows something.
fn sleeps(rt: &HostRuntime, host: &mut Host<'_>, clock: &Stopped) -> Option<(u64, u64)> {
    host.turn();
    host.turn();
    let before = clock.slept();
    host.turn();
    let passed = clock.slept().saturating_sub(before);
    let _client = Client::new(rt)?;
    host.turn();
    Some((passed, clock.slept().saturating_sub(before)))
}

// WAIT-1
#[test]
fn interrupted_wait_is_slept(rt: HostRuntime) -> Result<(), Fail> {
    let clock = Stopped::new(&rt);
    let mut host = Host::new(&clock, 1).ok_or("no daemon")?;
    assert_eq!(rt; sleeps(&rt, &mut host, &clock), Some((WAIT, WAIT)));
    Ok(())
}

/// What comes next is due in this many milliseconds, which is sooner than the end of a wait.
pub(crate) const SOON: u64 = 5;

/// How long a turn waits in which nothing is shown, in milliseconds, after one that showed its moment.
pub(crate) fn wait_of_a_turn(host: &mut Host<'_>, clock: &Stopped) -> u64 {
    host.turn();
    let before = clock.slept();
    host.turn();
    clock.slept().saturating_sub(before)
}

/// An idle connection is closed after this many milliseconds.
const IDLE: u64 = 300_000;

fn waits_for_a_deadline(rt: &HostRuntime, host: &mut Host<'_>, clock: &Stopped) -> Option<u64> {
    let mut client = Client::new(rt)?;
    let is_open = client.receive_nothing(host) && client.receive_nothing(host);
    clock.advance(IDLE - SOON);
    let wait = wait_of_a_turn(host, clock);
    if is_open && client.receive_nothing(host) {
        Some(wait)
    } else {
        None
    }
}

// WAIT-2
#[test]
fn turn_waits_until_a_deadline(rt: HostRuntime) -> Result<(), Fail> {
    let clock = Stopped::new(&rt);
    let mut host = Host::new(&clock, 1).ok_or("no daemon")?;
    assert_eq!(rt; waits_for_a_deadline(&rt, &mut host, &clock), Some(SOON));
    Ok(())
}

/// More refused calls than the log has lines in a second, which is 20.
const REFUSED: u32 = 25;

/// What the log tells of those that were left out, after their second.
const LEFT_OUT: &[u8] = b"rpcbind: 5 more refused calls by 127.0.0.1\n";

/// So many calls are refused, whose lines are taken.
fn refuses_many(rt: &HostRuntime, host: &mut Host<'_>) -> Option<Caller> {
    let mut caller = Caller::new(rt, 0)?;
    for xid in 0..REFUSED {
        let call = bytes_of(rt.alloc(), &[xid, 0, 2, 100_000, 9, 0, 0, 0, 0, 0]).ok()?;
        if !caller.send(&call) {
            return None;
        }
        caller.receive(host);
    }
    host.take_log()?;
    Some(caller)
}

/// How long a turn waits for that line, and whether it comes.
fn waits_for_a_line(
    rt: &HostRuntime,
    host: &mut Host<'_>,
    clock: &Stopped,
) -> Option<(u64, bool, bool)> {
    let _caller = refuses_many(rt, host)?;
    clock.advance(1_000 - SOON);
    let wait = wait_of_a_turn(host, clock);
    let is_early = !host.take_log()?.is_empty();
    clock.advance(SOON);
    host.turn();
    Some((wait, is_early, host.take_log()?.as_slice() == LEFT_OUT))
}

/// Whether the line on those that were left out comes before that of the next call, in a later second.
fn tells_before_the_next(rt: &HostRuntime, host: &mut Host<'_>, clock: &Stopped) -> Option<bool> {
    let mut caller = refuses_many(rt, host)?;
    clock.advance(1_000);
    let is_sent = caller.send(&bytes_of(rt.alloc(), VERSION_9.get(1..)?).ok()?);
    caller.receive(host);
    let log = host.take_log()?;
    Some(is_sent && log.starts_with(LEFT_OUT) && log.ends_with(b" refused: version unavailable\n"))
}

/// A call of version 9 in a record of 40 bytes, and how many bytes its reply has there.
const VERSION_9: [u32; 11] = [0x8000_0028, 7, 0, 2, 100_000, 9, 0, 0, 0, 0, 0];

const LONG: usize = 36;

const OF_ANOTHER: &[u8] = b"rpcbind: call by local refused: version unavailable\n";

/// Whether the line of a refused call on the local socket comes after more of another owner's than the log has.
fn shows_another(rt: &HostRuntime, host: &mut Host<'_>) -> Option<bool> {
    let mut caller = Caller::new(rt, 0)?;
    for _ in 0..REFUSED {
        if !caller.send(&bytes_of(rt.alloc(), VERSION_9.get(1..)?).ok()?) {
            return None;
        }
        caller.receive(host);
    }
    host.take_log()?;
    let mut other = Client::local(rt)?;
    if !other.send(&bytes_of(rt.alloc(), &VERSION_9).ok()?) {
        return None;
    }
    other.receive(host, LONG);
    Some(host.take_log()?.as_slice() == OF_ANOTHER)
}

// LOG-4: one owner's lines hide no line of another's
#[test]
fn owners_have_lines_of_their_own(rt: HostRuntime) -> Result<(), Fail> {
    let clock = Stopped::new(&rt);
    let mut host = new_host(&rt, &clock, 2)?;
    assert_eq!(rt; shows_another(&rt, &mut host), Some(true));
    Ok(())
}

// WAIT-2
#[test]
fn turn_waits_until_a_line(rt: HostRuntime) -> Result<(), Fail> {
    let clock = Stopped::new(&rt);
    let mut host = new_host(&rt, &clock, 1)?;
    assert_eq!(rt;
        waits_for_a_line(&rt, &mut host, &clock),
        Some((SOON, false, true))
    );
    Ok(())
}

// LOG-5: also of a caller that calls again before they are told
#[test]
fn lines_left_out_are_told_before_the_next(rt: HostRuntime) -> Result<(), Fail> {
    let clock = Stopped::new(&rt);
    let mut host = new_host(&rt, &clock, 1)?;
    assert_eq!(rt; tells_before_the_next(&rt, &mut host, &clock), Some(true));
    Ok(())
}
