//! Who is given up if all places are taken and another client comes: two connections may be open.
use crate::client::{Caller, Client};
use crate::forwards::{TWO_CALLS, sets_target};
use crate::leaving::dumps;
use crate::listeners::new_host;
use crate::lists::sets_rows;
use crate::messages::{bytes_of, null_record, null_reply_record};
use crate::readers::{full_reader, sets_other_rows};
use crate::turns::{Host, Stopped};
use std::io::Write;
use std::net::SocketAddr;
use std::test::Fail;

/// The milliseconds after its last progress for which a connection is active.
pub(crate) const ACTIVE: u64 = 1_000;

/// The milliseconds that bytes that are owed may wait.
const OWED: u64 = 30_000;

/// A connection that was opened and served in turns of its own.
fn connects(rt: &HostRuntime, host: &mut Host<'_>) -> Option<Client> {
    let client = Client::new(rt)?;
    host.turn();
    host.turn();
    Some(client)
}

/// A NULL call is answered, after what was before.
pub(crate) fn calls(rt: &HostRuntime, host: &mut Host<'_>, client: &mut Client) -> Option<bool> {
    let before = client.got().len();
    let is_sent = client.send(&null_record(rt.alloc(), 1).ok()?);
    client.receive(host, before + 28);
    let reply = null_reply_record(rt.alloc(), 1).ok()?;
    Some(is_sent && client.got().get(before..)? == reply.as_slice())
}

/// Half of a call was sent, and read.
fn calls_by_half(rt: &HostRuntime, host: &mut Host<'_>) -> Option<Client> {
    let call = null_record(rt.alloc(), 1).ok()?;
    let mut client = connects(rt, host)?;
    let is_begun = client.send(call.get(..20)?) && client.receive_nothing(host);
    if is_begun { Some(client) } else { None }
}

/// A call was sent that is forwarded to a target that does not answer.
fn calls_in_vain(rt: &HostRuntime, host: &mut Host<'_>) -> Option<Client> {
    let mut client = connects(rt, host)?;
    let is_sent = client.send(&bytes_of(rt.alloc(), &TWO_CALLS).ok()?);
    let waits = is_sent && client.receive_nothing(host);
    if waits { Some(client) } else { None }
}

/// A third client comes, and is served. One of the two is closed, and the other stays open.
fn gives_up(
    rt: &HostRuntime,
    host: &mut Host<'_>,
    closed: &mut Client,
    open: &mut Client,
) -> Option<bool> {
    let mut third = connects(rt, host)?;
    let is_served = calls(rt, host, &mut third)?;
    let _ = closed.discard();
    let _ = open.discard();
    Some(is_served && closed.is_closed() && !open.is_closed() && host.is_well())
}

/// The first sends a record byte by byte, which is no progress; the second has its calls answered.
fn gives_up_who_drips(rt: &HostRuntime, host: &mut Host<'_>, clock: &Stopped) -> Option<bool> {
    let call = null_record(rt.alloc(), 1).ok()?;
    let mut first = connects(rt, host)?;
    let mut second = connects(rt, host)?;
    for byte in call.chunks(1).take(10) {
        clock.advance(ACTIVE / 4);
        first.send(byte);
        host.turn();
    }
    let is_served = calls(rt, host, &mut second)?;
    Some(is_served && gives_up(rt, host, &mut first, &mut second)?)
}

// DOOR-3 PROGRESS-1
#[test]
fn dripped_bytes_keep_no_place(rt: HostRuntime) -> Result<(), Fail> {
    let clock = Stopped::new(&rt);
    let mut host = Host::new(&clock, 2).ok_or("no daemon")?;
    assert_eq!(rt; gives_up_who_drips(&rt, &mut host, &clock), Some(true));
    Ok(())
}

/// Both were active of late. The first has had its call answered, after the second had sent half of one.
fn gives_up_the_idle(rt: &HostRuntime, host: &mut Host<'_>, clock: &Stopped) -> Option<bool> {
    let call = null_record(rt.alloc(), 1).ok()?;
    let (half, _) = call.split_at_checked(20)?;
    let mut first = connects(rt, host)?;
    let mut second = connects(rt, host)?;
    let is_sent = second.send(half);
    host.turn();
    clock.advance(ACTIVE / 2);
    let is_served = calls(rt, host, &mut first)?;
    Some(is_sent && is_served && gives_up(rt, host, &mut first, &mut second)?)
}

// DOOR-3
#[test]
fn idle_goes_before_reading(rt: HostRuntime) -> Result<(), Fail> {
    let clock = Stopped::new(&rt);
    let mut host = Host::new(&clock, 2).ok_or("no daemon")?;
    assert_eq!(rt; gives_up_the_idle(&rt, &mut host, &clock), Some(true));
    Ok(())
}

/// The call of the first is forwarded to a target that does not answer. The second came later.
fn gives_up_who_waits_for_nothing(rt: &HostRuntime, host: &mut Host<'_>) -> Option<bool> {
    let is_set = sets_target(rt, host, &mut Caller::new(rt, 0)?)?;
    let mut first = connects(rt, host)?;
    let is_sent = first.send(&bytes_of(rt.alloc(), &TWO_CALLS).ok()?);
    host.turn();
    let mut second = connects(rt, host)?;
    Some(is_set && is_sent && gives_up(rt, host, &mut second, &mut first)?)
}

// DOOR-3 DOOR-7
#[test]
fn waiting_connection_stays(rt: HostRuntime) -> Result<(), Fail> {
    let clock = Stopped::new(&rt);
    let mut host = Host::new(&clock, 2).ok_or("no daemon")?;
    assert_eq!(rt; gives_up_who_waits_for_nothing(&rt, &mut host), Some(true));
    Ok(())
}

/// The first waits for replies, and the second for the rest of its call. The first came later.
fn gives_up_who_reads_no_reply(
    rt: &HostRuntime,
    host: &mut Host<'_>,
    clock: &Stopped,
) -> Option<bool> {
    let are_set = sets_other_rows(rt, host, clock)?;
    let mut first = full_reader(rt, host)?;
    clock.advance(1);
    let mut second = calls_by_half(rt, host)?;
    Some(are_set && gives_up(rt, host, &mut second, &mut first)?)
}

// DOOR-3
#[test]
fn reading_goes_before_owing(rt: HostRuntime) -> Result<(), Fail> {
    let clock = Stopped::new(&rt);
    let mut host = new_host(&rt, &clock, 2)?;
    assert_eq!(rt;
        gives_up_who_reads_no_reply(&rt, &mut host, &clock),
        Some(true)
    );
    Ok(())
}

/// The call of the first is forwarded, and the second came later and reads no replies.
fn gives_up_who_does_not_read(
    rt: &HostRuntime,
    host: &mut Host<'_>,
    clock: &Stopped,
) -> Option<bool> {
    let is_set = sets_target(rt, host, &mut Caller::new(rt, 0)?)?;
    let rows = sets_rows(rt, host, 280)?;
    let mut first = calls_in_vain(rt, host)?;
    clock.advance(1);
    let mut second = full_reader(rt, host)?;
    Some(is_set && rows && gives_up(rt, host, &mut second, &mut first)?)
}

// DOOR-3 DOOR-6
#[test]
fn owing_goes_before_awaiting(rt: HostRuntime) -> Result<(), Fail> {
    let clock = Stopped::new(&rt);
    let mut host = new_host(&rt, &clock, 2)?;
    assert_eq!(rt;
        gives_up_who_does_not_read(&rt, &mut host, &clock),
        Some(true)
    );
    Ok(())
}

/// Neither reads its replies, but the first did so once, long after the second came.
fn gives_up_who_never_did(rt: &HostRuntime, host: &mut Host<'_>, clock: &Stopped) -> Option<bool> {
    let are_set = sets_other_rows(rt, host, clock)?;
    let mut first = full_reader(rt, host)?;
    let mut second = full_reader(rt, host)?;
    clock.advance(ACTIVE / 2);
    let has_read = first.discard() > 0;
    host.turn();
    clock.advance(ACTIVE / 2);
    Some(are_set && has_read && gives_up(rt, host, &mut second, &mut first)?)
}

// PROGRESS-1
#[test]
fn bytes_taken_are_progress(rt: HostRuntime) -> Result<(), Fail> {
    let clock = Stopped::new(&rt);
    let mut host = new_host(&rt, &clock, 2)?;
    assert_eq!(rt; gives_up_who_never_did(&rt, &mut host, &clock), Some(true));
    Ok(())
}

/// Both had their calls answered of late, the first later than the second.
fn gives_up_the_older(rt: &HostRuntime, host: &mut Host<'_>, clock: &Stopped) -> Option<bool> {
    let mut first = connects(rt, host)?;
    let mut second = connects(rt, host)?;
    clock.advance(1);
    let is_second = calls(rt, host, &mut second)?;
    clock.advance(1);
    let is_first = calls(rt, host, &mut first)?;
    Some(is_second && is_first && gives_up(rt, host, &mut second, &mut first)?)
}

// DOOR-3
#[test]
fn older_goes_before_newer(rt: HostRuntime) -> Result<(), Fail> {
    let clock = Stopped::new(&rt);
    let mut host = Host::new(&clock, 2).ok_or("no daemon")?;
    assert_eq!(rt; gives_up_the_older(&rt, &mut host, &clock), Some(true));
    Ok(())
}

/// The first has sent half of a call, and the second has had one answered a millisecond after the first came.
fn half_and_idle(
    rt: &HostRuntime,
    host: &mut Host<'_>,
    clock: &Stopped,
) -> Option<(Client, Client)> {
    let first = calls_by_half(rt, host)?;
    clock.advance(1);
    let mut second = connects(rt, host)?;
    if calls(rt, host, &mut second)? {
        Some((first, second))
    } else {
        None
    }
}

/// In the last millisecond in which the second is active the first goes, which is active no more.
fn gives_up_the_inactive(rt: &HostRuntime, host: &mut Host<'_>, clock: &Stopped) -> Option<bool> {
    let (mut first, mut second) = half_and_idle(rt, host, clock)?;
    clock.advance(ACTIVE - 1);
    gives_up(rt, host, &mut first, &mut second)
}

/// A millisecond later neither is active, and who is idle goes.
fn gives_up_the_idle_of_both(
    rt: &HostRuntime,
    host: &mut Host<'_>,
    clock: &Stopped,
) -> Option<bool> {
    let (mut first, mut second) = half_and_idle(rt, host, clock)?;
    clock.advance(ACTIVE);
    gives_up(rt, host, &mut second, &mut first)
}

// DOOR-3
#[test]
fn last_second_counts(rt: HostRuntime) -> Result<(), Fail> {
    let clock = Stopped::at(&rt, 1_000_500, 5_900);
    let mut host = Host::new(&clock, 2).ok_or("no daemon")?;
    assert_eq!(rt; gives_up_the_inactive(&rt, &mut host, &clock), Some(true));
    drop(host);
    let mut host = Host::new(&clock, 2).ok_or("no daemon")?;
    assert_eq!(rt;
        gives_up_the_idle_of_both(&rt, &mut host, &clock),
        Some(true)
    );
    Ok(())
}

/// A third client comes in the place of the first, and does nothing. It counts as one that came last, and that has sent no
/// call, whatever was in its place.
fn begins_anew(rt: &HostRuntime, host: &mut Host<'_>, clock: &Stopped) -> Option<bool> {
    let mut first = connects(rt, host)?;
    let mut second = calls_by_half(rt, host)?;
    let is_served = calls(rt, host, &mut first)?;
    clock.advance(1);
    let mut third = connects(rt, host)?;
    first.discard();
    let is_up = first.is_closed() && !second.is_closed();
    Some(is_served && is_up && gives_up(rt, host, &mut second, &mut third)?)
}

// PROGRESS-1
#[test]
fn place_begins_anew(rt: HostRuntime) -> Result<(), Fail> {
    let clock = Stopped::new(&rt);
    let mut host = Host::new(&clock, 2).ok_or("no daemon")?;
    assert_eq!(rt; begins_anew(&rt, &mut host, &clock), Some(true));
    Ok(())
}

/// The line of the log on a connection from there.
fn given_up_line(rt: &HostRuntime, from: SocketAddr) -> Option<Vec<u8>> {
    let mut line = Vec::new(rt.alloc());
    writeln!(line, "rpcbind: connection of {from} given up").ok()?;
    Some(line)
}

/// Whether the log tells just that a connection from there was given up.
fn is_told(rt: &HostRuntime, host: &mut Host<'_>, from: SocketAddr) -> Option<bool> {
    Some(host.take_log()?.as_slice() == given_up_line(rt, from)?.as_slice())
}

/// Of two connections the second is given up for a client that comes, and the first at its deadline.
fn tells_who_is_given_up(rt: &HostRuntime, host: &mut Host<'_>, clock: &Stopped) -> Option<bool> {
    let mut first = connects(rt, host)?;
    let mut second = connects(rt, host)?;
    let is_second = calls(rt, host, &mut second)?;
    clock.advance(1);
    let is_first = calls(rt, host, &mut first)?;
    let is_up = gives_up(rt, host, &mut second, &mut first)?;
    let is_second_told = is_told(rt, host, second.own_end()?)?;
    clock.advance(300_000);
    first.receive(host, 29);
    let is_over = first.is_closed() && is_told(rt, host, first.own_end()?)?;
    Some(is_first && is_second && is_up && is_second_told && is_over && host.is_well())
}

#[test]
fn log_tells_who_is_given_up(rt: HostRuntime) -> Result<(), Fail> {
    let clock = Stopped::new(&rt);
    let mut host = new_host(&rt, &clock, 2)?;
    assert_eq!(rt; tells_who_is_given_up(&rt, &mut host, &clock), Some(true));
    Ok(())
}

/// A client asks for more lists than its socket takes, and reads none of them until its time is over.
fn gives_up_who_never_reads(
    rt: &HostRuntime,
    host: &mut Host<'_>,
    clock: &Stopped,
) -> Option<bool> {
    let are_set = sets_rows(rt, host, 294)?;
    let lists = dumps(rt.alloc(), 400)?;
    let mut reader = connects(rt, host)?;
    let mut are_sent = true;
    for i in 0..200 {
        are_sent = are_sent && (i >= 4 || reader.send(&lists));
        host.turn();
    }
    clock.advance(OWED);
    host.turn();
    reader.read_through(host, usize::MAX);
    Some(are_set && are_sent && reader.is_closed() && host.is_well())
}

// DOOR-6
#[test]
fn who_never_reads_is_closed(rt: HostRuntime) -> Result<(), Fail> {
    let clock = Stopped::new(&rt);
    let mut host = Host::new(&clock, 1).ok_or("no daemon")?;
    assert_eq!(rt;
        gives_up_who_never_reads(&rt, &mut host, &clock),
        Some(true)
    );
    Ok(())
}
