//! Users of this host, as a table says that the test writes: whose rows they have, and who is given up if all places are
//! taken: eight connections may be open, of which one user keeps two.
use crate::client::Client;
use crate::door::{ACTIVE, calls};
use crate::messages::{bytes_of, null_record, null_reply_record};
use crate::trust::{by_datagram, by_record};
use crate::turns::{HERE, Host, PORT, Stopped, plain};
use rb_daemon::Settings;
use std::fs;
use std::io::Write;
use std::test::Fail;

/// The table, in the folder that the test runs in.
const TABLE: &str = "rb_daemon_tests.tcp";

/// How many connections may be open.
const PLACES: usize = 8;

/// More turns than a pass through the table takes.
const PASS: usize = 8;

fn new_host<'a>(clock: &'a Stopped) -> Result<Host<'a>, &'static str> {
    let settings = Settings {
        believe_claims: false,
        ..plain(&HERE, PLACES)
    };
    let mut host = Host::with(clock, &settings).map_err(|_| "no daemon")?;
    host.show(TABLE);
    Ok(host)
}

/// Adds the line of a client's socket, as of this user, after those of the table.
fn add_line(rt: &HostRuntime, table: &mut Vec<u8>, client: &Client, uid: u32) -> Option<()> {
    let port = client.own_end()?.port();
    writeln!(
        table,
        "   1: 0100007F:{port:04X} 0100007F:{PORT:04X} 01 00000000:00000000 00:00000000 00000000 {uid:>5}        0 4711"
    )
    .ok()?;
    fs::write(rt, TABLE, table.as_slice()).ok()
}

/// A client of this user, which was accepted.
fn comes(rt: &HostRuntime, host: &mut Host<'_>, table: &mut Vec<u8>, uid: u32) -> Option<Client> {
    let client = Client::new(rt)?;
    add_line(rt, table, &client, uid)?;
    host.turn();
    host.turn();
    Some(client)
}

/// The table before there are connections.
fn empty_table(rt: &HostRuntime) -> Option<Vec<u8>> {
    let mut table = Vec::new(rt.alloc());
    writeln!(table, "  sl  local_address rem_address   st").ok()?;
    fs::write(rt, TABLE, table.as_slice()).ok()?;
    Some(table)
}

/// Clients of one user have all places but one, and then one of another user comes. Once the table has shown whose they
/// are, further ones of the first user come, each of which calls later than the one of the other user. That is served in the
/// end all the same.
fn one_user_stays(
    rt: &HostRuntime,
    host: &mut Host<'_>,
    clock: &Stopped,
    uid: u32,
) -> Option<bool> {
    let mut table = empty_table(rt)?;
    let mut others = Vec::new(rt.alloc());
    for _ in 1..PLACES {
        let mut other = comes(rt, host, &mut table, 1000)?;
        if !calls(rt, host, &mut other)? {
            return Some(false);
        }
        others.push(other).ok()?;
    }
    clock.advance(1);
    let mut one = comes(rt, host, &mut table, uid)?;
    let is_served = calls(rt, host, &mut one)?;
    others.push(comes(rt, host, &mut table, 1000)?).ok()?;
    for _ in 0..PASS {
        host.turn();
    }
    clock.advance(ACTIVE / 2);
    for _ in 0..2 * PLACES {
        let mut other = comes(rt, host, &mut table, 1000)?;
        if !calls(rt, host, &mut other)? {
            return Some(false);
        }
        others.push(other).ok()?;
    }
    let is_served_again = calls(rt, host, &mut one)?;
    Some(is_served && is_served_again && host.is_well())
}

// DOOR-4 TABLES-8
#[test]
fn one_user_leaves_places_to_others(rt: HostRuntime) -> Result<(), Fail> {
    let clock = Stopped::new(&rt);
    for uid in [0, 2000] {
        let mut host = new_host(&clock)?;
        assert_eq!(rt;
            one_user_stays(&rt, &mut host, &clock, uid),
            Some(true),
            "{uid}"
        );
    }
    Ok(())
}

/// The words of a SET of version 2 as a record.
const SET: [u32; 15] = [
    0x8000_0038,
    3,
    0,
    2,
    100_000,
    2,
    1,
    0,
    0,
    0,
    0,
    200_001,
    1,
    6,
    2049,
];

/// All places are taken, all but one by clients that have done nothing for long. The last one waits for no reply: it sends a
/// SET and ends what it sends, or all but the last byte of one. It is given up for a client that comes, in the turn in which
/// that is held back.
fn unawaited_is_given_up(
    rt: &HostRuntime,
    host: &mut Host<'_>,
    clock: &Stopped,
    is_whole: bool,
) -> Option<bool> {
    let mut table = empty_table(rt)?;
    let mut idle = Vec::new(rt.alloc());
    for _ in 1..PLACES {
        idle.push(comes(rt, host, &mut table, 1000)?).ok()?;
    }
    clock.advance(2 * ACTIVE);
    let mut last = Client::new(rt)?;
    host.turn();
    let mut newcomer = Client::new(rt)?;
    let set = bytes_of(rt.alloc(), &SET).ok()?;
    let is_sent = if is_whole {
        last.send(&set) && last.end()
    } else {
        last.send(set.get(..set.len() - 1)?)
    };
    let is_served = calls(rt, host, &mut newcomer)?;
    last.receive(host, 1);
    let mut are_served = true;
    for client in &mut idle {
        are_served &= calls(rt, host, client)?;
    }
    let is_closed = last.is_closed() && last.got().is_empty();
    Some(is_sent && is_served && is_closed && are_served && host.is_well())
}

// DOOR-10 DOOR-13
#[test]
fn unawaited_goes_first(rt: HostRuntime) -> Result<(), Fail> {
    let clock = Stopped::new(&rt);
    for is_whole in [true, false] {
        let mut host = new_host(&clock)?;
        assert_eq!(rt;
            unawaited_is_given_up(&rt, &mut host, &clock, is_whole),
            Some(true),
            "{is_whole}"
        );
    }
    Ok(())
}

/// Adds lines of others, which are more than a slice.
fn add_others(rt: &HostRuntime, table: &mut Vec<u8>) -> Option<()> {
    for _ in 0..1000 {
        writeln!(
            table,
            "   2: 0100007F:0001 0100007F:0002 01 00000000:00000000 00:00000000 00000000     0        0 1"
        )
        .ok()?;
    }
    fs::write(rt, TABLE, table.as_slice()).ok()
}

/// A look-up comes in two pieces, of which the first might begin a SET, while the table is read, which takes several turns.
fn pieces_are_answered(rt: &HostRuntime, host: &mut Host<'_>) -> Option<bool> {
    let mut table = empty_table(rt)?;
    let mut client = comes(rt, host, &mut table, 1000)?;
    add_others(rt, &mut table)?;
    let call = null_record(rt.alloc(), 1).ok()?;
    let (first, rest) = call.split_at_checked(20)?;
    let is_held = client.send(first) && client.receive_nothing(host);
    let is_sent = client.send(rest);
    let turns = client.receive(host, 28);
    let reply = null_reply_record(rt.alloc(), 1).ok()?;
    Some(is_held && is_sent && turns == 1 && client.got_just(&reply) && host.is_well())
}

// ASK-4
#[test]
fn look_up_in_pieces_waits_for_nothing(rt: HostRuntime) -> Result<(), Fail> {
    let clock = Stopped::new(&rt);
    let mut host = new_host(&clock)?;
    assert_eq!(rt; pieces_are_answered(&rt, &mut host), Some(true));
    Ok(())
}

/// A user's row is removed by neither another user nor who is not known, and then by the user.
fn users_own_rows(rt: &HostRuntime, host: &mut Host<'_>) -> Option<bool> {
    let mut table = empty_table(rt)?;
    let mut one = comes(rt, host, &mut table, 1000)?;
    let mut another = comes(rt, host, &mut table, 2000)?;
    let is_set = by_record(rt, host, &mut one, 1, 1)?;
    let is_kept = by_record(rt, host, &mut another, 2, 0)? && by_datagram(rt, host, 2, 0)?;
    let mut again = comes(rt, host, &mut table, 1000)?;
    let is_removed = by_record(rt, host, &mut again, 2, 1)?;
    Some(is_set && is_kept && is_removed && host.is_well())
}

// TRUST-5
#[test]
fn users_of_the_table_own_their_rows(rt: HostRuntime) -> Result<(), Fail> {
    let clock = Stopped::new(&rt);
    let mut host = new_host(&clock)?;
    assert_eq!(rt; users_own_rows(&rt, &mut host), Some(true));
    Ok(())
}

/// What no line shows is nobody's: so is what comes from another network namespace by a forwarded port.
fn unseen_is_nobodys(rt: &HostRuntime, host: &mut Host<'_>) -> Option<bool> {
    empty_table(rt)?;
    let mut client = Client::new(rt)?;
    let is_set = by_record(rt, host, &mut client, 1, 1)?;
    Some(is_set && by_datagram(rt, host, 2, 1)? && host.is_well())
}

// TRUST-6 TABLES-7
#[test]
fn who_is_in_no_table_is_nobody(rt: HostRuntime) -> Result<(), Fail> {
    let clock = Stopped::new(&rt);
    let mut host = new_host(&clock)?;
    assert_eq!(rt; unseen_is_nobodys(&rt, &mut host), Some(true));
    Ok(())
}

/// A client resets its connection while the table is read, of which two slices are there: its SET waits behind two calls of
/// NULL, whose replies it has not read as it leaves. The table has its line all the same, as of another connection between
/// these two ends. What it set is nobody's.
fn reset_is_nobodys(rt: &HostRuntime, host: &mut Host<'_>) -> Option<bool> {
    let mut table = empty_table(rt)?;
    let mut client = comes(rt, host, &mut table, 1000)?;
    add_others(rt, &mut table)?;
    let mut piece = null_record(rt.alloc(), 1).ok()?;
    piece
        .extend_from_slice(&null_record(rt.alloc(), 2).ok()?)
        .ok()?;
    piece
        .extend_from_slice(&bytes_of(rt.alloc(), &SET).ok()?)
        .ok()?;
    let is_sent = client.send(&piece);
    host.turn();
    drop(client);
    for _ in 0..PASS {
        host.turn();
    }
    Some(is_sent && by_datagram(rt, host, 2, 1)? && host.is_well())
}

// TABLES-5
#[test]
fn owner_that_resets_is_nobody(rt: HostRuntime) -> Result<(), Fail> {
    let clock = Stopped::new(&rt);
    let mut host = new_host(&clock)?;
    assert_eq!(rt; reset_is_nobodys(&rt, &mut host), Some(true));
    Ok(())
}
